"""Ways to run the program: input from a file or in pieces, output to where nothing can be written."""
import itertools
import os
import signal
import subprocess
import tempfile
import threading
import time

SECONDS = 20  # A run that takes longer counts as hanging.
PAUSE = 0.001  # Between two pieces, so that the program's reads come short.
PIECES = (1, 1, 7, 29, 61, 251, 1021, 4093)  # Bytes of the first pieces; the last length repeats.


def from_file(program, text):
    """The exit status and the output, or None where the program does not end."""
    with tempfile.TemporaryFile() as file:
        file.write(text)
        file.seek(0)
        try:
            done = subprocess.run([program], stdin=file, stdout=subprocess.PIPE, timeout=SECONDS)
        except subprocess.TimeoutExpired:
            return None
        return done.returncode, done.stdout


def in_pieces(program, text):
    """As from_file, through a pipe that fills piece by piece."""
    with subprocess.Popen([program], stdin=subprocess.PIPE, stdout=subprocess.PIPE, bufsize=0) as process:
        clock = threading.Timer(SECONDS, process.kill)
        writer = threading.Thread(target=write_pieces, args=(process.stdin, text))
        clock.start()
        writer.start()
        output = b"".join(iter(lambda: process.stdout.read(1 << 20), b""))
        status = process.wait()
        hung = not clock.is_alive()
        clock.cancel()
        writer.join()
    return None if hung else (status, output)


def write_pieces(pipe, text):
    try:
        for piece in pieces(text):
            pipe.write(piece)
            time.sleep(PAUSE)
        pipe.close()
    except BrokenPipeError:
        pass  # The program need not read on once it knows its answer.


def pieces(text):
    start = 0
    for length in itertools.chain(PIECES, itertools.repeat(PIECES[-1])):
        if start >= len(text):
            return
        yield text[start : start + length]
        start += length


def ends(program, text, output, **options):
    """Whether the program ends, whatever its status, with `output` as its standard output."""
    with tempfile.TemporaryFile() as file:
        file.write(text)
        file.seek(0)
        try:
            subprocess.run(
                [program], stdin=file, stdout=output, stderr=subprocess.DEVNULL, timeout=SECONDS, **options
            )
        except subprocess.TimeoutExpired:
            return False
        return True


def output_closed(program, text, **options):
    """Nobody reads, and the signal of that is as a process begins with it."""
    reading, writing = os.pipe()
    os.close(reading)
    try:
        return ends(program, text, writing, **options)
    finally:
        os.close(writing)


def output_closed_signal_ignored(program, text):
    """Nobody reads, and each write fails."""
    return output_closed(program, text, preexec_fn=lambda: signal.signal(signal.SIGPIPE, signal.SIG_IGN))


def output_full(program, text):
    """A device without room."""
    with open("/dev/full", "wb") as full:
        return ends(program, text, full)


def output_missing(program, text):
    """No standard output at all."""
    return ends(program, text, None, preexec_fn=lambda: os.close(1))


WITHOUT_OUTPUT = (output_closed, output_closed_signal_ignored, output_full, output_missing)
