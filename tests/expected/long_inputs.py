"""Inputs about the most bytes that are read, and the most that one of them can print."""
from stored import Case

MOST = 65_536
SHOW = b"call=show\n"
SHORT = SHOW

# 8 blocks of 17 bytes and 6,540 of 10 make up 65,536; on a lane never started each is refused.
FILLED = b"call=leave\ncar=1\n" * 8 + SHOW * 6_540
FILLED_ANSWER = b"no=21\n" * 6_548


def cases():
    assert len(FILLED) == MOST
    too_long = b"no=10\n"
    yield Case("65,536 bytes", FILLED, FILLED_ANSWER)
    yield Case("65,536 bytes, the last no newline", FILLED[:-1] + b"x", FILLED_ANSWER[6:] + b"no=8\n")
    yield Case("65,536 bytes, malformed at once", bytes(MOST), b"no=8\n")
    yield Case("65,537 bytes, one newline too many", FILLED + b"\n", too_long)
    yield Case("65,537 bytes, the last line not ended", FILLED + b"c", too_long)
    yield Case("65,537 bytes, malformed at once", bytes(MOST + 1), too_long)
    yield Case("one block too many", FILLED + SHOW, too_long)
    yield Case("a million bytes", SHOW * 100_000, too_long)
    yield most_printed()


def most_printed():
    """A full lane of the widest figures, shown as often as the input has room for."""
    start = b"call=start\nsurface=0\nend=2147483648\nlimit=8192\ncycle=0\n"
    # At 8,192 the stop at b takes 1,048,576 and the stop at B less: a gap of as much to the tail ahead is safe. No own rate is below b.
    step = 1_048_576 + 65_535
    carriers = [(65_535 - place, 2_147_483_647 - step * place, 8_192, 65_535, 255 - place) for place in range(64)]
    lines = [b"car=%d\nat=%d\nspeed=%d\nlength=%d\nbrake=%d\n" % carrier for carrier in carriers]
    enters = b"".join(b"call=enter\n" + block for block in lines)
    entered = b"".join(b"ok=enter\nplace=%d\n" % place for place in range(64))
    text = b"cars=64\n" + b"".join(lines)
    shows = (MOST - len(start + enters)) // len(SHOW)
    return Case("the most printed", start + enters + SHOW * shows, b"ok=start\n" + entered + (b"ok=show\n" + text) * shows)
