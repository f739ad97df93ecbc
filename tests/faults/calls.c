// The C library's read, write and fsync, made to move few bytes, to be interrupted, to be too early and to fail, as the environment says. To be
// preloaded. Only standard input and standard output are touched.
//   READ_PIECE, WRITE_PIECE      most bytes that a call moves
//   READ_SIGNALS, WRITE_SIGNALS  how many calls are interrupted before each that goes through
//   READ_WAITS, WRITE_WAITS      how many calls find the descriptor not ready before each that goes through, after the interrupted ones
//   READ_FAILS, WRITE_FAILS      the call that fails, counted from 1 among those that go through
//   WRITE_NOTHING                the call that writes no byte and sets no error, so counted
//   CLOSE_FAILS                  1: the file under standard output is not kept, which an fsync of it tells, by any descriptor
#define _GNU_SOURCE
#include <errno.h>
#include <stdlib.h>
#include <sys/stat.h>
#include <sys/syscall.h>
#include <unistd.h>

static long setting(const char *name)
{
    const char *value = getenv(name);
    return value ? atol(value) : 0;
}

struct way {
    int fd;
    long number;
    const char *piece, *signals, *waits, *fails, *nothing;
    long calls, held;
};

static struct way input = {STDIN_FILENO, SYS_read, "READ_PIECE", "READ_SIGNALS", "READ_WAITS", "READ_FAILS", "NONE", 0, 0};
static struct way output = {STDOUT_FILENO, SYS_write, "WRITE_PIECE", "WRITE_SIGNALS", "WRITE_WAITS", "WRITE_FAILS", "WRITE_NOTHING", 0, 0};

static ssize_t moved(struct way *w, long bytes, size_t count)
{
    long signals = setting(w->signals);
    if (w->held < signals + setting(w->waits)) {
        errno = w->held < signals ? EINTR : EAGAIN;
        w->held++;
        return -1;
    }
    w->held = 0;
    w->calls++;
    if (w->calls == setting(w->fails)) {
        errno = EIO;
        return -1;
    }
    if (w->calls == setting(w->nothing))
        return 0;
    long piece = setting(w->piece);
    if (piece && (size_t)piece < count)
        count = piece;
    return syscall(w->number, w->fd, bytes, count);
}

ssize_t read(int fd, void *bytes, size_t count)
{
    return fd == input.fd ? moved(&input, (long)bytes, count) : syscall(SYS_read, fd, bytes, count);
}

ssize_t write(int fd, const void *bytes, size_t count)
{
    return fd == output.fd ? moved(&output, (long)bytes, count) : syscall(SYS_write, fd, bytes, count);
}

static int same_file(int fd, int other)
{
    struct stat one, two;
    return !fstat(fd, &one) && !fstat(other, &two) && one.st_dev == two.st_dev && one.st_ino == two.st_ino;
}

int fsync(int fd)
{
    if (setting("CLOSE_FAILS") && same_file(fd, output.fd)) {
        errno = EIO;
        return -1;
    }
    return syscall(SYS_fsync, fd);
}
