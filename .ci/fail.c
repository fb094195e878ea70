/* Loaded before a program's libraries, it makes single calls of the system fail, or answer what isn't so. By its environment: a
   read of standard input gives PIECE bytes at most, and fails once BYTES bytes were given; a write to standard output takes TAKE
   bytes at most, and fails once ROOM bytes were taken; both fail by the error that ERROR numbers, or by EIO; where LATE is there,
   a read after one that failed or found the end, and a write after one that failed, end the program by SIGABRT; the clock can be
   read CLOCKS times and no more; in place of /proc/self/statm the file STATM is opened. What isn't named there is as always. */
#define _GNU_SOURCE
#include <errno.h>
#include <fcntl.h>
#include <limits.h>
#include <stdarg.h>
#include <stdlib.h>
#include <string.h>
#include <sys/syscall.h>
#include <time.h>
#include <unistd.h>

static long number_of(const char *name)
{
    const char *text = getenv(name);
    return text == NULL ? LONG_MAX : atol(text);
}

static int fails(int error)
{
    errno = error;
    return -1;
}

/* Fails by the error that is named, and takes note that the stream has come to an end. */
static int ends(int *ended)
{
    const char *error = getenv("ERROR");
    *ended = 1;
    return fails(error == NULL ? EIO : atoi(error));
}

static void come_back(int ended)
{
    if (ended && getenv("LATE") != NULL)
        abort();
}

/* A count of bytes, but neither more than one number nor more than the other. */
static size_t at_most(size_t count, long one, long other)
{
    long most = one < other ? one : other;
    return (long)count > most ? (size_t)most : count;
}

ssize_t read(int descriptor, void *buffer, size_t count)
{
    static long given;
    static int ended;
    if (descriptor != STDIN_FILENO)
        return syscall(SYS_read, descriptor, buffer, count);
    come_back(ended);
    if (given >= number_of("BYTES"))
        return ends(&ended);
    ssize_t come = syscall(SYS_read, descriptor, buffer, at_most(count, number_of("PIECE"), number_of("BYTES") - given));
    given += come > 0 ? come : 0;
    ended = come == 0 && count > 0;
    return come;
}

ssize_t write(int descriptor, const void *buffer, size_t count)
{
    static long taken;
    static int ended;
    if (descriptor != STDOUT_FILENO)
        return syscall(SYS_write, descriptor, buffer, count);
    come_back(ended);
    if (taken >= number_of("ROOM"))
        return ends(&ended);
    ssize_t gone = syscall(SYS_write, descriptor, buffer, at_most(count, number_of("TAKE"), number_of("ROOM") - taken));
    taken += gone > 0 ? gone : 0;
    return gone;
}

int clock_gettime(clockid_t clock, struct timespec *now)
{
    static long readings;
    if (__atomic_add_fetch(&readings, 1, __ATOMIC_SEQ_CST) > number_of("CLOCKS"))
        return fails(EINVAL);
    return (int)syscall(SYS_clock_gettime, clock, now);
}

int open(const char *path, int flags, ...)
{
    va_list more;
    va_start(more, flags);
    mode_t mode = flags & O_CREAT ? va_arg(more, mode_t) : 0;
    va_end(more);
    const char *instead = getenv("STATM");
    if (instead != NULL && strcmp(path, "/proc/self/statm") == 0)
        path = instead;
    return (int)syscall(SYS_openat, AT_FDCWD, path, flags, mode);
}
