/* A read that fails, for tests/files: loaded before the C library, it hands every call on but for some, which it answers with -1 and an error.
 * READ_FAILS_FROM is the first call that fails, counted from 1, READ_FAILS how many fail, READ_ERROR the error. */
#define _GNU_SOURCE
#include <errno.h>
#include <stdlib.h>
#include <sys/syscall.h>
#include <unistd.h>

static long number(const char *name)
{
    const char *text = getenv(name);
    return text ? atol(text) : 0;
}

ssize_t read(int file, void *buffer, size_t bytes)
{
    static long calls = 0;
    long failing = ++calls - number("READ_FAILS_FROM");
    if (0 <= failing && failing < number("READ_FAILS")) {
        errno = (int)number("READ_ERROR");
        return -1;
    }
    return syscall(SYS_read, file, buffer, bytes);
}
