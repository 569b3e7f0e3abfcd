/* A `write` that fails once: the call on standard output whose number FAILING_WRITE gives fails with the error that FAILING_WITH gives. Preloaded
   by tests/replay_faults. Where FAILING_READ is set, the same of `read` on standard input. */
#define _GNU_SOURCE
#include <dlfcn.h>
#include <errno.h>
#include <stdlib.h>
#include <unistd.h>

static int fails(const char *which, int *calls)
{
    const char *at = getenv(which);
    const char *with = getenv("FAILING_WITH");
    if (at == NULL || ++*calls != atoi(at))
        return 0;
    errno = with == NULL ? EIO : atoi(with);
    return 1;
}

ssize_t write(int fd, const void *bytes, size_t length)
{
    static ssize_t (*next)(int, const void *, size_t);
    static int calls;
    if (next == NULL)
        next = (ssize_t (*)(int, const void *, size_t))dlsym(RTLD_NEXT, "write");
    if (fd == 1 && fails("FAILING_WRITE", &calls))
        return -1;
    return next(fd, bytes, length);
}

ssize_t read(int fd, void *bytes, size_t length)
{
    static ssize_t (*next)(int, void *, size_t);
    static int calls;
    if (next == NULL)
        next = (ssize_t (*)(int, void *, size_t))dlsym(RTLD_NEXT, "read");
    if (fd == 0 && fails("FAILING_READ", &calls))
        return -1;
    return next(fd, bytes, length);
}
