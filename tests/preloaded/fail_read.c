// Preloaded, lets the read of the number FAIL_AT of a program fail with the error FAIL_WITH; with MOST_BYTES each read gives at most so many.
#define _GNU_SOURCE
#include <dlfcn.h>
#include <errno.h>
#include <stdlib.h>
#include <sys/types.h>

ssize_t read(int file, void *bytes, size_t count)
{
    static ssize_t (*next)(int, void *, size_t);
    static long reads = 0;
    if (!next)
        next = dlsym(RTLD_NEXT, "read");
    if (++reads == atol(getenv("FAIL_AT"))) {
        errno = atoi(getenv("FAIL_WITH"));
        return -1;
    }
    const char *most = getenv("MOST_BYTES");
    return next(file, bytes, most && count > (size_t)atol(most) ? (size_t)atol(most) : count);
}
