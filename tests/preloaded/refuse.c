// Preloaded, refuses the allocation of the number REFUSE_AT of a program, and says so when it comes to it: a program with
// threads may end without telling those that wait for its end.
#define _GNU_SOURCE
#include <dlfcn.h>
#include <stddef.h>
#include <stdlib.h>
#include <unistd.h>

static long asked = 0;

static int is_refused(void)
{
    static long at = -1;
    if (at < 0) {
        const char *text = getenv("REFUSE_AT");
        at = text ? atol(text) : 0;
    }
    if (__atomic_add_fetch(&asked, 1, __ATOMIC_RELAXED) != at)
        return 0;
    if (write(2, "refused\n", 8) < 0)
        _exit(3);
    return 1;
}

void *malloc(size_t size)
{
    static void *(*next)(size_t);
    if (!next)
        next = dlsym(RTLD_NEXT, "malloc");
    return is_refused() ? NULL : next(size);
}

void *realloc(void *block, size_t size)
{
    static void *(*next)(void *, size_t);
    if (!next)
        next = dlsym(RTLD_NEXT, "realloc");
    return is_refused() ? NULL : next(block, size);
}
