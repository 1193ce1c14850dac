// Loaded before a program: refuses its Nth request for memory, N being REFUSE, and no other. Where it refused one,
// it makes the file that REFUSED names.
#define _GNU_SOURCE
#include <dlfcn.h>
#include <fcntl.h>
#include <stddef.h>
#include <stdlib.h>
#include <unistd.h>

static int refused(void) {
    static long left = -1;
    if (left < 0)
        left = getenv("REFUSE") ? atol(getenv("REFUSE")) : 0;
    if (left == 0 || --left > 0)
        return 0;
    const char *name = getenv("REFUSED");
    if (name)
        close(open(name, O_WRONLY | O_CREAT, 0600));
    return 1;
}

void *malloc(size_t size) {
    static void *(*next)(size_t);
    if (!next)
        next = (void *(*)(size_t))dlsym(RTLD_NEXT, "malloc");
    return refused() ? NULL : next(size);
}

void *realloc(void *old, size_t size) {
    static void *(*next)(void *, size_t);
    if (!next)
        next = (void *(*)(void *, size_t))dlsym(RTLD_NEXT, "realloc");
    return refused() ? NULL : next(old, size);
}
