/* Refuses one request for memory: the n-th of a process, for n in REFUSED_REQUEST. Loaded before the C library. */
#define _GNU_SOURCE
#include <dlfcn.h>
#include <errno.h>
#include <stdlib.h>

static long requests_left(void) {
    const char *number = getenv("REFUSED_REQUEST");
    return number ? atol(number) : 0;
}

static int is_refused(void) {
    static long left = -1;
    if (left < 0) left = requests_left();
    if (left == 0 || --left > 0) return 0;
    errno = ENOMEM;
    return 1;
}

void *malloc(size_t size) {
    static void *(*next)(size_t);
    if (!next) next = dlsym(RTLD_NEXT, "malloc");
    return is_refused() ? NULL : next(size);
}

void *realloc(void *old, size_t size) {
    static void *(*next)(void *, size_t);
    if (!next) next = dlsym(RTLD_NEXT, "realloc");
    return is_refused() ? NULL : next(old, size);
}
