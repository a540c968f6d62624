/* A library to preload: after refuse_after(n) the n-th allocation of the process, counted from 0, is refused. */
#define _GNU_SOURCE
#include <dlfcn.h>
#include <stddef.h>

static long left = -1;

static int is_refused(void) {
    return left >= 0 && left-- == 0;
}

void refuse_after(long count) { left = count; }

/* Whether the allocation to be refused hasn't come. */
int accept_all(void) {
    int is_left = left >= 0;
    left = -1;
    return is_left;
}

void *malloc(size_t size) {
    static void *(*next)(size_t);
    if (!next) next = (void *(*)(size_t))dlsym(RTLD_NEXT, "malloc");
    return is_refused() ? NULL : next(size);
}

void *realloc(void *at, size_t size) {
    static void *(*next)(void *, size_t);
    if (!next) next = (void *(*)(void *, size_t))dlsym(RTLD_NEXT, "realloc");
    return is_refused() ? NULL : next(at, size);
}

void *calloc(size_t count, size_t size) {
    static void *(*next)(size_t, size_t);
    static char early[4096]; /* dlsym may allocate before it has found anything */
    static size_t used;
    static int is_looking;
    if (!next && !is_looking) {
        is_looking = 1;
        next = (void *(*)(size_t, size_t))dlsym(RTLD_NEXT, "calloc");
    }
    if (!next) return used += 64, early + used - 64;
    return is_refused() ? NULL : next(count, size);
}
