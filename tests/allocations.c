/* Preloaded: makes allocation N, or N and all later ones, fail, and the same for threads.
   The numbers count from 1 over the whole process.
       FAIL_ALLOCATION=N   allocation N fails
       FAIL_ALLOCATIONS=N  allocation N and all later ones fail
       FAIL_THREAD=N       starting thread N fails
       FAIL_THREADS=N      starting thread N or any later one fails
       FAIL_SECONDS=N      the program is killed after N seconds
   If FAIL_REPORT names an open file descriptor, 'A T L' is written to it at the end: the numbers of
   allocations and of threads that were requested, and of threads that started and weren't joined. */
#define _GNU_SOURCE
#include <dlfcn.h>
#include <errno.h>
#include <pthread.h>
#include <stdatomic.h>
#include <stddef.h>
#include <stdio.h>
#include <stdlib.h>
#include <string.h>
#include <sys/syscall.h>
#include <unistd.h>

static atomic_long allocations;
static atomic_long threads;
static atomic_long left;
static atomic_long is_counting;
static long one_allocation, all_allocations, one_thread, all_threads;
static int report = -1;

static void *(*real_malloc)(size_t);
static void *(*real_calloc)(size_t, size_t);
static void *(*real_realloc)(void *, size_t);
static void *(*real_aligned_alloc)(size_t, size_t);
static int (*real_posix_memalign)(void **, size_t, size_t);
static int (*real_pthread_create)(pthread_t *, const pthread_attr_t *, void *(*)(void *), void *);
static int (*real_pthread_join)(pthread_t, void **);

/* The memory for dlsym's own allocations, before calloc is found. */
static char early[65536];
static size_t early_used;

static long number(const char *name) {
    const char *text = getenv(name);
    return text ? atol(text) : 0;
}

static void *early_room(size_t size) {
    size_t at = (early_used + 15) & ~(size_t)15;
    if (at + size > sizeof early) return NULL;
    early_used = at + size;
    return early + at;
}

static int is_early(void *p) {
    return (char *)p >= early && (char *)p < early + sizeof early;
}

static void find(void) {
    static int is_found;
    if (is_found) return;
    is_found = 1;
    *(void **)&real_malloc = dlsym(RTLD_NEXT, "malloc");
    *(void **)&real_calloc = dlsym(RTLD_NEXT, "calloc");
    *(void **)&real_realloc = dlsym(RTLD_NEXT, "realloc");
    *(void **)&real_aligned_alloc = dlsym(RTLD_NEXT, "aligned_alloc");
    *(void **)&real_posix_memalign = dlsym(RTLD_NEXT, "posix_memalign");
    *(void **)&real_pthread_create = dlsym(RTLD_NEXT, "pthread_create");
    *(void **)&real_pthread_join = dlsym(RTLD_NEXT, "pthread_join");
}

__attribute__((constructor)) static void begin(void) {
    find();
    one_allocation = number("FAIL_ALLOCATION");
    all_allocations = number("FAIL_ALLOCATIONS");
    one_thread = number("FAIL_THREAD");
    all_threads = number("FAIL_THREADS");
    if (getenv("FAIL_REPORT")) report = (int)number("FAIL_REPORT");
    alarm((unsigned)number("FAIL_SECONDS"));
    atomic_store(&is_counting, 1);
}

static void tell(void) {
    char line[96];
    if (report < 0) return;
    int size = snprintf(line, sizeof line, "%ld %ld %ld\n", atomic_load(&allocations), atomic_load(&threads), atomic_load(&left));
    if (write(report, line, (size_t)size) != size) return;
}

/* The program ends by this call, or from its main by exit, which leads here inside the C library. */
__attribute__((noreturn)) void _exit(int status) {
    tell();
    for (;;) syscall(SYS_exit_group, status);
}

__attribute__((destructor)) static void end(void) {
    tell();
}

static int is_refused(atomic_long *count, long one, long all) {
    if (!atomic_load(&is_counting)) return 0;
    long n = atomic_fetch_add(count, 1) + 1;
    return n == one || (all > 0 && n >= all);
}

static int no_room(void) {
    return is_refused(&allocations, one_allocation, all_allocations);
}

void *malloc(size_t size) {
    if (!real_malloc) {
        find();
        if (!real_malloc) return early_room(size);
    }
    if (no_room()) {
        errno = ENOMEM;
        return NULL;
    }
    return real_malloc(size);
}

void *calloc(size_t count, size_t size) {
    if (!real_calloc) return early_room(count * size);
    if (no_room()) {
        errno = ENOMEM;
        return NULL;
    }
    return real_calloc(count, size);
}

void *realloc(void *p, size_t size) {
    if (is_early(p)) {
        void *q = malloc(size);
        if (q) memcpy(q, p, size);
        return q;
    }
    if (!real_realloc) find();
    if (no_room()) {
        errno = ENOMEM;
        return NULL;
    }
    return real_realloc(p, size);
}

void free(void *p) {
    static void (*real_free)(void *);
    if (!p || is_early(p)) return;
    if (!real_free) *(void **)&real_free = dlsym(RTLD_NEXT, "free");
    real_free(p);
}

void *aligned_alloc(size_t alignment, size_t size) {
    find();
    if (no_room()) {
        errno = ENOMEM;
        return NULL;
    }
    return real_aligned_alloc(alignment, size);
}

int posix_memalign(void **out, size_t alignment, size_t size) {
    find();
    return no_room() ? ENOMEM : real_posix_memalign(out, alignment, size);
}

int pthread_create(pthread_t *thread, const pthread_attr_t *how, void *(*start)(void *), void *with) {
    find();
    if (is_refused(&threads, one_thread, all_threads)) return EAGAIN;
    int status = real_pthread_create(thread, how, start, with);
    if (status == 0) atomic_fetch_add(&left, 1);
    return status;
}

int pthread_join(pthread_t thread, void **result) {
    find();
    int status = real_pthread_join(thread, result);
    if (status == 0) atomic_fetch_sub(&left, 1);
    return status;
}
