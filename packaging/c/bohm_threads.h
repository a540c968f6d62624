/* bohm_threads.h: threads that run the calls of a list together, by the functions of bohm.h for shared calls. The library
 * itself starts no thread: a program that includes this file compiles what is here, and is linked with -pthread.
 *
 * A pool is in one call at a time. Its threads end at bohm_stop_threads. A forked child has none of them. */
#ifndef BOHM_THREADS_H
#define BOHM_THREADS_H

#ifndef BOHM_H
#include <bohm.h>
#endif
#include <pthread.h>

#ifdef __cplusplus
extern "C" {
#endif

/* The most workers of bohm_share_calls. */
#define BOHM_MOST_WORKERS 16

/* Threads that wait for work. {0} has none; one that has threads must not be copied, and is stopped before it is discarded. */
typedef struct {
    pthread_mutex_t lock;
    pthread_cond_t begins, ends;
    pthread_t threads[BOHM_MOST_WORKERS];
    void (*work)(void *argument, uint32_t place); /* what they do, */
    void *argument;
    uint32_t places, taken; /* in so many places, of which so many are taken, */
    uint32_t working;       /* by so many threads at present */
    uint32_t count;         /* how many there are, beside the caller's own */
    int stops;
} bohm_threads;

/* Does the work of places until all are taken. The lock is held before and afterwards. */
static inline void bohm_take_places(bohm_threads *threads) {
    threads->working++;
    while (threads->taken < threads->places) {
        uint32_t place = threads->taken++;
        pthread_mutex_unlock(&threads->lock);
        threads->work(threads->argument, place);
        pthread_mutex_lock(&threads->lock);
    }
    threads->working--;
}

static inline void *bohm_thread(void *given) {
    bohm_threads *threads = (bohm_threads *)given;
    pthread_mutex_lock(&threads->lock);
    while (!threads->stops) {
        if (threads->taken == threads->places) {
            pthread_cond_wait(&threads->begins, &threads->lock);
            continue;
        }
        bohm_take_places(threads);
        if (!threads->working) pthread_cond_signal(&threads->ends);
    }
    pthread_mutex_unlock(&threads->lock);
    return 0;
}

static inline void bohm_forget_threads(bohm_threads *threads) {
    pthread_cond_destroy(&threads->ends);
    pthread_cond_destroy(&threads->begins);
    pthread_mutex_destroy(&threads->lock);
    threads->count = 0;
    threads->stops = 0;
}

/* Ends the threads of a pool, which can be started again. Does nothing if it has none. */
static inline void bohm_stop_threads(bohm_threads *threads) {
    if (!threads->count) return;
    pthread_mutex_lock(&threads->lock);
    threads->stops = 1;
    pthread_cond_broadcast(&threads->begins);
    pthread_mutex_unlock(&threads->lock);
    for (uint32_t i = 0; i < threads->count; i++) pthread_join(threads->threads[i], 0);
    bohm_forget_threads(threads);
}

/* Starts a pool that has no threads for so many workers: threads for all but one of them, since the one that calls
 * bohm_run_calls_on works, too. BOHM_DONE; BOHM_UNFIT if that isn't 1 to BOHM_MOST_WORKERS; BOHM_MISUSE if it has threads; or
 * BOHM_NO_MEMORY if the system doesn't start them, and then it has none. */
static inline uint32_t bohm_start_threads(bohm_threads *threads, uint32_t workers) {
    if (threads->count) return BOHM_MISUSE;
    if (!workers || workers > BOHM_MOST_WORKERS) return BOHM_UNFIT;
    if (workers == 1) return BOHM_DONE;
    pthread_mutex_init(&threads->lock, 0);
    pthread_cond_init(&threads->begins, 0);
    pthread_cond_init(&threads->ends, 0);
    while (threads->count < workers - 1 && !pthread_create(&threads->threads[threads->count], 0, bohm_thread, threads))
        threads->count++;
    if (threads->count == workers - 1) return BOHM_DONE;
    if (threads->count) bohm_stop_threads(threads);
    else bohm_forget_threads(threads);
    return BOHM_NO_MEMORY;
}

/* Has `work` called once for each place below `places`, by the threads of a pool and by this one, and returns when all of
 * these calls have. */
static inline void bohm_on_threads(bohm_threads *threads, void (*work)(void *argument, uint32_t place), void *argument,
                                   uint32_t places) {
    pthread_mutex_lock(&threads->lock);
    threads->work = work;
    threads->argument = argument;
    threads->places = places;
    threads->taken = 0;
    pthread_cond_broadcast(&threads->begins);
    bohm_take_places(threads);
    while (threads->working) pthread_cond_wait(&threads->ends, &threads->lock);
    pthread_mutex_unlock(&threads->lock);
}

static inline void bohm_work_at(void *workers, uint32_t place) { bohm_work((bohm_worker *)workers + place); }

/* Runs calls as bohm_run_calls_held does, and with its statuses, but on the threads of a pool, where that takes less time. */
static inline uint32_t bohm_run_calls_on(bohm_machine *machine, bohm_calls *calls, bohm_threads *threads) {
    bohm_worker workers[BOHM_MOST_WORKERS] = {{0}};
    uint32_t opened = 0, status;
    if (!threads->count) return bohm_run_calls_held(machine, calls);
    status = bohm_share_calls(machine, calls, threads->count + 1);
    if (status == BOHM_IN_ORDER || status == BOHM_NO_MEMORY) return bohm_run_calls_held(machine, calls);
    if (status) return status;
    /* What has no worker, for want of memory, is run at the end. */
    while (opened <= threads->count && !bohm_open_worker(machine, &workers[opened])) opened++;
    bohm_on_threads(threads, bohm_work_at, workers, opened);
    return bohm_finish_calls(machine, calls);
}

#ifdef __cplusplus
}
#endif

#endif
