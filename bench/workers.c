/* Lists of 4,096 calls of a procedure, run in order and by workers: for each way a line with its name, the microseconds a call
 * took by the clock, those of the processor in the thread that had the most of them, and those in all threads.
 *     workers STATEMENTS TERMS KEYS LISTS WORKERS
 * A call adds to a key that is drawn, and computes sums of TERMS terms until it has STATEMENTS statements. With more than one
 * worker, and bodies that the library runs in order, it says `in order`. */
#define _GNU_SOURCE
#include "../crates/bohm_c/include/bohm.h"

#include "../packaging/c/bohm_threads.h"

#include <stdio.h>
#include <stdlib.h>
#include <string.h>
#include <time.h>

enum { CALLS = 4096 };

static const uint8_t seed[16];
static uint32_t drawn = 1;

static uint32_t draw(uint32_t below) {
    drawn = drawn * 1664525u + 1013904223u;
    return (drawn >> 8) % below;
}

static double seconds(clockid_t clock) {
    struct timespec now;
    clock_gettime(clock, &now);
    return (double)now.tv_sec + (double)now.tv_nsec * 1e-9;
}

static void demand(uint32_t status, const char *what) {
    if (!status) return;
    fprintf(stderr, "%s: %s\n", what, bohm_status_text(status));
    exit(1);
}

static char *procedure_with(int statements, int terms) {
    size_t room = 256 + (size_t)statements * (32 + 4 * (size_t)terms);
    char *made = malloc(room), *at = made;
    if (!made) exit(1);
    at += sprintf(at, "procedure 2\nkey k\nvalue n\nreads k\nwrites k\n");
    /* The value's `let` is a statement, too. */
    for (int i = 2; i < statements; i++) {
        at += sprintf(at, "let $s%d = k", i);
        for (int t = 1; t < terms; t++) at += sprintf(at, t % 2 ? " - k" : " + k");
        at += sprintf(at, "\n");
    }
    sprintf(at, "set k = k + $n\nend\n");
    return made;
}

static char *store_with(int keys) {
    char *made = malloc(16 + (size_t)keys * 16), *at = made;
    if (!made) exit(1);
    at += sprintf(at, "log 2\n");
    for (int i = 0; i < keys; i++) at += sprintf(at, "k%07d 1\n", i);
    return made;
}

/* ---- what each thread takes */

typedef struct {
    bohm_worker worker;
    double took;
} timed;

static void work(void *given, uint32_t place) {
    timed *own = (timed *)given + place;
    double begun = seconds(CLOCK_THREAD_CPUTIME_ID);
    demand(bohm_work(&own->worker), "work");
    own->took = seconds(CLOCK_THREAD_CPUTIME_ID) - begun;
}

typedef struct {
    double clock, busiest, all;
} taken;

static void run(bohm_machine *machine, bohm_calls *calls, uint32_t workers, bohm_threads *threads, taken *sum) {
    timed all[BOHM_MOST_WORKERS] = {{{0}, 0}};
    double clock = seconds(CLOCK_MONOTONIC), begun = seconds(CLOCK_THREAD_CPUTIME_ID), longest = 0, total = 0, alone;
    if (workers == 1) {
        demand(bohm_run_calls_held(machine, calls), "run_calls_held");
        alone = seconds(CLOCK_THREAD_CPUTIME_ID) - begun;
    } else {
        uint32_t status = bohm_share_calls(machine, calls, workers);
        if (status == BOHM_IN_ORDER) exit(puts("in order") < 0);
        demand(status, "share_calls");
        for (uint32_t i = 0; i < workers; i++) demand(bohm_open_worker(machine, &all[i].worker), "open_worker");
        alone = seconds(CLOCK_THREAD_CPUTIME_ID) - begun;
        bohm_on_threads(threads, work, all, workers);
        begun = seconds(CLOCK_THREAD_CPUTIME_ID);
        demand(bohm_finish_calls(machine, calls), "finish_calls");
        alone += seconds(CLOCK_THREAD_CPUTIME_ID) - begun;
    }
    for (uint32_t i = 0; i < workers; i++) {
        total += all[i].took;
        if (all[i].took > longest) longest = all[i].took;
    }
    sum->clock += seconds(CLOCK_MONOTONIC) - clock;
    sum->busiest += alone + longest;
    sum->all += alone + total;
}

int main(int argc, char **argv) {
    if (argc != 6) return 2;
    int statements = atoi(argv[1]), terms = atoi(argv[2]), keys = atoi(argv[3]), lists = atoi(argv[4]), workers = atoi(argv[5]);
    char *store = store_with(keys), *text = procedure_with(statements, terms);
    bohm_machine machine = {0};
    bohm_procedure procedure = {0};
    bohm_calls calls = {0};
    bohm_threads threads = {0};
    bohm_reply_rows rows = BOHM_NO_ROWS;
    bohm_values values = BOHM_NO_VALUES;
    bohm_bytes out = BOHM_NO_BYTES;
    taken sum = {0, 0, 0};
    demand(bohm_open(&machine, seed, (uint8_t *)store, strlen(store), 0, &out), "open");
    demand(bohm_prepare(&procedure, seed, (uint8_t *)text, strlen(text), &out), "prepare");
    demand(bohm_open_calls_for(&machine, &calls, 2), "open_calls_for");
    demand(bohm_start_threads(&threads, (uint32_t)workers), "start_threads");
    for (int list = 0; list < lists; list++) {
        for (int i = 0; i < CALLS; i++) {
            char name[16];
            int64_t one = 1;
            bohm_key key = {(uint8_t *)name, (size_t)sprintf(name, "k%07u", (unsigned)draw((uint32_t)keys))};
            demand(bohm_push(&calls, &procedure, &key, 1, &one, 1), "push");
        }
        run(&machine, &calls, (uint32_t)workers, &threads, &sum);
        demand(bohm_rows(&machine, &rows, &values), "rows");
        bohm_free_rows(&rows, &values);
        demand(bohm_trim(&machine, (uint32_t)(list + 1) * CALLS), "trim");
        demand(bohm_clear_calls(&calls), "clear_calls");
    }
    double each = 1e6 / ((double)lists * CALLS);
    printf("%.4f %.4f %.4f\n", sum.clock * each, sum.busiest * each, sum.all * each);
    bohm_stop_threads(&threads);
    bohm_close_calls(&calls);
    bohm_close_procedure(&procedure);
    bohm_close(&machine);
    free(store);
    free(text);
    return 0;
}
