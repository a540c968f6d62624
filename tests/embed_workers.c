/* Threads that run the calls of lists together: by a pool of bohm_threads.h, and by threads of this program that begin at once,
 * one after the other's end, or after all others', or never. Each time the replies, the store and the list are those of a
 * machine that runs the calls in order; its logs and answers go to the folder, where `bohm` has to answer alike.
 *     embed_workers FOLDER
 *
 * Under a thread sanitizer this program and the pool are instrumented, and the library isn't: the sanitizer sees each access of
 * theirs, the blocks that the library allocates, copies and frees, and the order that locks, starts and joins make. It would
 * tell a handle that two threads use without an order, a block that is freed while another thread copies it, and a pool that
 * returns too early. The library's own words, which are atomic, it doesn't see. */
#include "embed.h"

#include "../packaging/c/bohm_threads.h"

enum { CALLS = 1200, LOGS = 4, MOST = 5 };

enum { AT_ONCE, IN_TURN, ONE_LATE, ONE_NEVER, POOL, SCHEDULES };

static const char *log_name = "";

static void hold(int is_so, const char *why) {
    if (!is_so) fault(log_name, why);
}

/* ---- logs: procedures with long bodies, called on few keys or on many */

typedef struct {
    uint32_t keys, statements, terms;
} shape;

static const shape shapes[LOGS] = {{10, 34, 2}, {10, 60, 16}, {1000, 40, 16}, {1000, 60, 1}};

static uint32_t drawn;

static uint32_t draw(uint32_t below) {
    drawn = drawn * 1664525u + 1013904223u;
    return (drawn >> 8) % below;
}

static text store_with(uint32_t keys) {
    text made = {0};
    put(&made, "log 2\n", 0, "");
    for (uint32_t i = 0; i < keys; i++) {
        put(&made, "k%05" PRIu32, i, "");
        put(&made, " %" PRIu32 "\n", i % 7 + 1, "");
    }
    return made;
}

/* Moves an amount from one key to another, if there is as much; sums of the two keys make it long. */
static text procedure_with(shape of) {
    text made = {0};
    put(&made, "procedure 2\nkey f\nkey t\nvalue n\nreads f t\nwrites f t\nneed f >= $n\nset f = f - $n\nset t = t + $n\nshow t\n", 0, "");
    for (uint32_t i = 5; i <= of.statements; i++) {
        put(&made, "let $s%" PRIu32 " = f", i, "");
        for (uint32_t k = 1; k < of.terms; k++) put(&made, "", 0, k % 2 ? " - t" : " + f");
        put(&made, "\n", 0, "");
    }
    put(&made, "end\n", 0, "");
    return made;
}

static void push_calls(bohm_calls *calls, bohm_procedure *procedure, shape of) {
    for (int i = 0; i < CALLS; i++) {
        char names[2][16];
        bohm_key keys[2];
        int64_t amount = draw(4);
        for (int k = 0; k < 2; k++) {
            sprintf(names[k], "k%05" PRIu32, draw(of.keys));
            keys[k] = key_of(names[k]);
        }
        hold(bohm_push(calls, procedure, keys, 2, &amount, 1) == BOHM_DONE, "push");
    }
}

static void open_store(bohm_machine *machine, text store) {
    bohm_bytes out = BOHM_NO_BYTES;
    hold(bohm_open(machine, seed, (const uint8_t *)store.at, store.len, 0, &out) == BOHM_DONE, "open");
}

/* The replies that wait, a line of two dashes, and the store's lines: the answer to the log that the machine ran. */
static text answer_from(bohm_machine *machine) {
    text made = {0};
    bohm_bytes replies = BOHM_NO_BYTES, store = BOHM_NO_BYTES;
    hold(bohm_replies(machine, &replies) == BOHM_DONE && bohm_store_at(machine, CALLS, &store) == BOHM_DONE, "the answer");
    made.room = replies.len + store.len;
    made.at = malloc(made.room);
    if (!made.at) fault(log_name, "no memory");
    memcpy(made.at, replies.at, replies.len);
    memcpy(made.at + replies.len, "--\n", 3);
    memcpy(made.at + replies.len + 3, store.at + 6, store.len - 6);
    made.len = replies.len + store.len - 3;
    bohm_free_bytes(&replies);
    bohm_free_bytes(&store);
    return made;
}

static void write_file(const char *folder, const char *what, text first, const char *second, size_t len) {
    char path[4096];
    snprintf(path, sizeof path, "%s/%s.%s", folder, log_name, what);
    FILE *file = fopen(path, "wb");
    int is_written = file && fwrite(first.at, 1, first.len, file) == first.len && fwrite(second, 1, len, file) == len;
    if (!is_written || fclose(file)) fault(path, "it isn't written");
}

/* ---- threads that work */

typedef struct {
    pthread_mutex_t lock;
    pthread_cond_t changed;
    int may_begin, ended; /* how many workers may begin, and how many have ended */
} gates;

typedef struct {
    gates *gates;
    bohm_worker worker;
    int place;
} job;

static void *work_behind_gate(void *given) {
    job *own = given;
    pthread_mutex_lock(&own->gates->lock);
    while (own->gates->may_begin <= own->place) pthread_cond_wait(&own->gates->changed, &own->gates->lock);
    pthread_mutex_unlock(&own->gates->lock);
    hold(bohm_work(&own->worker) == BOHM_DONE && bohm_work(&own->worker) == BOHM_MISUSE, "work");
    pthread_mutex_lock(&own->gates->lock);
    own->gates->ended++;
    pthread_cond_broadcast(&own->gates->changed);
    pthread_mutex_unlock(&own->gates->lock);
    return NULL;
}

/* Lets so many workers begin, once so many have ended. */
static void open_gate(gates *to, int may_begin, int ended) {
    pthread_mutex_lock(&to->lock);
    while (to->ended < ended) pthread_cond_wait(&to->changed, &to->lock);
    to->may_begin = may_begin;
    pthread_cond_broadcast(&to->changed);
    pthread_mutex_unlock(&to->lock);
}

static void open_gates(gates *to, int schedule, int count) {
    if (schedule == AT_ONCE || schedule == ONE_NEVER) open_gate(to, count, 0);
    if (schedule == ONE_LATE) {
        open_gate(to, count - 1, 0);
        open_gate(to, count, count - 1);
    }
    if (schedule == IN_TURN)
        for (int i = 0; i < count; i++) open_gate(to, i + 1, i);
}

static void run_on_threads(bohm_machine *machine, bohm_calls *calls, int workers, int schedule) {
    gates held = {PTHREAD_MUTEX_INITIALIZER, PTHREAD_COND_INITIALIZER, 0, 0};
    job jobs[MOST];
    pthread_t threads[MOST];
    int count = schedule == ONE_NEVER ? workers - 1 : workers;
    hold(bohm_share_calls(machine, calls, (uint32_t)workers) == BOHM_DONE, "share_calls");
    for (int i = 0; i < workers; i++) {
        jobs[i] = (job){&held, {0}, i};
        hold(bohm_open_worker(machine, &jobs[i].worker) == BOHM_DONE, "open_worker");
        if (i < count && pthread_create(&threads[i], NULL, work_behind_gate, &jobs[i])) fault(log_name, "no thread");
    }
    hold(bohm_finish_calls(machine, calls) == BOHM_SHARED, "it ends while workers are left");
    open_gates(&held, schedule, count);
    for (int i = 0; i < count; i++) pthread_join(threads[i], NULL);
    if (count < workers) bohm_close_worker(&jobs[count].worker);
    hold(bohm_finish_calls(machine, calls) == BOHM_DONE, "finish_calls");
}

static void run_on_pool(bohm_machine *machine, bohm_calls *calls, int workers) {
    bohm_threads pool = {0};
    hold(bohm_start_threads(&pool, (uint32_t)workers) == BOHM_DONE, "start_threads");
    hold(workers == 1 || bohm_start_threads(&pool, 2) == BOHM_MISUSE, "started twice");
    hold(bohm_run_calls_on(machine, calls, &pool) == BOHM_DONE, "run_calls_on");
    hold(bohm_run_calls_on(machine, calls, &pool) == BOHM_WAITING, "run_calls_on while replies wait");
    bohm_stop_threads(&pool);
    bohm_stop_threads(&pool);
}

/* ---- */

static void check_run(text store, bohm_calls *calls, text right, int workers, int schedule) {
    bohm_machine machine = {0};
    open_store(&machine, store);
    if (schedule == POOL) run_on_pool(&machine, calls, workers);
    else run_on_threads(&machine, calls, workers, schedule);
    text answer = answer_from(&machine);
    hold(answer.len == right.len && !memcmp(answer.at, right.at, right.len), "another answer");
    free(answer.at);
    bohm_close(&machine);
}

static void run_log(const char *folder, shape of) {
    text store = store_with(of.keys), procedure = procedure_with(of);
    bohm_procedure move = prepared(log_name, procedure.at);
    bohm_machine first = {0};
    bohm_calls calls = {0};
    bohm_bytes printed = BOHM_NO_BYTES, again = BOHM_NO_BYTES;
    open_store(&first, store);
    hold(bohm_open_calls_for(&first, &calls, 2) == BOHM_DONE, "open_calls_for");
    push_calls(&calls, &move, of);
    hold(bohm_calls_text(&calls, &printed) == BOHM_DONE, "calls_text");
    hold(bohm_run_calls_held(&first, &calls) == BOHM_DONE, "run_calls_held");
    text right = answer_from(&first);
    write_file(folder, "log", store, (const char *)printed.at + 6, printed.len - 6);
    write_file(folder, "answer", right, "", 0);
    for (int workers = 1; workers <= MOST; workers++)
        for (int schedule = workers > 1 ? 0 : POOL; schedule < SCHEDULES; schedule++) check_run(store, &calls, right, workers, schedule);
    hold(bohm_calls_text(&calls, &again) == BOHM_DONE, "calls_text");
    hold(again.len == printed.len && !memcmp(again.at, printed.at, printed.len), "other calls in the list");
    bohm_free_bytes(&printed);
    bohm_free_bytes(&again);
    bohm_close_calls(&calls);
    bohm_close_procedure(&move);
    bohm_close(&first);
    free(right.at);
    free(store.at);
    free(procedure.at);
}

int main(int argc, char **argv) {
    if (argc != 2) fault("embed_workers", "a folder is expected");
    for (int i = 0; i < LOGS; i++) {
        char name[32];
        sprintf(name, "workers_%d", i + 1);
        log_name = name;
        run_log(argv[1], shapes[i]);
    }
    puts("calls that 1 to 5 threads run together, at once, in turn, late or never: as it should be");
    return 0;
}
