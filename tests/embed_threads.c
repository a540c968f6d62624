/* Two threads call at the same time, each with its own machine: each gets its own log's replies, each time. The same holds
 * if their lists of calls share the names of a third machine, which is closed meanwhile. Two threads read one machine at
 * once. And a machine is passed from one thread to the next, which joins the one before. */
#include "embed.h"

#include <pthread.h>

enum { ROUNDS = 40, COUNT = 2000 };

static pthread_barrier_t both;

static void open_new(bohm_machine *machine) {
    text snapshot = snapshot_behind(0);
    bohm_bytes out = BOHM_NO_BYTES;
    if (bohm_open(machine, seed, bytes_of(snapshot), snapshot.len, 0, &out)) fault("threads", "open");
    free(snapshot.at);
}

static void apply_behind(bohm_machine *machine, uint32_t top, uint32_t count) {
    text segment = segment_behind(top, count);
    bohm_bytes out = BOHM_NO_BYTES;
    if (bohm_apply(machine, bytes_of(segment), segment.len, &out)) fault("threads", "apply");
    take("threads", &out, replies_behind(top, count));
    free(segment.at);
}

static void call_behind(bohm_machine *machine, procedures *of, uint32_t top, uint32_t count) {
    bohm_calls calls = calls_behind("threads", of, top, count);
    bohm_bytes out = BOHM_NO_BYTES;
    if (bohm_run_calls(machine, &calls, &out)) fault("threads", "run_calls");
    take("threads", &out, replies_behind(top, count));
    bohm_close_calls(&calls);
}

static void close_behind(bohm_machine *machine, uint32_t top) {
    bohm_bytes out = BOHM_NO_BYTES;
    if (bohm_store_at(machine, top, &out)) fault("threads", "store_at");
    take("threads", &out, snapshot_behind(top));
    bohm_close(machine);
}

static void run(uint32_t size) {
    bohm_machine machine = {0};
    procedures of = prepare_all("threads");
    open_new(&machine);
    for (uint32_t top = 0; top < COUNT; top += size) {
        uint32_t count = COUNT - top < size ? COUNT - top : size;
        if (top / size % 2) call_behind(&machine, &of, top, count);
        else apply_behind(&machine, top, count);
    }
    close_behind(&machine, COUNT);
    close_all(&of);
}

static void *thread(void *size) {
    pthread_barrier_wait(&both);
    for (int round = 0; round < ROUNDS; round++) run(*(uint32_t *)size);
    return NULL;
}

/* Runs the calls of a list on the thread's own machine, and closes both. */
static void *run_shared(void *given) {
    bohm_calls *calls = given;
    bohm_machine machine = {0};
    handles keys;
    procedures of = prepare_all("threads");
    open_new(&machine);
    pthread_barrier_wait(&both);
    if (make_handles(calls, &keys)) fault("threads", "no handles");
    for (uint32_t top = 0; top < COUNT; top += 20) {
        bohm_bytes out = BOHM_NO_BYTES;
        for (uint32_t k = top + 1; k <= top + 20; k++)
            if (push_named(calls, &of, &keys, k)) fault("threads", "a call isn't taken");
        if (bohm_run_calls(&machine, calls, &out)) fault("threads", "run_calls");
        take("threads", &out, replies_behind(top, 20));
        bohm_clear_calls(calls);
    }
    bohm_close_calls(calls);
    close_behind(&machine, COUNT);
    close_all(&of);
    return NULL;
}

static void share_names(void) {
    for (int round = 0; round < ROUNDS; round++) {
        bohm_machine first = {0};
        bohm_calls lists[2] = {{0}, {0}};
        pthread_t threads[2];
        open_new(&first);
        for (int i = 0; i < 2; i++)
            if (bohm_open_calls_for(&first, &lists[i], 1)) fault("threads", "no list of calls");
        for (int i = 0; i < 2; i++)
            if (pthread_create(&threads[i], NULL, run_shared, &lists[i])) fault("threads", "no thread");
        bohm_close(&first);
        for (int i = 0; i < 2; i++) pthread_join(threads[i], NULL);
    }
}

static void *apply_more(void *given) {
    bohm_machine *machine = given;
    bohm_machine_counts counts;
    bohm_counts(machine, &counts);
    apply_behind(machine, counts.top, 50);
    return NULL;
}

static void hand_over(void) {
    bohm_machine machine = {0};
    pthread_t thread;
    open_new(&machine);
    for (int i = 0; i < ROUNDS; i++) {
        if (pthread_create(&thread, NULL, apply_more, &machine)) fault("threads", "no thread");
        pthread_join(thread, NULL);
    }
    close_behind(&machine, ROUNDS * 50);
}

/* Reads the past of a machine that others read too, and makes a list that shares its names. */
static void *read_past(void *given) {
    const bohm_machine *machine = given;
    pthread_barrier_wait(&both);
    for (uint32_t ts = 0; ts <= COUNT; ts++) {
        uint8_t present = 0, digest[32];
        int64_t value = 0;
        bohm_bytes out = BOHM_NO_BYTES;
        bohm_calls calls = {0};
        if (bohm_value_at(machine, (const uint8_t *)"a", 1, ts, &present, &value)) fault("threads", "value_at");
        if (!present || value != counted_a(ts)) fault("threads", "another value");
        if (ts % 100) continue;
        if (bohm_store_at(machine, ts, &out) || bohm_digest(machine, ts, digest)) fault("threads", "store_at");
        take("threads", &out, snapshot_behind(ts));
        if (bohm_open_calls_for(machine, &calls, 1)) fault("threads", "no list of calls");
        bohm_close_calls(&calls);
    }
    return NULL;
}

static void read_at_once(void) {
    bohm_machine machine = {0};
    open_new(&machine);
    apply_behind(&machine, 0, COUNT);
    for (int round = 0; round < ROUNDS; round++) {
        pthread_t threads[2];
        for (int i = 0; i < 2; i++)
            if (pthread_create(&threads[i], NULL, read_past, &machine)) fault("threads", "no thread");
        for (int i = 0; i < 2; i++) pthread_join(threads[i], NULL);
    }
    close_behind(&machine, COUNT);
}

int main(void) {
    uint32_t sizes[2] = {7, 100};
    pthread_t threads[2];
    pthread_barrier_init(&both, NULL, 2);
    for (int i = 0; i < 2; i++)
        if (pthread_create(&threads[i], NULL, thread, &sizes[i])) fault("threads", "no thread");
    for (int i = 0; i < 2; i++) pthread_join(threads[i], NULL);
    share_names();
    read_at_once();
    hand_over();
    puts("two threads with a machine each, lists that share names, a machine that two read, and one that goes from thread to thread: as it should be");
    return 0;
}
