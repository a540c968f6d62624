/* For tests of the library's calls with allocations that fail: a heap that refuses on demand, the state of a machine that
 * runs the log of embed.h, and each allocation of a call refused in turn.
 * Linked with -Wl,--wrap=malloc,--wrap=realloc,--wrap=free. */
#include "embed.h"

/* ---- the C library's heap, with allocations that fail on demand, and a count of the blocks that aren't freed */

static long asked, refused_from, refused_to, blocks;

/* The size in bytes of the largest requested block. */
static size_t largest;

void *__real_malloc(size_t size);
void *__real_realloc(void *at, size_t size);
void __real_free(void *at);

static int is_refused(void) {
    if (!refused_to) return 0;
    asked++;
    return asked >= refused_from && asked <= refused_to;
}

void *__wrap_malloc(size_t size) {
    if (size > largest) largest = size;
    void *block = is_refused() ? NULL : __real_malloc(size);
    blocks += block != NULL;
    return block;
}

void *__wrap_realloc(void *at, size_t size) {
    if (size > largest) largest = size;
    void *block = is_refused() ? NULL : __real_realloc(at, size);
    blocks += block && !at;
    return block;
}

void __wrap_free(void *at) {
    blocks -= at != NULL;
    __real_free(at);
}

/* From here on the allocations with numbers `from` to `to`, counted from 1, fail. */
static inline void refuse(long from, long to) {
    asked = 0;
    refused_from = from;
    refused_to = to;
}

/* Ends the failures, and returns how many allocations were requested. */
static inline long relent(void) {
    refused_to = 0;
    return asked;
}

/* ---- the state of a machine */

static const char *now = "";

static inline void hold(int is_so, const char *why) {
    if (!is_so) fault(now, why);
}

static inline int is_none(bohm_bytes out) { return !out.at && !out.len; }

static inline bohm_machine_counts counts_of(const bohm_machine *machine) {
    bohm_machine_counts counts;
    bohm_counts(machine, &counts);
    return counts;
}

static inline void check_value(bohm_machine *machine, const char *key, uint32_t ts, int is_there, int64_t right) {
    uint8_t present = 0;
    int64_t value = 0;
    hold(bohm_value_at(machine, (const uint8_t *)key, strlen(key), ts, &present, &value) == BOHM_DONE, "value_at");
    hold(present == is_there && (!is_there || value == right), "another value");
}

/* The machine's top is `top`, no replies are waiting, and its past is the log's. */
static inline void check_machine(bohm_machine *machine, uint32_t top) {
    bohm_machine_counts counts = counts_of(machine);
    hold(counts.top == top && counts.waiting == 0, "another top, or replies that wait");
    uint32_t floor = 1, last = 0;
    hold(bohm_timestamps(machine, &floor, &last) == BOHM_DONE && floor == counts.floor && last == top, "other timestamps");
    uint32_t read[] = {counts.floor, counts.floor + (top - counts.floor) / 2, top};
    for (size_t i = 0; i < 3; i++) {
        check_value(machine, "a", read[i], 1, counted_a(read[i]));
        check_value(machine, "b", read[i], 1, 7 + counted_b(read[i]));
        check_value(machine, "c", read[i], read[i] >= 2, 6 + counted_b(read[i]));
        check_value(machine, "none", read[i], 0, 0);
    }
    bohm_bytes out = BOHM_NO_BYTES;
    hold(bohm_store_at(machine, top, &out) == BOHM_DONE, "store_at");
    take(now, &out, snapshot_behind(top));
}

static inline void open_behind(bohm_machine *machine, uint32_t top) {
    text snapshot = snapshot_behind(top);
    bohm_bytes out = BOHM_NO_BYTES;
    hold(bohm_open(machine, seed, bytes_of(snapshot), snapshot.len, top, &out) == BOHM_DONE, "it doesn't open");
    hold(is_none(out) && machine->at, "a machine that is open hands nothing out");
    free(snapshot.at);
}

static inline void go_on(bohm_machine *machine, uint32_t count) {
    uint32_t top = counts_of(machine).top;
    text segment = segment_behind(top, count);
    bohm_bytes out = BOHM_NO_BYTES;
    hold(bohm_apply(machine, bytes_of(segment), segment.len, &out) == BOHM_DONE, "it doesn't go on");
    take(now, &out, replies_behind(top, count));
    free(segment.at);
    check_machine(machine, top + count);
}

/* ---- each allocation refused */

/* The count that a call runs with. */
static uint32_t least_count;

/* A call after which all blocks are freed. */
static inline long freed_again(long (*call)(long, long), long from, long to) {
    long before = blocks, asked_for = call(from, to);
    hold(blocks == before, "a block that nobody frees");
    return asked_for;
}

/* Makes each allocation fail in turn, and then each with all later ones; if there are very many, only some, and all of
 * the last ones. */
static inline void each_refused(const char *name, long (*call)(long, long), uint32_t count) {
    now = name;
    least_count = count;
    long all = freed_again(call, -1, -1), step = all / 60 + 1, tried = 0;
    hold(all > 0, "it asks for no memory");
    for (long n = 1; n <= all; n += n + 40 < all ? step : 1, tried++) {
        hold(freed_again(call, n, n) >= n, "fewer allocations");
        hold(freed_again(call, n, 1L << 60) >= n, "fewer allocations");
    }
    printf("%s: %ld of %ld allocations refused in turn\n", name, tried, all);
}
