/* A generated log, and its results by the log's rules. Transaction `k`, counted from 1, depends on k % 4:
 *     1, 3   increments `a`, and shows its old value
 *     2      sets `c` to `b`, increments `b`, and shows its old value
 *     0      has a `need` that is false
 * The store is `a 0` and `b 7`. */
#include "../crates/bohm_c/include/bohm.h"

#include <inttypes.h>
#include <stdio.h>
#include <stdlib.h>
#include <string.h>

/* Any bytes: no answer depends on them. */
static const uint8_t seed[16] = "a made-up seed!";

/* A text that grows. */
typedef struct {
    char *at;
    size_t len, room;
} text;

static inline void fault(const char *what, const char *why) {
    fprintf(stderr, "%s: %s\n", what, why);
    exit(1);
}

static inline void put(text *to, const char *line, uint32_t number, const char *rest) {
    size_t most = strlen(line) + strlen(rest) + 16;
    if (to->room - to->len < most) {
        to->room = 2 * to->room + most;
        to->at = realloc(to->at, to->room);
        if (!to->at) fault("the test", "no memory");
    }
    to->len += (size_t)sprintf(to->at + to->len, line, number);
    to->len += (size_t)sprintf(to->at + to->len, "%s", rest);
}

/* How often the transactions up to `k` increment `a`, and `b`. */
static inline uint32_t counted_a(uint32_t k) { return k / 2 + k % 2; }
static inline uint32_t counted_b(uint32_t k) { return k / 4 + (k % 4 >= 2); }

/* The segment of the `count` transactions after `top`. */
static inline text segment_behind(uint32_t top, uint32_t count) {
    text made = {0};
    put(&made, "log 1\n", 0, "");
    for (uint32_t i = 1; i <= count; i++) {
        uint32_t k = top + i;
        if (k % 2) put(&made, "txn\nreads a\nwrites a\nset a = a + 1\nshow a\nend\n", 0, "");
        else if (k % 4) put(&made, "txn\nreads b\nwrites b c\nset c = b\nset b = b + 1\nshow b\nend\n", 0, "");
        else put(&made, "txn\nreads a\nwrites\nshow a\nneed a < 0\nend\n", 0, "");
    }
    return made;
}

/* The procedures whose calls are these transactions, by k % 4, and their texts. */
typedef struct {
    bohm_procedure count, copy, need;
} procedures;

#define COUNT_TEXT "procedure 1\nkey x\nvalue by\nreads x\nwrites x\nset x = x + $by\nshow x\nend\n"
#define COPY_TEXT \
    "procedure 1\nkey of\nkey to\nvalue by\nreads of\nwrites of to\nset to = of\nset of = of + $by\nshow of\nend\n"
#define NEED_TEXT "procedure 1\nkey x\nreads x\nwrites\nshow x\nneed x < 0\nend\n"

static inline bohm_procedure prepared(const char *what, const char *procedure) {
    bohm_procedure made = {0};
    bohm_bytes out = BOHM_NO_BYTES;
    if (bohm_prepare(&made, seed, (const uint8_t *)procedure, strlen(procedure), &out)) fault(what, "a procedure is refused");
    return made;
}

static inline procedures prepare_all(const char *what) {
    return (procedures){prepared(what, COUNT_TEXT), prepared(what, COPY_TEXT), prepared(what, NEED_TEXT)};
}

static inline void close_all(procedures *of) {
    bohm_close_procedure(&of->count);
    bohm_close_procedure(&of->copy);
    bohm_close_procedure(&of->need);
}

static inline bohm_key key_of(const char *name) { return (bohm_key){(const uint8_t *)name, strlen(name)}; }

/* Appends the call that is transaction `k`. */
static inline uint32_t push(bohm_calls *calls, procedures *of, uint32_t k) {
    bohm_key a = key_of("a"), both[] = {key_of("b"), key_of("c")};
    int64_t one = 1;
    if (k % 2) return bohm_push(calls, &of->count, &a, 1, &one, 1);
    if (k % 4) return bohm_push(calls, &of->copy, both, 2, &one, 1);
    return bohm_push(calls, &of->need, &a, 1, &one, 0);
}

/* The handles of the keys in a list. */
typedef struct {
    uint32_t a, b, c;
} handles;

static inline uint32_t handle_of(bohm_calls *calls, const char *name, uint32_t *handle) {
    return bohm_key_handle(calls, (const uint8_t *)name, strlen(name), handle);
}

static inline uint32_t make_handles(bohm_calls *calls, handles *keys) {
    uint32_t status = handle_of(calls, "a", &keys->a);
    if (!status) status = handle_of(calls, "b", &keys->b);
    return status ? status : handle_of(calls, "c", &keys->c);
}

/* Appends the call that is transaction `k`, with keys named by handles. */
static inline uint32_t push_named(bohm_calls *calls, procedures *of, const handles *keys, uint32_t k) {
    uint32_t both[] = {keys->b, keys->c};
    int64_t one = 1;
    if (k % 2) return bohm_push_named(calls, &of->count, &keys->a, 1, &one, 1);
    if (k % 4) return bohm_push_named(calls, &of->copy, both, 2, &one, 1);
    return bohm_push_named(calls, &of->need, &keys->a, 1, &one, 0);
}

/* The calls that are the segment of the `count` transactions after `top`: some name their keys by handles. */
static inline bohm_calls calls_behind(const char *what, procedures *of, uint32_t top, uint32_t count) {
    bohm_calls calls = {0};
    handles keys;
    if (bohm_open_calls(&calls, seed, 1)) fault(what, "no list of calls");
    if (make_handles(&calls, &keys)) fault(what, "no handles");
    for (uint32_t k = top + 1; k - top <= count; k++)
        if (k % 3 ? push_named(&calls, of, &keys, k) : push(&calls, of, k)) fault(what, "a call isn't taken");
    return calls;
}

static inline void put_replies(text *made, uint32_t top, uint32_t count) {
    for (uint32_t i = 1; i <= count; i++) {
        uint32_t k = top + i;
        put(made, "%" PRIu32, k, "");
        if (k % 2) put(made, " commit %" PRIu32 "\n", counted_a(k - 1), "");
        else if (k % 4) put(made, " commit %" PRIu32 "\n", 7 + counted_b(k - 1), "");
        else put(made, " abort need 2\n", 0, "");
    }
}

/* The text of the replies of that segment. */
static inline text replies_behind(uint32_t top, uint32_t count) {
    text made = {0};
    put_replies(&made, top, count);
    return made;
}

static inline void put_store(text *made, uint32_t top) {
    put(made, "a %" PRIu32 "\n", counted_a(top), "");
    put(made, "b %" PRIu32 "\n", 7 + counted_b(top), "");
    if (top >= 2) put(made, "c %" PRIu32 "\n", 6 + counted_b(top), "");
}

/* The snapshot at a timestamp. */
static inline text snapshot_behind(uint32_t top) {
    text made = {0};
    put(&made, "log 1\n", 0, "");
    put_store(&made, top);
    return made;
}

/* The answer to the log of `count` transactions. */
static inline text answer_of(uint32_t count) {
    text made = {0};
    put_replies(&made, 0, count);
    put(&made, "--\n", 0, "");
    put_store(&made, count);
    return made;
}

/* The log of `count` transactions. */
static inline text log_of(uint32_t count) {
    text made = snapshot_behind(0), segment = segment_behind(0, count);
    made.at = realloc(made.at, made.room = made.len + segment.len + 1);
    if (!made.at) fault("the test", "no memory");
    memcpy(made.at + made.len, segment.at + 6, segment.len - 6 + 1);
    made.len += segment.len - 6;
    free(segment.at);
    return made;
}

static inline const uint8_t *bytes_of(text it) { return (const uint8_t *)it.at; }

/* The text whose SHA-256 is the digest: a line of two dashes, then the store's lines. */
static inline text digested_behind(uint32_t top) {
    text made = {0};
    put(&made, "--\n", 0, "");
    put_store(&made, top);
    return made;
}

/* Frees bytes that a call returned, which must be these. */
static inline void take(const char *what, bohm_bytes *out, text right) {
    if (out->len != right.len || (right.len && memcmp(out->at, right.at, right.len))) fault(what, "other bytes are handed out");
    bohm_free_bytes(out);
    free(right.at);
}
