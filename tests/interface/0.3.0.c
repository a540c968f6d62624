/* A program as one could be written with the header of version 0.3.0: it makes each call that this header declares, and
 * checks what comes back. Behind each structure that a call fills stand bytes that have to stay as they are. It is built with
 * that header, and runs on the present library. */
#include "bohm.h"

#include <stdio.h>
#include <stdlib.h>
#include <string.h>

static const uint8_t seed[16] = "any bytes will";

static void hold(int is_so, const char *what) {
    if (is_so) return;
    fprintf(stderr, "a program of 0.3.0: %s\n", what);
    exit(1);
}

#define GUARD 0xa5
#define guarded(type, name) struct { type it; uint8_t behind[64]; } name; memset(&name, GUARD, sizeof name)
#define hold_guard(name, what) \
    for (size_t at = 0; at < sizeof name.behind; at++) hold(name.behind[at] == GUARD, what ": what follows the structure has changed")

static int is_text(const bohm_bytes *bytes, const char *wanted) {
    return bytes->len == strlen(wanted) && !memcmp(bytes->at, wanted, bytes->len);
}

static void *allocate(void *context, size_t size) { return *(long *)context += 1, malloc(size); }
static void *resize(void *context, void *at, size_t size) { return (void)context, realloc(at, size); }
static void release(void *context, void *at) { *(long *)context -= 1, free(at); }

static const char *store = "log 2\nalice 100\nbob 20\n";
static const char *spend = "log 2\ntxn\nreads alice\nwrites alice\nneed alice >= 30\nset alice = alice - 30\nshow alice\nend\n";
static const char *transfer = "procedure 2\nkey from\nkey to\nvalue n\nreads from to\nwrites from to\nneed from >= $n\n"
                              "set from = from - $n\nset to = to + $n\nshow to\nend\n";

static void check_texts(bohm_machine *machine) {
    guarded(bohm_bytes, out);
    out.it = (bohm_bytes)BOHM_NO_BYTES;
    hold(bohm_open(machine, seed, (const uint8_t *)store, strlen(store), 7, &out.it) == BOHM_DONE, "open");
    hold(bohm_apply(machine, (const uint8_t *)spend, strlen(spend), &out.it) == BOHM_DONE && is_text(&out.it, "8 commit 70\n"), "apply");
    bohm_free_bytes(&out.it);
    hold(bohm_apply_held(machine, (const uint8_t *)spend, strlen(spend), &out.it) == BOHM_DONE, "apply_held");
    hold(bohm_apply(machine, (const uint8_t *)spend, strlen(spend), &out.it) == BOHM_WAITING, "apply while replies wait");
    hold(bohm_replies(machine, &out.it) == BOHM_DONE && is_text(&out.it, "9 commit 40\n"), "replies");
    bohm_free_bytes(&out.it);
    hold(bohm_store_at(machine, 8, &out.it) == BOHM_DONE && is_text(&out.it, "log 1\nalice 70\nbob 20\n"), "store_at");
    bohm_free_bytes(&out.it);
    hold(bohm_apply(machine, (const uint8_t *)"log 3\n", 6, &out.it) == BOHM_REFUSED && is_text(&out.it, "refused: line 1\n"), "refusal");
    bohm_free_bytes(&out.it);
    hold_guard(out, "bohm_bytes");
}

static void check_calls(bohm_machine *machine) {
    bohm_procedure by = {0};
    bohm_calls calls = {0}, others = {0};
    bohm_bytes out = BOHM_NO_BYTES;
    const bohm_key keys[] = {{(const uint8_t *)"alice", 5}, {(const uint8_t *)"bob", 3}};
    const int64_t amount = 5;
    uint32_t handles[2] = {0, 0};
    hold(bohm_prepare(&by, seed, (const uint8_t *)transfer, strlen(transfer), &out) == BOHM_DONE, "prepare");
    hold(bohm_open_calls_for(machine, &calls, 2) == BOHM_DONE && bohm_open_calls(&others, seed, 1) == BOHM_DONE, "open_calls");
    hold(bohm_push(&others, &by, keys, 2, &amount, 1) == BOHM_UNFIT, "push of another edition");
    for (int i = 0; i < 2; i++) hold(bohm_key_handle(&calls, keys[i].at, keys[i].len, &handles[i]) == BOHM_DONE, "key_handle");
    hold(bohm_push(&calls, &by, keys, 2, &amount, 1) == BOHM_DONE, "push");
    hold(bohm_push_named(&calls, &by, handles, 2, &amount, 1) == BOHM_DONE, "push_named");
    hold(bohm_run_calls(machine, &calls, &out) == BOHM_DONE && is_text(&out, "10 commit 25\n11 commit 30\n"), "run_calls");
    bohm_free_bytes(&out);
    hold(bohm_run_calls_held(machine, &calls) == BOHM_DONE, "run_calls_held");

    guarded(bohm_reply_rows, rows);
    guarded(bohm_values, values);
    hold(bohm_rows(machine, &rows.it, &values.it) == BOHM_DONE && rows.it.len == 2 && values.it.len == 2, "rows");
    hold(rows.it.at[1].outcome == BOHM_COMMIT && rows.it.at[1].first == 1 && rows.it.at[1].shown == 1 && values.it.at[1] == 40, "a row");
    bohm_free_rows(&rows.it, &values.it);
    hold_guard(rows, "bohm_reply_rows");
    hold_guard(values, "bohm_values");
    hold(bohm_calls_text(&calls, &out) == BOHM_DONE && out.len > 8 && !memcmp(out.at, "log 2\ntxn\n", 10), "calls_text");
    bohm_free_bytes(&out);
    hold(bohm_clear_calls(&calls) == BOHM_DONE, "clear_calls");
    bohm_close_calls(&calls);
    bohm_close_calls(&others);
    bohm_close_procedure(&by);
}

/* Single calls and what a procedure says of itself. The top is 13, and alice has 20. */
static void check_single_calls(bohm_machine *machine) {
    bohm_procedure by = {0}, none = {0};
    bohm_bytes out = BOHM_NO_BYTES;
    const bohm_key keys[] = {{(const uint8_t *)"alice", 5}, {(const uint8_t *)"bob", 3}};
    const int64_t amount = 5;
    uint32_t handles[2] = {0, 0};
    int64_t shown[BOHM_MOST_SHOWN] = {0};
    size_t line = 0;
    guarded(bohm_reply, row);
    hold(bohm_prepare_report(&none, seed, (const uint8_t *)"procedure 2\n", 12, &out) == BOHM_REFUSED && out.len > 8, "prepare_report");
    bohm_free_bytes(&out);
    hold(bohm_prepare_report(&by, seed, (const uint8_t *)transfer, strlen(transfer), &out) == BOHM_DONE, "prepare_report");
    hold(bohm_statement_text(&by, 2, &line, &out) == BOHM_DONE && line == 7 && is_text(&out, "need from >= $n"), "statement_text");
    bohm_free_bytes(&out);
    for (int i = 0; i < 2; i++) hold(bohm_machine_key(machine, keys[i].at, keys[i].len, &handles[i]) == BOHM_DONE, "machine_key");
    hold(bohm_call(machine, &by, keys, 2, &amount, 1, &row.it, shown, BOHM_MOST_SHOWN) == BOHM_DONE, "call");
    hold(row.it.outcome == BOHM_COMMIT && row.it.shown == 1 && shown[0] == 45, "the call's reply");
    hold(bohm_call_named(machine, &by, handles, 2, &amount, 1, &row.it, shown, BOHM_MOST_SHOWN) == BOHM_DONE && shown[0] == 50, "call_named");
    hold_guard(row, "bohm_reply");
    bohm_close_procedure(&by);
}

/* A machine's store as rows, compacted. */
static void check_rows(bohm_machine *machine) {
    bohm_machine other = {0};
    guarded(bohm_entries, rows);
    rows.it = (bohm_entries)BOHM_NO_ENTRIES;
    guarded(bohm_machine_counts, counts);
    uint32_t floor = 0, top = 0;
    hold(bohm_timestamps(machine, &floor, &top) == BOHM_DONE && bohm_store_rows(machine, top, &rows.it) == BOHM_DONE, "store_rows");
    hold(rows.it.len == 2 && !memcmp(rows.it.at[0].key, "alice", 6) && rows.it.at[1].value == 50, "the rows");
    hold(bohm_open_rows(&other, seed, rows.it.at, rows.it.len, top) == BOHM_DONE, "open_rows");
    rows.it.at[0].key[0] = 'x';
    hold(bohm_open_rows(&other, seed, rows.it.at, rows.it.len, top) == BOHM_MISUSE, "open_rows of an open machine");
    bohm_close(&other);
    hold(bohm_open_rows(&other, seed, rows.it.at, rows.it.len, top) == BOHM_UNSORTED && !other.at, "rows that fall");
    bohm_free_entries(&rows.it);
    hold(bohm_compact(machine) == BOHM_DONE && bohm_counts_sized(machine, &counts.it, sizeof counts.it) == BOHM_DONE, "compact");
    hold(counts.it.floor == top && counts.it.versions == 2 && counts.it.names == 2 && counts.it.left == UINT32_MAX - top, "the counts");
    hold_guard(rows, "bohm_entries");
    hold_guard(counts, "bohm_machine_counts");
}

static void check_reading(bohm_machine *machine) {
    guarded(bohm_machine_counts, counts);
    hold(bohm_counts(machine, &counts.it) == BOHM_DONE, "counts");
    hold(counts.it.floor == 7 && counts.it.top == 13 && counts.it.waiting == 0 && counts.it.versions > 2, "the counts");
    hold_guard(counts, "bohm_machine_counts");
    uint32_t floor = 0, top = 0;
    uint8_t present = 0, digest[32], same[32];
    int64_t value = 0;
    hold(bohm_trim(machine, 9) == BOHM_DONE && bohm_timestamps(machine, &floor, &top) == BOHM_DONE && floor == 9 && top == 13, "trim");
    hold(bohm_value_at(machine, (const uint8_t *)"bob", 3, 11, &present, &value) == BOHM_DONE && present == 1 && value == 30, "value_at");
    hold(bohm_value_at(machine, (const uint8_t *)"bob", 3, 8, &present, &value) == BOHM_TRIMMED, "value_at below the floor");
    hold(bohm_digest(machine, 12, digest) == BOHM_DONE && bohm_digest(machine, 12, same) == BOHM_DONE && !memcmp(digest, same, 32), "digest");
    hold(bohm_digest(machine, 14, digest) == BOHM_FUTURE, "digest above the top");
}

int main(void) {
    long blocks = 0;
    const bohm_allocator own = {allocate, resize, release, &blocks};
    hold(bohm_abi() == BOHM_ABI, "abi");
    hold(!strcmp(bohm_status_text(BOHM_DONE), "done"), "status_text");
    hold(bohm_use_allocator(&own) == BOHM_DONE && bohm_use_allocator(&own) == BOHM_MISUSE, "use_allocator");
    bohm_machine machine = {0};
    check_texts(&machine);
    check_calls(&machine);
    check_reading(&machine);
    check_single_calls(&machine);
    check_rows(&machine);
    bohm_close(&machine);
    hold(!machine.at, "close");
    bohm_bytes out = BOHM_NO_BYTES;
    const char *log = "log 1\na 1\ntxn\nreads a\nwrites\nshow a\nend\n";
    hold(bohm_answer(seed, (const uint8_t *)log, strlen(log), &out) == BOHM_DONE && is_text(&out, "1 commit 1\n--\na 1\n"), "answer");
    bohm_free(out.at);
    hold(blocks == 0, "what was allocated isn't freed");
    return 0;
}
