/* Single calls on a machine, stores as rows, compaction and the text of calls: each status, and each allocation of each call
 * refused in turn.
 * Linked with -Wl,--wrap=malloc,--wrap=realloc,--wrap=free. */
#include "embed_heap.h"

static procedures of;

/* ---- single calls */

static uint32_t machine_key(bohm_machine *machine, const char *name, uint32_t *handle) {
    return bohm_machine_key(machine, (const uint8_t *)name, strlen(name), handle);
}

static void make_keys(bohm_machine *machine, handles *keys) {
    hold(machine_key(machine, "a", &keys->a) == BOHM_DONE && keys->a == 0, "another handle");
    hold(machine_key(machine, "b", &keys->b) == BOHM_DONE && keys->b == 1, "another handle");
    hold(machine_key(machine, "c", &keys->c) == BOHM_DONE && keys->c == 2, "another handle");
}

/* Runs the call that is transaction `k`, with keys named by handles if there are any. */
static uint32_t call(bohm_machine *machine, const handles *keys, uint32_t k, bohm_reply *row, int64_t *shown, size_t room) {
    bohm_key named[] = {key_of(k % 4 == 2 ? "b" : "a"), key_of("c")};
    uint32_t handled[] = {keys ? k % 4 == 2 ? keys->b : keys->a : 0, keys ? keys->c : 0};
    const bohm_procedure *which = k % 2 ? &of.count : k % 4 ? &of.copy : &of.need;
    size_t key_count = k % 4 == 2 ? 2 : 1, value_count = k % 4 ? 1 : 0;
    int64_t one = 1;
    return keys ? bohm_call_named(machine, which, handled, key_count, &one, value_count, row, shown, room)
                : bohm_call(machine, which, named, key_count, &one, value_count, row, shown, room);
}

/* The reply is that of transaction `k`, and the second value is as before. */
static void check_reply(uint32_t k, bohm_reply row, const int64_t shown[2]) {
    int commits = k % 4 != 0;
    hold(row.outcome == (commits ? BOHM_COMMIT : BOHM_ABORT_NEED) && row.statement == (commits ? 0u : 2u), "another outcome");
    hold(row.first == 0 && row.shown == (uint64_t)commits, "another number of values");
    int64_t right = k % 2 ? counted_a(k - 1) : 7 + counted_b(k - 1);
    hold(shown[0] == (commits ? right : -3), "another shown value");
    hold(shown[1] == -4, "a value behind the shown ones");
}

static void call_on(bohm_machine *machine, const handles *keys, uint32_t k) {
    bohm_reply row = {9, 9, 9, 9};
    int64_t shown[2] = {-3, -4};
    hold(call(machine, keys, k, &row, shown, 1 + k % 2) == BOHM_DONE, "the call isn't run");
    check_reply(k, row, shown);
}

/* Calls one by one give what the log gives, by bytes and by handles, between segments and lists of calls. */
static void one_by_one(void) {
    now = "one by one";
    bohm_machine machine = {0};
    handles keys;
    open_behind(&machine, 0);
    make_keys(&machine, &keys);
    for (uint32_t k = 1; k <= 40; k++) {
        if (k % 10 == 0) go_on(&machine, 1);
        else call_on(&machine, k % 3 ? &keys : NULL, k);
        check_machine(&machine, k);
    }
    bohm_close(&machine);
}

static int is_row_as_before(bohm_reply row, const int64_t shown[2]) {
    return row.outcome == 9 && row.statement == 9 && row.first == 9 && row.shown == 9 && shown[0] == -3 && shown[1] == -4;
}

static void call_statuses(void) {
    now = "statuses of a call";
    bohm_machine machine = {0}, closed = {0};
    bohm_procedure none = {0};
    handles keys;
    bohm_reply row = {9, 9, 9, 9};
    int64_t shown[2] = {-3, -4}, one = 1;
    bohm_key a = key_of("a"), large = key_of("A"), two[] = {a, large}, null_key = {NULL, 0}, wrong = {NULL, 1};
    uint32_t strange = 3, handle = 9;
    open_behind(&machine, 4294967290u);
    make_keys(&machine, &keys);
#define call_count(machine, key, keys, values) bohm_call(machine, &of.count, key, keys, &one, values, &row, shown, 2)
    hold(call_count(&machine, &large, 1, 1) == BOHM_NO_KEY && call_count(&machine, &null_key, 1, 1) == BOHM_NO_KEY, "no key");
    hold(bohm_call(&machine, &of.copy, two, 2, &one, 1, &row, shown, 2) == BOHM_NO_KEY, "no key");
    hold(call_count(&machine, &a, 1, 0) == BOHM_UNFIT && call_count(&machine, &large, 0, 1) == BOHM_UNFIT, "too few arguments");
    hold(call_count(&machine, two, 2, 1) == BOHM_UNFIT, "too many keys, one of them none: they are counted first");
    hold(call_count(&machine, &wrong, 1, 1) == BOHM_MISUSE, "a null key");
    hold(call_count(&closed, &a, 1, 1) == BOHM_MISUSE && call_count(NULL, &a, 1, 1) == BOHM_MISUSE, "no machine");
    hold(bohm_call(&machine, &none, &a, 1, &one, 1, &row, shown, 2) == BOHM_MISUSE, "a closed procedure");
    hold(bohm_call(&machine, NULL, &a, 1, &one, 1, &row, shown, 2) == BOHM_MISUSE, "no procedure");
    hold(bohm_call(&machine, &of.count, NULL, 1, &one, 1, &row, shown, 2) == BOHM_MISUSE, "null keys");
    hold(bohm_call(&machine, &of.count, &a, 1, NULL, 1, &row, shown, 2) == BOHM_MISUSE, "null values");
    hold(bohm_call(&machine, &of.count, &a, 1, &one, 1, NULL, shown, 2) == BOHM_MISUSE, "a null row");
    hold(bohm_call(&machine, &of.count, &a, 1, &one, 1, &row, NULL, 2) == BOHM_MISUSE, "null room");
#define call_count_named(machine, handle, keys, values) \
    bohm_call_named(machine, &of.count, handle, keys, &one, values, &row, shown, 2)
    hold(call_count_named(&machine, &strange, 1, 1) == BOHM_MISUSE, "a handle that nobody made");
    hold(call_count_named(&machine, &keys.a, 1, 0) == BOHM_UNFIT && call_count_named(&machine, NULL, 0, 1) == BOHM_UNFIT, "too few arguments");
    hold(call_count_named(&closed, &keys.a, 1, 1) == BOHM_MISUSE && call_count_named(NULL, &keys.a, 1, 1) == BOHM_MISUSE, "no machine");
    hold(bohm_call_named(&machine, &none, &keys.a, 1, &one, 1, &row, shown, 2) == BOHM_MISUSE, "a closed procedure");
    hold(bohm_call_named(&machine, &of.count, NULL, 1, &one, 1, &row, shown, 2) == BOHM_MISUSE, "null handles");
    hold(bohm_call_named(&machine, &of.count, &keys.a, 1, &one, 1, NULL, shown, 2) == BOHM_MISUSE, "a null row");
    hold(machine_key(&machine, "A", &handle) == BOHM_NO_KEY && machine_key(&closed, "a", &handle) == BOHM_MISUSE, "no key");
    hold(machine_key(NULL, "a", &handle) == BOHM_MISUSE && machine_key(&machine, "a", NULL) == BOHM_MISUSE && handle == 9, "a null pointer");
    hold(bohm_machine_key(&machine, NULL, 1, &handle) == BOHM_MISUSE && bohm_machine_key(&machine, NULL, 0, &handle) == BOHM_NO_KEY, "a null key");
    hold(is_row_as_before(row, shown), "a row of a call that didn't run");
    check_machine(&machine, 4294967290u);
    for (uint32_t k = 1; k <= 5; k++) call_on(&machine, k % 2 ? &keys : NULL, 4294967290u + k);
    hold(call_count(&machine, &a, 1, 1) == BOHM_TIMESTAMPS && call_count_named(&machine, &keys.a, 1, 1) == BOHM_TIMESTAMPS, "timestamps pass");
    hold(call_count(&machine, &large, 1, 1) == BOHM_NO_KEY, "no key, before timestamps");
    hold(is_row_as_before(row, shown), "a row of a call that didn't run");
    check_machine(&machine, 4294967295u);
    bohm_close(&machine);
}

/* A reply without room waits, and holds up later calls; rows and text return it. */
static void without_room(void) {
    now = "without room";
    bohm_machine machine = {0};
    handles keys;
    bohm_bytes out = BOHM_NO_BYTES;
    bohm_reply_rows rows = BOHM_NO_ROWS;
    bohm_values values = BOHM_NO_VALUES;
    open_behind(&machine, 0);
    make_keys(&machine, &keys);
    for (uint32_t k = 1; k <= 8; k++) {
        bohm_reply row = {9, 9, 9, 9};
        int64_t shown[2] = {-3, -4};
        const handles *by = k / 2 % 2 ? &keys : NULL;
        uint32_t status = call(&machine, by, k, &row, NULL, 0);
        if (k % 4 == 0) {
            hold(status == BOHM_DONE, "an abort shows nothing, and needs no room");
            check_reply(k, row, shown);
            continue;
        }
        hold(status == BOHM_KEPT && row.outcome == 9 && row.shown == 9, "a reply without room");
        hold(counts_of(&machine).waiting == 1 && counts_of(&machine).top == k, "the reply doesn't wait");
        hold(call(&machine, by, k + 1, &row, shown, 2) == BOHM_WAITING && is_row_as_before(row, shown), "it doesn't wait");
        hold(bohm_call(&machine, &of.count, NULL, 0, NULL, 0, &row, shown, 2) == BOHM_WAITING, "waiting comes before arguments");
        if (k % 2) {
            hold(bohm_rows(&machine, &rows, &values) == BOHM_DONE && rows.len == 1 && values.len == 1, "no rows");
            shown[0] = values.at[0];
            check_reply(k, rows.at[0], shown);
            bohm_free_rows(&rows, &values);
        } else {
            hold(bohm_replies(&machine, &out) == BOHM_DONE, "no replies");
            take(now, &out, replies_behind(k - 1, 1));
        }
        check_machine(&machine, k);
    }
    bohm_close(&machine);
}

static long called_refused(int by_handle, long from, long to) {
    bohm_machine machine = {0};
    handles keys;
    long asked_for = 0;
    open_behind(&machine, 0);
    make_keys(&machine, &keys);
    refuse(from, to);
    for (uint32_t k = 1; k <= 8;) {
        bohm_reply row = {9, 9, 9, 9};
        int64_t shown[2] = {-3, -4};
        long before = asked;
        uint32_t status = call(&machine, by_handle ? &keys : NULL, k, &row, shown, 2);
        if (status == BOHM_DONE) {
            check_reply(k++, row, shown);
            continue;
        }
        hold(status == BOHM_NO_MEMORY && asked > before && asked >= from, "another end");
        hold(is_row_as_before(row, shown) && counts_of(&machine).top == k - 1, "something has changed");
        asked_for = relent();
        check_machine(&machine, k - 1);
    }
    if (!asked_for) asked_for = relent();
    check_machine(&machine, 8);
    go_on(&machine, 4);
    bohm_close(&machine);
    return asked_for;
}

static long call_refused(long from, long to) { return called_refused(0, from, to); }
static long call_named_refused(long from, long to) { return called_refused(1, from, to); }

static long machine_key_refused(long from, long to) {
    bohm_machine machine = {0};
    uint32_t handle = 9;
    open_behind(&machine, 0);
    refuse(from, to);
    uint32_t status = machine_key(&machine, "other", &handle);
    long asked_for = relent();
    if (status) hold(status == BOHM_NO_MEMORY && handle == 9 && asked_for >= from, "another end");
    else hold(handle == 0, "another handle");
    hold(machine_key(&machine, "a", &handle) == BOHM_DONE && handle == (status ? 0u : 1u), "another handle");
    check_machine(&machine, 0);
    go_on(&machine, 4);
    bohm_close(&machine);
    return asked_for;
}

/* ---- stores as rows */

static bohm_entry entry(const char *name, int64_t value) {
    bohm_entry made = {{0}, value};
    memcpy(made.key, name, strlen(name));
    return made;
}

/* The rows of the log's store at a timestamp, of which there are at most three. */
static size_t rows_behind(uint32_t top, bohm_entry rows[3]) {
    rows[0] = entry("a", counted_a(top));
    rows[1] = entry("b", 7 + counted_b(top));
    if (top >= 2) rows[2] = entry("c", 6 + counted_b(top));
    return top >= 2 ? 3 : 2;
}

static void take_rows(bohm_entries *out, uint32_t ts) {
    bohm_entry right[3];
    size_t count = rows_behind(ts, right);
    hold(out->len == count && !memcmp(out->at, right, count * sizeof *right), "other rows");
    bohm_free_entries(out);
}

static long store_rows_refused(long from, long to) {
    bohm_machine machine = {0};
    bohm_entries out = BOHM_NO_ENTRIES;
    open_behind(&machine, 0);
    go_on(&machine, 9);
    refuse(from, to);
    uint32_t status = bohm_store_rows(&machine, 5, &out);
    long asked_for = relent();
    if (status == BOHM_DONE) take_rows(&out, 5);
    else hold(status == BOHM_NO_MEMORY && !out.at && !out.len && asked_for >= from, "another end");
    check_machine(&machine, 9);
    bohm_close(&machine);
    return asked_for;
}

static long open_rows_refused(long from, long to) {
    bohm_machine machine = {0};
    bohm_entry rows[3];
    size_t count = rows_behind(40, rows);
    refuse(from, to);
    uint32_t status = bohm_open_rows(&machine, seed, rows, count, 40);
    long asked_for = relent();
    if (status) {
        hold(status == BOHM_NO_MEMORY && !machine.at && asked_for >= from, "another end");
        hold(bohm_open_rows(&machine, seed, rows, count, 40) == BOHM_DONE, "it doesn't open");
    }
    check_machine(&machine, 40);
    go_on(&machine, 5);
    bohm_close(&machine);
    return asked_for;
}

static void row_statuses(void) {
    now = "statuses of rows";
    bohm_machine machine = {0};
    bohm_entries out = BOHM_NO_ENTRIES;
    const char *longest = "abcdefghijklmnopqrstuvwxyz_01234";
    bohm_entry equal[] = {entry("a", 1), entry("a", 1)}, falls[] = {entry("b", 1), entry("a", 2)};
    bohm_entry bad[] = {entry("b", 1), entry("a", 2), entry("A", 3)}, empty = entry("", 1);
    bohm_entry good[] = {entry("a", INT64_MIN), entry("a0", INT64_MAX), entry("a_", -1), entry(longest, 0), entry("b", 5)};
    good[4].key[2] = 'x';
    hold(bohm_open_rows(&machine, seed, equal, 2, 0) == BOHM_UNSORTED && !machine.at, "equal keys");
    hold(bohm_open_rows(&machine, seed, falls, 2, 0) == BOHM_UNSORTED && !machine.at, "falling keys");
    hold(bohm_open_rows(&machine, seed, bad, 3, 0) == BOHM_NO_KEY && !machine.at, "no key, before the order");
    hold(bohm_open_rows(&machine, seed, &empty, 1, 0) == BOHM_NO_KEY && !machine.at, "no bytes are no key");
    hold(bohm_open_rows(&machine, seed, NULL, 1, 0) == BOHM_MISUSE && bohm_open_rows(NULL, seed, good, 5, 0) == BOHM_MISUSE, "a null pointer");
    hold(bohm_open_rows(&machine, NULL, good, 5, 0) == BOHM_MISUSE && !machine.at, "no seed");
    hold(bohm_store_rows(&machine, 0, &out) == BOHM_MISUSE && bohm_store_rows(NULL, 0, &out) == BOHM_MISUSE, "no machine");
    hold(bohm_open_rows(&machine, seed, good, 5, 17) == BOHM_DONE, "it doesn't open");
    hold(bohm_open_rows(&machine, seed, good, 5, 17) == BOHM_MISUSE, "an open machine is opened");
    hold(bohm_store_rows(&machine, 17, NULL) == BOHM_DONE, "rows that nobody wants");
    hold(bohm_store_rows(&machine, 16, &out) == BOHM_TRIMMED && bohm_store_rows(&machine, 18, &out) == BOHM_FUTURE, "no past");
    hold(!out.at && !out.len, "something is handed out");
    hold(bohm_store_rows(&machine, 17, &out) == BOHM_DONE && out.len == 5, "other rows");
    good[4].key[2] = 0;
    hold(!memcmp(out.at, good, sizeof good), "other rows, and bytes behind a zero are no part of a key");
    bohm_free_entries(&out);
    bohm_close(&machine);
    hold(bohm_open_rows(&machine, seed, NULL, 0, 4294967295u) == BOHM_DONE, "an empty store");
    hold(bohm_store_rows(&machine, 4294967295u, &out) == BOHM_DONE && !out.at && !out.len, "rows of an empty store");
    bohm_close(&machine);
}

/* ---- compaction */

/* The machine after 12 transactions of the log, one that drops `d` after setting it, and many aborted ones on new keys. */
static void churn(bohm_machine *machine, handles *keys) {
    bohm_procedure drops = prepared(now, "procedure 1\nkey of\nreads of\nwrites of\nneed has of\ndrop of\nend\n");
    bohm_procedure fails = prepared(now, "procedure 1\nkey of\nreads\nwrites of\nset of = 1\nfail\nend\n");
    bohm_procedure sets = prepared(now, "procedure 1\nkey of\nreads\nwrites of\nset of = 1\nend\n");
    bohm_reply row;
    open_behind(machine, 0);
    make_keys(machine, keys);
    go_on(machine, 12);
    for (int i = 0; i < 100; i++) {
        char name[16];
        sprintf(name, "other_%d", i);
        bohm_key key = key_of(name);
        hold(bohm_call(machine, &sets, &key, 1, NULL, 0, &row, NULL, 0) == BOHM_DONE && row.outcome == BOHM_COMMIT, "set");
        hold(bohm_call(machine, &drops, &key, 1, NULL, 0, &row, NULL, 0) == BOHM_DONE && row.outcome == BOHM_COMMIT, "drop");
        sprintf(name, "none_%d", i);
        key = key_of(name);
        hold(bohm_call(machine, &fails, &key, 1, NULL, 0, &row, NULL, 0) == BOHM_DONE && row.outcome == BOHM_ABORT_FAIL, "fail");
    }
    bohm_close_procedure(&drops);
    bohm_close_procedure(&fails);
    bohm_close_procedure(&sets);
}

/* The top is 312, and the store that after the log's 12th transaction. */
static void check_churned(bohm_machine *machine) {
    bohm_entries out = BOHM_NO_ENTRIES;
    hold(bohm_store_rows(machine, 312, &out) == BOHM_DONE, "no rows");
    take_rows(&out, 12);
}

static long compact_refused(long from, long to) {
    bohm_machine machine = {0};
    handles keys;
    churn(&machine, &keys);
    bohm_machine_counts before = counts_of(&machine);
    hold(before.names == 203 && before.top == 312 && before.left == 4294967295u - 312, "other counts");
    refuse(from, to);
    uint32_t status = bohm_compact(&machine);
    long asked_for = relent();
    bohm_machine_counts after = counts_of(&machine);
    check_churned(&machine);
    if (status) {
        hold(status == BOHM_NO_MEMORY && asked_for >= from, "another end");
        hold(!memcmp(&before, &after, sizeof after), "something has changed");
    } else {
        hold(after.names == 3 && after.versions == 3 && after.floor == 312 && after.top == 312, "other counts");
        hold(after.bytes < before.bytes && after.left == before.left, "other counts");
    }
    bohm_reply row = {9, 9, 9, 9};
    int64_t shown[2] = {-3, -4};
    hold(call(&machine, &keys, 13, &row, shown, 2) == BOHM_DONE, "the call isn't run");
    check_reply(13, row, shown);
    hold(call(&machine, &keys, 14, &row, shown, 2) == BOHM_DONE && shown[0] == 7 + counted_b(13), "another value");
    hold(machine_key(&machine, "a", &keys.a) == BOHM_DONE && keys.a == 3, "another handle");
    bohm_close(&machine);
    return asked_for;
}

/* Replies that wait, and a list that shares names, outlast a compaction. */
static void compacted_between(void) {
    now = "compacted between";
    bohm_machine machine = {0}, closed = {0};
    bohm_bytes out = BOHM_NO_BYTES;
    text segment = segment_behind(0, 6);
    open_behind(&machine, 0);
    bohm_calls calls = {0};
    handles keys;
    hold(bohm_open_calls_for(&machine, &calls, 1) == BOHM_DONE && make_handles(&calls, &keys) == BOHM_DONE, "no list");
    hold(bohm_apply_held(&machine, bytes_of(segment), segment.len, NULL) == BOHM_DONE, "it isn't run");
    hold(bohm_compact(&machine) == BOHM_DONE && counts_of(&machine).waiting == 6 && counts_of(&machine).floor == 6, "compact");
    hold(bohm_replies(&machine, &out) == BOHM_DONE, "no replies");
    take(now, &out, replies_behind(0, 6));
    for (uint32_t k = 7; k <= 12; k++) hold(push_named(&calls, &of, &keys, k) == BOHM_DONE, "a call isn't taken");
    hold(bohm_run_calls(&machine, &calls, &out) == BOHM_DONE, "the calls aren't run");
    take(now, &out, replies_behind(6, 6));
    check_machine(&machine, 12);
    hold(bohm_compact(&closed) == BOHM_MISUSE && bohm_compact(NULL) == BOHM_MISUSE, "no machine");
    bohm_close(&machine);
    bohm_close_calls(&calls);
    free(segment.at);
}

/* ---- texts */

static long calls_text_refused(long from, long to) {
    const char *right = "log 1\n"
                        "txn\nreads a\nwrites a\nlet $by = 1\nset a = a + $by\nshow a\nend\n"
                        "txn\nreads b\nwrites b c\nlet $by = 1\nset c = b\nset b = b + $by\nshow b\nend\n"
                        "txn\nreads a\nwrites a\nlet $by = 1\nset a = a + $by\nshow a\nend\n"
                        "txn\nreads a\nwrites\nshow a\nneed a < 0\nend\n";
    bohm_calls calls = calls_behind(now, &of, 0, 4);
    bohm_machine machine = {0};
    bohm_bytes out = BOHM_NO_BYTES, replies = BOHM_NO_BYTES;
    text wanted = {0};
    put(&wanted, "", 0, right);
    refuse(from, to);
    uint32_t status = bohm_calls_text(&calls, &out);
    long asked_for = relent();
    if (status) {
        hold(status == BOHM_NO_MEMORY && is_none(out) && asked_for >= from, "another end");
        free(wanted.at);
    } else {
        hold(!out.at[out.len], "no zero follows");
        open_behind(&machine, 0);
        hold(bohm_apply(&machine, out.at, out.len, &replies) == BOHM_DONE && !replies.at[replies.len], "the text isn't run");
        take(now, &replies, replies_behind(0, 4));
        check_machine(&machine, 4);
        bohm_close(&machine);
        take(now, &out, wanted);
    }
    open_behind(&machine, 0);
    hold(bohm_run_calls(&machine, &calls, &replies) == BOHM_DONE, "the calls are gone");
    take(now, &replies, replies_behind(0, 4));
    bohm_close(&machine);
    bohm_close_calls(&calls);
    return asked_for;
}

/* A zero follows each text, and texts have a greatest length. */
static void bounds_of_texts(void) {
    now = "texts";
    bohm_machine machine = {0};
    bohm_bytes out = BOHM_NO_BYTES;
    text log = log_of(3), refusal = {0}, line = {0};
    size_t most = BOHM_LONGEST_TEXT;
    uint8_t *spaces = malloc(most + 1);
    hold(spaces != NULL, "no memory for the test");
    memset(spaces, ' ', most + 1);
    put(&refusal, "refused: too long\n", 0, "");
    put(&line, "refused: line 1\n", 0, "");
    spaces[most - 1] = spaces[most] = '\n';
    hold(bohm_answer(seed, spaces, most + 1, &out) == BOHM_REFUSED && !out.at[out.len], "a text that is too long");
    take(now, &out, refusal);
    hold(bohm_answer(seed, spaces, most, &out) == BOHM_REFUSED && !out.at[out.len], "a text of spaces");
    take(now, &out, line);
    free(spaces);
    hold(bohm_answer(seed, bytes_of(log), log.len, &out) == BOHM_DONE && !out.at[out.len], "no answer");
    take(now, &out, answer_of(3));
    open_behind(&machine, 0);
    go_on(&machine, 3);
    hold(bohm_store_at(&machine, 3, &out) == BOHM_DONE && !out.at[out.len], "no zero follows");
    take(now, &out, snapshot_behind(3));
    bohm_calls closed = {0};
    hold(bohm_calls_text(&closed, &out) == BOHM_MISUSE && bohm_calls_text(NULL, &out) == BOHM_MISUSE && is_none(out), "no list");
    bohm_close(&machine);
    free(log.at);
}

int main(void) {
    of = prepare_all("procedures");
    one_by_one();
    call_statuses();
    without_room();
    row_statuses();
    compacted_between();
    bounds_of_texts();
    each_refused("bohm_call", call_refused, 0);
    each_refused("bohm_call_named", call_named_refused, 0);
    each_refused("bohm_machine_key", machine_key_refused, 0);
    each_refused("bohm_store_rows", store_rows_refused, 0);
    each_refused("bohm_open_rows", open_rows_refused, 0);
    each_refused("bohm_compact", compact_refused, 0);
    each_refused("bohm_calls_text", calls_text_refused, 0);
    close_all(&of);
    hold(blocks == 0, "a block that nobody frees");
    puts("single calls, rows and compaction: as it should be");
    return 0;
}
