/* Runs the calls of a script of tests/procedures: `calls < SCRIPT` writes their answer. In turn a segment is a list whose
 * replies are returned as rows, a list's text that a second machine applies, and single calls. Calls name their keys by
 * handles and by bytes in turn. The machine is compacted now and then. */
#include "../../crates/bohm_c/include/bohm.h"

#include <inttypes.h>
#include <stdio.h>
#include <stdlib.h>
#include <string.h>

enum { MOST = 64, ROOM = 1 << 16 };

static void need(int is_so, const char *what) {
    if (is_so) return;
    fprintf(stderr, "calls: %s\n", what);
    exit(1);
}

/* Any bytes: no answer depends on them. */
static const uint8_t seed[16] = "a made-up seed!";

static char store[ROOM], text[ROOM], line[ROOM];
static bohm_machine machine, second;
static bohm_calls calls;
static bohm_procedure procedures[MOST];
static size_t prepared;
static uint32_t edition;

/* A call of the segment. */
typedef struct {
    const bohm_procedure *by;
    size_t key_count, value_count;
    char names[MOST][33];
    int64_t values[MOST];
} pushed_call;

static pushed_call pushed[MOST];
static size_t pushed_count;

/* Opens the machines, the second on the rows of the first, and a list of calls, which in edition 1 shares the first one's
 * names. */
static void open_all(void) {
    bohm_entries rows = BOHM_NO_ENTRIES;
    need(bohm_open(&machine, seed, (uint8_t *)store, strlen(store), 0, NULL) == BOHM_DONE, "open");
    need(bohm_store_rows(&machine, 0, &rows) == BOHM_DONE, "store_rows");
    need(bohm_open_rows(&second, seed, rows.at, rows.len, 0) == BOHM_DONE, "open_rows");
    bohm_free_entries(&rows);
    uint32_t status = edition == 1 ? bohm_open_calls_for(&machine, &calls, 1) : bohm_open_calls(&calls, seed, edition);
    need(status == BOHM_DONE, "open_calls");
}

static void prepare(void) {
    if (!machine.at) open_all();
    need(prepared < MOST && bohm_prepare(&procedures[prepared++], seed, (uint8_t *)text, strlen(text), NULL) == BOHM_DONE, "prepare");
    text[0] = 0;
}

static size_t count(void) {
    return strtoul(strtok(NULL, " "), NULL, 10);
}

/* The handle of a key, which is looked up once. Another key may be numbered in between. */
static uint32_t handle_of(bohm_key key) {
    static char names[MOST][33];
    static uint32_t handles[MOST];
    static size_t known;
    for (size_t i = 0; i < known; i++)
        if (strlen(names[i]) == key.len && !memcmp(names[i], key.at, key.len)) return handles[i];
    need(known < MOST && key.len < sizeof names[0], "too many keys");
    memcpy(names[known], key.at, key.len);
    need(bohm_key_handle(&calls, key.at, key.len, &handles[known]) == BOHM_DONE, "key_handle");
    return handles[known++];
}

static void remember(const bohm_procedure *by, const bohm_key *keys, size_t key_count, const int64_t *values, size_t value_count) {
    need(pushed_count < MOST, "too many calls");
    pushed_call *to = &pushed[pushed_count++];
    *to = (pushed_call){.by = by, .key_count = key_count, .value_count = value_count};
    for (size_t i = 0; i < key_count; i++) memcpy(to->names[i], keys[i].at, keys[i].len);
    memcpy(to->values, values, value_count * sizeof *values);
}

static void push(void) {
    static int turn;
    bohm_key keys[MOST];
    uint32_t handles[MOST];
    int64_t values[MOST];
    size_t number = count(), key_count = count(), value_count;
    for (size_t i = 0; i < key_count; i++) {
        const char *name = strtok(NULL, " ");
        keys[i] = (bohm_key){(const uint8_t *)name, strlen(name)};
    }
    value_count = count();
    for (size_t i = 0; i < value_count; i++) values[i] = strtoll(strtok(NULL, " "), NULL, 10);
    remember(&procedures[number], keys, key_count, values, value_count);
    if (turn++ % 3) {
        for (size_t i = 0; i < key_count; i++) handles[i] = handle_of(keys[i]);
        need(bohm_push_named(&calls, &procedures[number], handles, key_count, values, value_count) == BOHM_DONE, "push_named");
    } else {
        need(bohm_push(&calls, &procedures[number], keys, key_count, values, value_count) == BOHM_DONE, "push");
    }
}

static void print_reply(size_t timestamp, const bohm_reply *row, const int64_t *shown) {
    static const char *const reasons[] = {"", "need", "fail", "absent", "range"};
    printf("%zu ", timestamp);
    if (row->outcome) {
        printf("abort %s %" PRIu32 "\n", reasons[row->outcome], row->statement);
        return;
    }
    printf("commit");
    for (uint64_t v = 0; v < row->shown; v++) printf(" %" PRId64, shown[row->first + v]);
    printf("\n");
}

static void run_for_text(void) {
    bohm_bytes out = BOHM_NO_BYTES;
    need(bohm_run_calls(&machine, &calls, &out) == BOHM_DONE, "run_calls");
    bohm_free_bytes(&out);
}

static void run_for_rows(uint32_t top) {
    bohm_reply_rows rows = BOHM_NO_ROWS;
    bohm_values values = BOHM_NO_VALUES;
    need(bohm_run_calls_held(&machine, &calls) == BOHM_DONE && bohm_rows(&machine, &rows, &values) == BOHM_DONE, "rows");
    for (size_t i = 0; i < rows.len; i++) print_reply(top + i + 1, &rows.at[i], values.at);
    bohm_free_rows(&rows, &values);
}

static void run_singly(uint32_t top) {
    for (size_t i = 0; i < pushed_count; i++) {
        const pushed_call *it = &pushed[i];
        bohm_key keys[MOST];
        uint32_t handles[MOST], status;
        bohm_reply reply;
        int64_t shown[BOHM_MOST_SHOWN];
        for (size_t k = 0; k < it->key_count; k++) {
            keys[k] = (bohm_key){(const uint8_t *)it->names[k], strlen(it->names[k])};
            need(bohm_machine_key(&machine, keys[k].at, keys[k].len, &handles[k]) == BOHM_DONE, "machine_key");
        }
        status = i % 2 ? bohm_call_named(&machine, it->by, handles, it->key_count, it->values, it->value_count, &reply, shown, BOHM_MOST_SHOWN)
                       : bohm_call(&machine, it->by, keys, it->key_count, it->values, it->value_count, &reply, shown, BOHM_MOST_SHOWN);
        need(status == BOHM_DONE && reply.first == 0, "call");
        print_reply(top + i + 1, &reply, shown);
    }
}

/* Applies the list's text to the second machine, and prints the replies, if they are wanted. */
static void apply_to_second(int is_wanted) {
    bohm_bytes log = BOHM_NO_BYTES, out = BOHM_NO_BYTES;
    need(bohm_calls_text(&calls, &log) == BOHM_DONE && !log.at[log.len], "calls_text");
    need(bohm_apply(&second, log.at, log.len, &out) == BOHM_DONE, "apply");
    if (is_wanted) fwrite(out.at, 1, out.len, stdout);
    bohm_free_bytes(&log);
    bohm_free_bytes(&out);
}

static void run(void) {
    static int turn;
    bohm_machine_counts counts;
    need(bohm_counts(&machine, &counts) == BOHM_DONE, "counts");
    int way = turn++ % 3;
    if (way == 0) run_for_rows(counts.top);
    else if (way == 1) run_for_text();
    else run_singly(counts.top);
    apply_to_second(way == 1);
    if (way) need(bohm_compact(&machine) == BOHM_DONE, "compact");
    need(bohm_clear_calls(&calls) == BOHM_DONE, "clear_calls");
    pushed_count = 0;
}

static void end(void) {
    bohm_machine_counts counts;
    bohm_machine again = {0};
    bohm_bytes out = BOHM_NO_BYTES;
    uint8_t digest[32], same[32];
    need(bohm_counts(&machine, &counts) == BOHM_DONE, "counts");
    need(bohm_store_at(&machine, counts.top, &out) == BOHM_DONE, "store_at");
    printf("--\n%.*s", (int)out.len - 6, (char *)out.at + 6);
    need(bohm_open(&again, seed, out.at, out.len, counts.top, NULL) == BOHM_DONE, "open again");
    need(bohm_digest(&machine, counts.top, digest) == BOHM_DONE && bohm_digest(&again, counts.top, same) == BOHM_DONE, "digest");
    need(!memcmp(digest, same, 32), "another digest");
    need(bohm_digest(&second, counts.top, same) == BOHM_DONE && !memcmp(digest, same, 32), "another digest of the second machine");
    bohm_free_bytes(&out);
    bohm_close(&again);
    bohm_close(&second);
    bohm_close(&machine);
    bohm_close_calls(&calls);
    for (size_t i = 0; i < prepared; i++) bohm_close_procedure(&procedures[i]);
}

int main(void) {
    while (fgets(line, sizeof line, stdin)) {
        if (!strncmp(line, "store ", 6)) {
            strcat(store, line + 6);
        } else if (!strncmp(line, "line ", 5)) {
            strcat(text, line + 5);
        } else {
            line[strcspn(line, "\n")] = 0;
            const char *word = strtok(line, " ");
            if (!strcmp(word, "edition")) edition = (uint32_t)count();
            else if (!strcmp(word, "prepare")) prepare();
            else if (!strcmp(word, "push")) push();
            else if (!strcmp(word, "run")) run();
        }
    }
    end();
    return 0;
}
