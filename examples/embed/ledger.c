/* A ledger in a C program: `ledger LOG SIZE` opens the store of a log, applies its transactions in segments of
 * SIZE, and writes the log's answer. On the way it takes a snapshot and continues from it on a second machine,
 * which must give the same replies, and reads past balances, which must be those of the past snapshots. */
#include "../../crates/bohm_c/include/bohm.h"

#include <stdio.h>
#include <stdlib.h>
#include <string.h>
#include <unistd.h>

typedef struct {
    char *text;
    size_t len;
} text;

static void fail(const char *what, uint32_t status) {
    fprintf(stderr, "%s: %u\n", what, status);
    exit(1);
}

static text read_file(const char *name) {
    FILE *file = fopen(name, "rb");
    if (!file || fseek(file, 0, SEEK_END)) fail(name, 0);
    long len = ftell(file);
    rewind(file);
    text all = {malloc((size_t)len + 1), (size_t)len};
    if (!all.text || fread(all.text, 1, all.len, file) != all.len) fail(name, 0);
    all.text[len] = 0;
    fclose(file);
    return all;
}

/* The offset of the transactions: after the first line and the store. */
static size_t store_end(text log) {
    char *first = strstr(log.text, "\ntxn\n");
    return first ? (size_t)(first - log.text) + 1 : log.len;
}

/* The end of the segment of `size` transactions that begins at `from`. */
static size_t segment_end(text log, size_t from, long size) {
    char *end = log.text + from;
    while (size-- && *end) end = strstr(end, "\nend\n") + 5;
    return (size_t)(end - log.text);
}

static void open_at(bohm_machine *machine, const uint8_t *snapshot, size_t len, uint32_t top) {
    bohm_bytes line = BOHM_NO_BYTES;
    uint8_t seed[16];
    if (getentropy(seed, sizeof seed)) fail("getentropy", 0);
    uint32_t status = bohm_open(machine, seed, snapshot, len, top, &line);
    if (status) fail("open", status);
}

/* Applies a segment, and returns its replies. */
static bohm_bytes apply(bohm_machine *machine, const uint8_t *segment, size_t len) {
    bohm_bytes replies = BOHM_NO_BYTES;
    uint32_t status = bohm_apply(machine, segment, len, &replies);
    if (status) fail("apply", status);
    return replies;
}

static bohm_bytes store_at(bohm_machine *machine, uint32_t ts) {
    bohm_bytes snapshot = BOHM_NO_BYTES;
    uint32_t status = bohm_store_at(machine, ts, &snapshot);
    if (status) fail("store_at", status);
    return snapshot;
}

static bohm_machine_counts counts_of(bohm_machine *machine) {
    bohm_machine_counts counts;
    bohm_counts(machine, &counts);
    return counts;
}

/* Checks that each balance at a past timestamp is the one in that timestamp's snapshot. */
static void check_balances(bohm_machine *machine, uint32_t ts) {
    bohm_bytes snapshot = store_at(machine, ts);
    const char *line = (const char *)snapshot.at + 6, *end = (const char *)snapshot.at + snapshot.len;
    while (line < end) {
        size_t key = strcspn(line, " ");
        uint8_t present = 0;
        int64_t value = 0;
        uint32_t status = bohm_value_at(machine, (const uint8_t *)line, key, ts, &present, &value);
        if (status || !present || value != strtoll(line + key, NULL, 10)) fail("value_at", status);
        line = memchr(line, '\n', (size_t)(end - line));
        line++;
    }
    bohm_free_bytes(&snapshot);
}

int main(int argc, char **argv) {
    if (argc != 3) fail("usage: ledger LOG SIZE", 2);
    text log = read_file(argv[1]);
    long size = atol(argv[2]);
    size_t at = store_end(log);
    bohm_machine ledger = {0}, second = {0};
    open_at(&ledger, (const uint8_t *)log.text, at, 0);
    uint8_t *segment = malloc(log.len + 6);
    if (!segment) fail("memory", 0);
    memcpy(segment, log.text, 6); /* the line with the edition */
    while (at < log.len) {
        size_t end = segment_end(log, at, size);
        memcpy(segment + 6, log.text + at, end - at);
        bohm_bytes replies = apply(&ledger, segment, end - at + 6);
        if (second.at) {
            bohm_bytes same = apply(&second, segment, end - at + 6);
            if (same.len != replies.len || memcmp(same.at, replies.at, same.len)) fail("the second machine", 0);
            bohm_free_bytes(&same);
        }
        fwrite(replies.at, 1, replies.len, stdout);
        bohm_free_bytes(&replies);
        if (!second.at && 2 * end > log.len) {
            uint32_t top = counts_of(&ledger).top;
            bohm_bytes snapshot = store_at(&ledger, top);
            open_at(&second, snapshot.at, snapshot.len, top);
            bohm_free_bytes(&snapshot);
        }
        at = end;
    }
    bohm_machine_counts counts = counts_of(&ledger);
    check_balances(&ledger, 0);
    check_balances(&ledger, counts.top / 2);
    check_balances(&ledger, counts.top);
    if (bohm_trim(&ledger, counts.top)) fail("trim", 0);
    uint8_t present = 0;
    int64_t value = 0;
    uint32_t status = bohm_value_at(&ledger, (const uint8_t *)"alice", 5, 0, &present, &value);
    if (counts.top && status != BOHM_TRIMMED) fail("trimmed", status);
    bohm_bytes last = store_at(&ledger, counts.top);
    printf("--\n%.*s", (int)last.len - 6, (const char *)last.at + 6);
    bohm_free_bytes(&last);
    bohm_close(&ledger);
    if (second.at) bohm_close(&second);
    free(segment);
    free(log.text);
    return 0;
}
