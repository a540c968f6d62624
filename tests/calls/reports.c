/* Prepares procedures for tests/reports: a line of standard input is a text in hexadecimal digits. Of a refused one it prints
 * `refused` and the report, and of an accepted one its statements by their numbers, each with its line; then a line `--`. */
#include "../../crates/bohm_c/include/bohm.h"

#include <inttypes.h>
#include <stdio.h>
#include <stdlib.h>
#include <string.h>

enum { ROOM = 1 << 20 };

static void need(int is_so, const char *what) {
    if (is_so) return;
    fprintf(stderr, "reports: %s\n", what);
    exit(1);
}

/* Any bytes: no report depends on them. */
static const uint8_t seed[16] = "a made-up seed!";

static char line[ROOM];
static uint8_t text[ROOM / 2];

static size_t read_digits(void) {
    size_t len = 0;
    for (const char *at = line; at[0] > ' ' && at[1] > ' '; at += 2) {
        unsigned byte;
        need(sscanf(at, "%2x", &byte) == 1, "digits");
        text[len++] = (uint8_t)byte;
    }
    return len;
}

/* Of a refusal bohm_prepare has the report's first line. */
static void print_report(size_t len, bohm_bytes *report) {
    bohm_procedure none = {0};
    bohm_bytes first = BOHM_NO_BYTES;
    need(bohm_prepare(&none, seed, text, len, &first) == BOHM_REFUSED && !none.at, "prepare");
    need(first.len <= report->len && !memcmp(first.at, report->at, first.len), "another first line");
    need(!report->at[report->len], "no zero follows");
    printf("refused\n%s", (const char *)report->at);
    bohm_free_bytes(&first);
    bohm_free_bytes(report);
}

static void print_statements(const bohm_procedure *procedure) {
    static const uint32_t none[] = {0, 1000, UINT32_MAX};
    bohm_bytes told = BOHM_NO_BYTES;
    size_t at = 7;
    uint32_t number = 1;
    while (bohm_statement_text(procedure, number, &at, &told) == BOHM_DONE) {
        need(!told.at[told.len] && strlen((const char *)told.at) == told.len, "no zero follows");
        printf("%" PRIu32 " %zu %s\n", number++, at, (const char *)told.at);
        bohm_free_bytes(&told);
    }
    at = 7;
    need(bohm_statement_text(procedure, number, &at, &told) == BOHM_UNFIT, "an end");
    for (size_t i = 0; i < sizeof none / sizeof *none; i++)
        need(bohm_statement_text(procedure, none[i], &at, &told) == BOHM_UNFIT, "a statement that isn't there");
    need(at == 7 && !told.at && !told.len, "something is told of no statement");
}

int main(void) {
    while (fgets(line, sizeof line, stdin)) {
        size_t len = read_digits();
        bohm_procedure procedure = {0};
        bohm_bytes report = BOHM_NO_BYTES;
        uint32_t status = bohm_prepare_report(&procedure, seed, text, len, &report);
        need(status == BOHM_DONE || status == BOHM_REFUSED, "another status");
        need((status == BOHM_DONE) == !!procedure.at && (status == BOHM_DONE) == !report.at, "another end");
        if (status) print_report(len, &report);
        else print_statements(&procedure);
        puts("--");
        bohm_close_procedure(&procedure);
    }
    return 0;
}
