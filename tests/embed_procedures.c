/* Procedures that explain themselves: each status of bohm_prepare_report and bohm_statement_text, and each allocation of each
 * call refused in turn. tests/reports has more reports.
 * Linked with -Wl,--wrap=malloc,--wrap=realloc,--wrap=free. */
#include "embed_heap.h"

/* Two statements of this text are refused. */
#define BAD_TEXT "procedure 2\nkey k\nvalue v\nreads k\nwrites k\nset k = k + $v\nshow other\nset away = $v\nend\n"
#define BAD_LINE "refused: check unread 1 3\n"
#define BAD_REPORT \
    BAD_LINE \
    "line 7, statement 2:\n    show other\n         ^^^^^\n" \
    "other is read and isn't declared: line 4 has `reads k`\nhelp, line 4: reads k other\n" \
    "line 8, statement 3:\n    set away = $v\n        ^^^^\n" \
    "away is written and isn't declared: line 5 has `writes k`\nhelp, line 5: writes away k\n"
/* The reader refuses this one's fourth line. */
#define UNREAD_TEXT "procedure 2\nreads\nwrites a\nset a += 1\nend\n"
#define UNREAD_LINE "refused: line 4\n"

static uint32_t prepare(bohm_procedure *procedure, const char *words, bohm_bytes *out) {
    return bohm_prepare_report(procedure, seed, (const uint8_t *)words, strlen(words), out);
}

static uint32_t statement(const bohm_procedure *procedure, uint32_t number, size_t *line, bohm_bytes *out) {
    return bohm_statement_text(procedure, number, line, out);
}

static void take_words(bohm_bytes *out, const char *words) {
    text right = {0};
    put(&right, "", 0, words);
    take(now, out, right);
}

static void report_statuses(void) {
    now = "reports";
    bohm_procedure made = {0};
    bohm_bytes out = BOHM_NO_BYTES;
    hold(prepare(&made, COPY_TEXT, &out) == BOHM_DONE && made.at && is_none(out), "a report on an accepted procedure");
    hold(prepare(&made, BAD_TEXT, &out) == BOHM_MISUSE && is_none(out) && made.at, "an open procedure is opened");
    bohm_close_procedure(&made);
    hold(prepare(&made, BAD_TEXT, &out) == BOHM_REFUSED && !made.at && !out.at[out.len], "it isn't refused");
    take_words(&out, BAD_REPORT);
    hold(prepare(&made, BAD_TEXT, NULL) == BOHM_REFUSED && !made.at, "it isn't refused");
    hold(bohm_prepare_report(&made, seed, NULL, 0, &out) == BOHM_REFUSED && !made.at, "an empty text is accepted");
    hold(out.len > 15 && !memcmp(out.at, "refused: short\n", 15), "another first line");
    bohm_free_bytes(&out);
    hold(bohm_prepare_report(&made, seed, NULL, 1, &out) == BOHM_MISUSE && prepare(NULL, COPY_TEXT, &out) == BOHM_MISUSE, "a null pointer");
    hold(bohm_prepare_report(&made, NULL, (const uint8_t *)COPY_TEXT, strlen(COPY_TEXT), &out) == BOHM_MISUSE, "a null seed");
    hold(!made.at && is_none(out), "something is handed out");
}

static void check_statement(const bohm_procedure *procedure, uint32_t number, size_t line, const char *words) {
    size_t at = 99;
    bohm_bytes out = BOHM_NO_BYTES;
    hold(statement(procedure, number, &at, &out) == BOHM_DONE && at == line && !out.at[out.len], "another statement");
    take_words(&out, words);
    hold(statement(procedure, number, &at, NULL) == BOHM_DONE && at == line, "another statement");
}

static void statement_statuses(void) {
    now = "statements";
    procedures of = prepare_all(now);
    bohm_procedure none = {0};
    bohm_machine machine = {0};
    bohm_bytes out = BOHM_NO_BYTES;
    size_t line = 99;
    static const char *const copies[] = {"value by", "set to = of", "set of = of + $by", "show of"};
    for (uint32_t number = 1; number <= 4; number++) check_statement(&of.copy, number, number + (number > 1 ? 5 : 3), copies[number - 1]);
    check_statement(&of.need, 1, 5, "show x");
    check_statement(&of.need, 2, 6, "need x < 0");
    hold(statement(&of.copy, 0, &line, &out) == BOHM_UNFIT && statement(&of.copy, 5, &line, &out) == BOHM_UNFIT, "no such statement");
    hold(statement(&of.need, 3, &line, &out) == BOHM_UNFIT && statement(&of.need, UINT32_MAX, &line, &out) == BOHM_UNFIT, "no such statement");
    hold(statement(&none, 1, &line, &out) == BOHM_MISUSE && statement(NULL, 1, &line, &out) == BOHM_MISUSE, "no procedure");
    hold(statement(&of.copy, 1, NULL, &out) == BOHM_MISUSE, "a null line");
    open_behind(&machine, 0);
    bohm_procedure strange = {machine.at};
    hold(statement(&strange, 1, &line, &out) == BOHM_MISUSE && strange.at == machine.at, "a machine in the place of a procedure");
    hold(line == 99 && is_none(out), "something is told");
    bohm_close(&machine);
    close_all(&of);
}

static long accepted_refused(long from, long to) {
    bohm_procedure made = {0};
    bohm_bytes out = BOHM_NO_BYTES;
    refuse(from, to);
    uint32_t status = prepare(&made, COPY_TEXT, &out);
    long asked_for = relent();
    hold(is_none(out) && (status == BOHM_DONE || (status == BOHM_NO_MEMORY && asked_for >= from)), "another end");
    hold(!status == !!made.at, "it is open, or closed");
    bohm_close_procedure(&made);
    return asked_for;
}

/* A report that lacks messages is a prefix of the whole one, and has its first line. */
static long report_refused(const char *words, const char *first, const char *whole, long from, long to) {
    bohm_procedure made = {0};
    bohm_bytes out = BOHM_NO_BYTES;
    refuse(from, to);
    uint32_t status = prepare(&made, words, &out);
    long asked_for = relent();
    hold(!made.at, "it is open");
    if (status == BOHM_NO_MEMORY) {
        hold(asked_for >= from && is_none(out), "another end");
        return asked_for;
    }
    hold(status == BOHM_REFUSED && out.len >= strlen(first) && out.len <= strlen(whole), "another end");
    hold(!memcmp(out.at, whole, out.len) && !out.at[out.len], "another report");
    hold(asked_for >= from || out.len == strlen(whole), "a report that lacks messages");
    bohm_free_bytes(&out);
    return asked_for;
}

static long checked_refused(long from, long to) { return report_refused(BAD_TEXT, BAD_LINE, BAD_REPORT, from, to); }

static char unread_report[1000];

static long unread_refused(long from, long to) { return report_refused(UNREAD_TEXT, UNREAD_LINE, unread_report, from, to); }

static long statement_refused(long from, long to) {
    bohm_procedure of = prepared(now, COPY_TEXT);
    bohm_bytes out = BOHM_NO_BYTES;
    size_t line = 99;
    refuse(from, to);
    uint32_t status = statement(&of, 3, &line, &out);
    long asked_for = relent();
    if (status) {
        hold(status == BOHM_NO_MEMORY && asked_for >= from && line == 99 && is_none(out), "another end");
    } else {
        hold(line == 8, "another line");
        take_words(&out, "set of = of + $by");
    }
    bohm_close_procedure(&of);
    return asked_for;
}

int main(void) {
    report_statuses();
    statement_statuses();
    bohm_procedure made = {0};
    bohm_bytes whole = BOHM_NO_BYTES;
    hold(prepare(&made, UNREAD_TEXT, &whole) == BOHM_REFUSED && whole.len < sizeof unread_report, "it isn't refused");
    strcpy(unread_report, (const char *)whole.at);
    hold(!strncmp(unread_report, UNREAD_LINE, strlen(UNREAD_LINE)), "another first line");
    bohm_free_bytes(&whole);
    each_refused("bohm_prepare_report", accepted_refused, 0);
    each_refused("bohm_prepare_report of a faulty text", checked_refused, 0);
    each_refused("bohm_prepare_report of a bad line", unread_refused, 0);
    each_refused("bohm_statement_text", statement_refused, 0);
    hold(blocks == 0, "a block that nobody frees");
    puts("procedures that explain themselves: as it should be");
    return 0;
}
