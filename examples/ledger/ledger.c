/* A durable ledger in a C program, over SQLite's library: `ledger FILE [BATCH]` reads entries on standard input, and writes
 * the answer to each once it is on the disk, BATCH entries (1) to a commit. The file is that of docs/ledger.md: what one
 * program wrote another opens. At the end of input it makes a checkpoint. After any failure it ends: what was answered is
 * in the file, and the next start goes on from there. It takes sequence numbers up to 2^32 - 1. */
#include "../../crates/bohm_c/include/bohm.h"

#include <fcntl.h>
#include <sqlite3.h>
#include <stdio.h>
#include <stdlib.h>
#include <string.h>
#include <sys/file.h>
#include <unistd.h>

enum { MOST_PROCEDURES = 256, MOST_ARGUMENTS = 96, LONGEST_NAME = 32, LONGEST_ENTRY = 1 << 20 };

typedef struct {
    char *at;
    size_t len;
} text;

typedef struct {
    char name[LONGEST_NAME + 1];
    bohm_procedure procedure;
    size_t keys, values;
} definition;

static sqlite3 *base;
static bohm_machine machine;
static bohm_calls calls; /* a list that tests calls that don't run */
static uint8_t seed[16];
static int edition = 2;
static definition definitions[MOST_PROCEDURES];
static size_t definition_count;

static void fail(const char *what, const char *why) {
    fprintf(stderr, "ledger: %s: %s\n", what, why);
    exit(1);
}

static void need(int is_so, const char *what) {
    if (!is_so) fail(what, sqlite3_errmsg(base));
}

static void done(const char *what, uint32_t status) {
    if (status != BOHM_DONE) fail(what, bohm_status_text(status));
}

static void execute(const char *sql) { need(sqlite3_exec(base, sql, NULL, NULL, NULL) == SQLITE_OK, sql); }

static void append(text *to, const char *from, size_t len) {
    to->at = realloc(to->at, to->len + len + 1);
    if (!to->at) fail("memory", "there is none");
    memcpy(to->at + to->len, from, len);
    to->at[to->len += len] = 0;
}

static void append_line(text *to, const char *line) {
    append(to, line, strlen(line));
    append(to, "\n", 1);
}

static sqlite3_stmt *prepared(const char *sql) {
    sqlite3_stmt *statement;
    need(sqlite3_prepare_v2(base, sql, -1, &statement, NULL) == SQLITE_OK, sql);
    return statement;
}

static void ran(sqlite3_stmt *statement) {
    need(sqlite3_step(statement) == SQLITE_DONE, sqlite3_sql(statement));
    sqlite3_reset(statement);
}

static int64_t number(const char *sql) {
    sqlite3_stmt *statement = prepared(sql);
    need(sqlite3_step(statement) == SQLITE_ROW, sql);
    int64_t found = sqlite3_column_int64(statement, 0);
    sqlite3_finalize(statement);
    return found;
}

static uint32_t top(void) {
    uint32_t floor, last;
    done("timestamps", bohm_timestamps(&machine, &floor, &last));
    return last;
}

/* Entries. An answer is made in `answer`; one that begins with `refused` is of an entry that isn't stored. */

static char answer[4096];
/* Whether the entry's id is another one's: it isn't run, and is refused for that if for nothing else. */
static int is_barred;

static int is_stored(void) { return strncmp(answer, "refused", 7) != 0; }

static void refuse(const char *why) { snprintf(answer, sizeof answer, "refused: %s", why); }

/* The line of a refusal, of which the first `skipped` lines aren't the entry's. */
static void refused_by(bohm_bytes *line, int skipped) {
    int at;
    if (sscanf((char *)line->at, "refused: line %d", &at) == 1) snprintf(answer, sizeof answer, "refused: line %d", at - skipped);
    else snprintf(answer, sizeof answer, "%.*s", (int)line->len - 1, (char *)line->at);
    bohm_free_bytes(line);
}

/* The reply to the transaction that has just run, with the values that it shows. */
static void answer_with(const bohm_reply *reply, const int64_t *shown) {
    static const char *reasons[] = {"", "need", "fail", "absent", "range"};
    int len = snprintf(answer, sizeof answer, "%u ", top());
    if (reply->outcome != BOHM_COMMIT) {
        snprintf(answer + len, sizeof answer - len, "abort %s %u", reasons[reply->outcome], reply->statement);
    } else {
        len += snprintf(answer + len, sizeof answer - len, "commit");
        for (uint64_t at = 0; at < reply->shown; at++)
            len += snprintf(answer + len, sizeof answer - len, " %lld", (long long)shown[at]);
    }
}

static definition *find(const char *name) {
    for (size_t at = 0; at < definition_count; at++)
        if (!strcmp(definitions[at].name, name)) return &definitions[at];
    return NULL;
}

static size_t count_lines(const char *of, const char *word) {
    size_t count = 0;
    for (const char *at = of; (at = strstr(at, word)); at++) count++;
    return count;
}

static void define(const char *name, const char *lines) {
    bohm_bytes line = BOHM_NO_BYTES;
    bohm_procedure made = {0};
    char head[16];
    snprintf(head, sizeof head, "procedure %d\n", edition);
    if (*lines && strncmp(lines, head, strlen(head))) return refuse("line 1");
    uint32_t status = bohm_prepare(&made, seed, (const uint8_t *)lines, strlen(lines), &line);
    if (status == BOHM_REFUSED) return refused_by(&line, 0);
    done("prepare", status);
    if (is_barred) {
        bohm_close_procedure(&made);
        return refuse("id");
    }
    definition *of = find(name);
    if (of) bohm_close_procedure(&of->procedure);
    else if (definition_count == MOST_PROCEDURES) fail("define", "there are too many procedures");
    else of = &definitions[definition_count++];
    /* Only the lines before the body begin with these words. */
    *of = (definition){.procedure = made, .keys = count_lines(lines, "\nkey "), .values = count_lines(lines, "\nvalue ")};
    strcpy(of->name, name);
    snprintf(answer, sizeof answer, "defined %.*s", LONGEST_NAME, name);
}

/* The value that a word is, if it is one as a log writes it. */
static int is_value(const char *word, int64_t *value) {
    char again[32];
    *value = strtoll(word, NULL, 10);
    snprintf(again, sizeof again, "%lld", (long long)*value);
    return !strcmp(again, word);
}

static void call(char *words) {
    bohm_key keys[MOST_ARGUMENTS];
    int64_t values[MOST_ARGUMENTS];
    char *name = strsep(&words, " "), *given[MOST_ARGUMENTS];
    size_t count = 0;
    definition *of = find(name);
    if (!of) return refuse("procedure");
    while (words && count < MOST_ARGUMENTS) given[count++] = strsep(&words, " ");
    if (words || count != of->keys + of->values) return refuse("arguments");
    for (size_t at = 0; at < of->values; at++)
        if (!is_value(given[of->keys + at], &values[at])) return refuse("value");
    for (size_t at = 0; at < of->keys; at++) keys[at] = (bohm_key){(const uint8_t *)given[at], strlen(given[at])};
    bohm_procedure *by = &of->procedure;
    bohm_reply reply;
    int64_t shown[BOHM_MOST_SHOWN];
    uint32_t status = is_barred ? bohm_push(&calls, by, keys, of->keys, values, of->values)
                                : bohm_call(&machine, by, keys, of->keys, values, of->values, &reply, shown, BOHM_MOST_SHOWN);
    if (status == BOHM_NO_KEY) return refuse("key");
    done("call", status);
    if (!is_barred) return answer_with(&reply, shown);
    done("clear_calls", bohm_clear_calls(&calls));
    refuse("id");
}

static void transact(const char *lines) {
    bohm_bytes line = BOHM_NO_BYTES;
    text log = {0};
    append_line(&log, edition == 1 ? "log 1" : "log 2");
    append(&log, lines, strlen(lines));
    uint32_t status = is_barred ? bohm_answer(seed, (uint8_t *)log.at, log.len, &line)
                                : bohm_apply_held(&machine, (uint8_t *)log.at, log.len, &line);
    free(log.at);
    if (status == BOHM_REFUSED) return refused_by(&line, 1);
    bohm_free_bytes(&line);
    done("apply", status);
    if (is_barred) return refuse("id");
    bohm_reply_rows rows = BOHM_NO_ROWS;
    bohm_values values = BOHM_NO_VALUES;
    done("rows", bohm_rows(&machine, &rows, &values));
    answer_with(rows.at, values.at);
    bohm_free_rows(&rows, &values);
}

static int is_name(const char *word) {
    size_t len = strspn(word, "abcdefghijklmnopqrstuvwxyz0123456789_");
    return *word >= 'a' && *word <= 'z' && !word[len] && len <= LONGEST_NAME;
}

/* Runs an entry without its id. With `defines_only`, a transaction is left out: the checkpoint has it. */
static void run(const char *entry, int defines_only) {
    static char first[LONGEST_ENTRY + 1];
    size_t len = strcspn(entry, "\n");
    if (strlen(entry) > LONGEST_ENTRY + 1) return refuse("large");
    memcpy(first, entry, len);
    first[len] = 0;
    if (!strncmp(first, "define ", 7)) return is_name(first + 7) ? define(first + 7, entry + len + 1) : refuse("shape");
    if (defines_only) return;
    if (!strcmp(first, "txn")) return transact(entry);
    char name[LONGEST_NAME + 2] = "";
    if (sscanf(first, "call %33[a-z0-9_]", name) != 1 || !is_name(name) || entry[len + 1] || strstr(first, "  ") || first[len - 1] == ' ')
        return refuse("shape");
    for (size_t at = 0; at < len; at++)
        if (first[at] < ' ' || first[at] > '~') return refuse("shape");
    call(first + 5);
}

/* Takes the id out of an entry's first line: `call #ID NAME` becomes `call NAME`. Returns whether the line has the form. */
static int take_id(char *entry, char id[65]) {
    char *hash = strpbrk(entry, " \n");
    id[0] = 0;
    if (!hash || strncmp(hash, " #", 2)) return 1;
    size_t len = strcspn(hash + 2, " \n");
    if (len < 1 || len > 64) return 0;
    memcpy(id, hash + 2, len);
    id[len] = 0;
    memmove(hash, hash + 2 + len, strlen(hash + 2 + len) + 1);
    return strspn(id, "!\"#$%&'()*+,-./0123456789:;<=>?@ABCDEFGHIJKLMNOPQRSTUVWXYZ[\\]^_`abcdefghijklmnopqrstuvwxyz{|}~") == len;
}

/* The end of the entry that begins here: of a call its line, else the line `end`. */
static size_t entry_end(const char *at) {
    const char *end = strncmp(at, "call ", 5) ? strstr(at, "\nend\n") : strchr(at, '\n');
    return !end ? strlen(at) : (size_t)(end - at) + (strncmp(at, "call ", 5) ? 5 : 1);
}

/* The file. */

static void make_tables(void) {
    execute("BEGIN IMMEDIATE");
    if (!number("SELECT count(*) FROM sqlite_master")) {
        execute("CREATE TABLE ledger(format INTEGER, edition INTEGER, checkpoint INTEGER) STRICT");
        execute("CREATE TABLE batch(place INTEGER PRIMARY KEY, first INTEGER, entries TEXT) STRICT");
        execute("CREATE TABLE balance(key TEXT PRIMARY KEY, value INTEGER) STRICT, WITHOUT ROWID");
        execute("CREATE TABLE request(id TEXT PRIMARY KEY, place INTEGER, answer TEXT) STRICT, WITHOUT ROWID");
        execute("INSERT INTO ledger VALUES (1, 2, 0)");
    }
    execute("COMMIT");
}

/* Opens the file alone, and makes durable what it holds before anything is answered by it. */
static void open_file(const char *path) {
    need(sqlite3_open(path, &base) == SQLITE_OK, path);
    execute("PRAGMA journal_mode = WAL");
    execute("PRAGMA synchronous = FULL");
    number("SELECT count(*) FROM sqlite_master");
    text log = {0};
    append(&log, path, strlen(path));
    append(&log, "-wal", 4);
    /* As other ledgers do: SQLite has no locks on the log. The handle stays open. */
    int handle = open(log.at, O_RDWR | O_CLOEXEC);
    if (handle < 0 || flock(handle, LOCK_EX | LOCK_NB)) fail(path, "another ledger has it");
    free(log.at);
    make_tables();
    need(number("PRAGMA wal_checkpoint(RESTART)") == 0, "a reader keeps the log");
    if (number("SELECT format FROM ledger") != 1) fail(path, "it is no ledger");
    edition = (int)number("SELECT edition FROM ledger");
}

static void open_machine(int64_t checkpoint) {
    text store = {0};
    sqlite3_stmt *rows = prepared("SELECT key, value FROM balance ORDER BY key");
    while (sqlite3_step(rows) == SQLITE_ROW) {
        bohm_entry entry = {.value = sqlite3_column_int64(rows, 1)};
        need(sqlite3_column_bytes(rows, 0) <= BOHM_LONGEST_KEY, "a key of the store");
        memcpy(entry.key, sqlite3_column_text(rows, 0), (size_t)sqlite3_column_bytes(rows, 0));
        append(&store, (const char *)&entry, sizeof entry);
    }
    sqlite3_finalize(rows);
    if (getentropy(seed, sizeof seed)) fail("getentropy", "it failed");
    size_t count = store.len / sizeof(bohm_entry);
    done("open_rows", bohm_open_rows(&machine, seed, (bohm_entry *)store.at, count, (uint32_t)checkpoint));
    done("open_calls", bohm_open_calls_for(&machine, &calls, (uint32_t)edition));
    free(store.at);
}

/* Runs what is behind the checkpoint, and of what is before it the definitions. */
static void replay(int64_t checkpoint) {
    sqlite3_stmt *rows = prepared("SELECT first, entries FROM batch ORDER BY place");
    while (sqlite3_step(rows) == SQLITE_ROW) {
        int64_t next = sqlite3_column_int64(rows, 0);
        for (const char *at = (const char *)sqlite3_column_text(rows, 1); *at; at += entry_end(at)) {
            char *entry = strndup(at, entry_end(at)), id[65];
            int is_transaction = strncmp(entry, "define ", 7) != 0;
            if (!take_id(entry, id)) fail("an entry", entry);
            run(entry, next <= checkpoint);
            if (!is_stored()) fail(answer, entry);
            next += is_transaction;
            free(entry);
        }
    }
    sqlite3_finalize(rows);
}

/* A commit: its batch is stored with the ids of its entries and their answers; then they are answered. */
typedef struct {
    int64_t place, first;
    text accepted, answers;
    size_t count;
} commit;

/* Whether entries have one with these lines. */
static int has(const char *entries, const char *lines) {
    for (const char *at = entries; at && *at; at += entry_end(at))
        if (!strncmp(at, lines, strlen(lines))) return 1;
    return 0;
}

/* Whether an entry has run: then its answer is the first one's. One of which only the id is known is barred, as is one whose
 * batch is in an archive, which this program doesn't read. */
static int is_known(const commit *now, const char *id, const char *lines) {
    static sqlite3_stmt *find_id;
    if (!find_id) find_id = prepared("SELECT answer, place, entries FROM request LEFT JOIN batch USING (place) WHERE id = ?");
    sqlite3_bind_text(find_id, 1, id, -1, SQLITE_STATIC);
    int is_row = sqlite3_step(find_id) == SQLITE_ROW;
    if (is_row) {
        int is_here = sqlite3_column_int64(find_id, 1) == now->place;
        is_barred = !has(is_here ? now->accepted.at : (const char *)sqlite3_column_text(find_id, 2), lines);
        if (!is_barred) snprintf(answer, sizeof answer, "%s", sqlite3_column_text(find_id, 0));
    }
    sqlite3_reset(find_id);
    return is_row && !is_barred;
}

static void begin(commit *now) {
    *now = (commit){.place = number("SELECT coalesce(max(place), 0) + 1 FROM batch"), .first = (int64_t)top() + 1};
    execute("BEGIN IMMEDIATE");
}

static void take(commit *now, const char *line) {
    static sqlite3_stmt *request;
    if (!request) request = prepared("INSERT INTO request VALUES (?, ?, ?)");
    char *entry = strdup(line), id[65];
    is_barred = 0;
    if (!take_id(entry, id)) {
        refuse("shape");
    } else if (!id[0] || !is_known(now, id, line)) {
        run(entry, 0);
        if (is_stored()) append(&now->accepted, line, strlen(line));
        if (is_stored() && id[0]) {
            sqlite3_bind_text(request, 1, id, -1, SQLITE_STATIC);
            sqlite3_bind_int64(request, 2, now->place);
            sqlite3_bind_text(request, 3, answer, -1, SQLITE_STATIC);
            ran(request);
        }
    }
    if (id[0]) {
        append(&now->answers, "#", 1);
        append(&now->answers, id, strlen(id));
        append(&now->answers, " ", 1);
    }
    append_line(&now->answers, answer);
    now->count++;
    free(entry);
}

static void end(commit *now) {
    static sqlite3_stmt *batch;
    if (!batch) batch = prepared("INSERT INTO batch VALUES (?, ?, ?)");
    if (now->accepted.len) {
        sqlite3_bind_int64(batch, 1, now->place);
        sqlite3_bind_int64(batch, 2, now->first);
        sqlite3_bind_text(batch, 3, now->accepted.at, (int)now->accepted.len, SQLITE_STATIC);
        ran(batch);
    }
    execute("COMMIT");
    fwrite(now->answers.at, 1, now->answers.len, stdout);
    fflush(stdout);
    free(now->accepted.at);
    free(now->answers.at);
    *now = (commit){0};
}

/* Writes every row; bohm.Ledger writes those that changed. */
static void checkpoint(void) {
    bohm_entries store = BOHM_NO_ENTRIES;
    done("store_rows", bohm_store_rows(&machine, top(), &store));
    execute("BEGIN IMMEDIATE; DELETE FROM balance");
    sqlite3_stmt *row = prepared("INSERT INTO balance VALUES (?, ?)");
    for (size_t at = 0; at < store.len; at++) {
        const char *key = (const char *)store.at[at].key;
        sqlite3_bind_text(row, 1, key, (int)strnlen(key, BOHM_LONGEST_KEY), SQLITE_STATIC);
        sqlite3_bind_int64(row, 2, store.at[at].value);
        ran(row);
    }
    sqlite3_finalize(row);
    bohm_free_entries(&store);
    sqlite3_stmt *head = prepared("UPDATE ledger SET checkpoint = ?");
    sqlite3_bind_int64(head, 1, top());
    ran(head);
    sqlite3_finalize(head);
    execute("COMMIT");
}

/* Reads an entry: a call's line, or the lines up to `end`. */
static int read_entry(text *entry) {
    static char *line;
    static size_t room;
    entry->len = 0;
    do {
        ssize_t len = getline(&line, &room, stdin);
        if (len <= 0) break;
        /* No entry has a zero. */
        for (ssize_t at = 0; at < len; at++) line[at] += !line[at];
        append(entry, line, (size_t)len);
        if (line[len - 1] != '\n') append(entry, "\n", 1);
    } while ((!strncmp(entry->at, "define ", 7) || !strncmp(entry->at, "txn", 3)) && strcmp(line, "end\n") && entry->len < LONGEST_ENTRY);
    return entry->len > 0;
}

int main(int argc, char **argv) {
    if (argc < 2 || argc > 3) fail("usage", "ledger FILE [BATCH]");
    size_t size = argc == 3 ? (size_t)atol(argv[2]) : 1;
    open_file(argv[1]);
    int64_t saved = number("SELECT checkpoint FROM ledger");
    open_machine(saved);
    replay(saved);
    text entry = {0};
    commit now = {0};
    while (read_entry(&entry)) {
        if (!now.count) begin(&now);
        take(&now, entry.at);
        if (now.count == size) end(&now);
    }
    if (now.count) end(&now);
    checkpoint();
    free(entry.at);
    bohm_close_calls(&calls);
    bohm_close(&machine);
    exit(0);
}
