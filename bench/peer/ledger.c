/* A durable ledger in C: the calls of a commit are run, and their entries are stored in a SQLite file, as docs/ledger.md has
 * it. Built with calls.c, whose `peer_run` runs the calls. */
#define peer_run run_calls
#define peer_open open_calls
#define peer_close close_calls
#include "calls.c"
#undef peer_run
#undef peer_open
#undef peer_close

#include <sqlite3.h>

static sqlite3 *base;
static sqlite3_stmt *begin, *insert, *commit;
static char *entries;
static size_t entries_room;
static sqlite3_int64 place, first = 1;

static void checked(int status, int wanted) { check(status == wanted, sqlite3_errmsg(base)); }

static sqlite3_stmt *prepared(const char *words) {
    sqlite3_stmt *made;
    checked(sqlite3_prepare_v3(base, words, -1, SQLITE_PREPARE_PERSISTENT, &made, NULL), SQLITE_OK);
    return made;
}

static void ran(sqlite3_stmt *statement) {
    checked(sqlite3_step(statement), SQLITE_DONE);
    sqlite3_reset(statement);
}

void peer_open(void) {
    char path[600];
    snprintf(path, sizeof path, "%s/base", new_directory());
    checked(sqlite3_open(path, &base), SQLITE_OK);
    checked(sqlite3_exec(base, "pragma journal_mode = wal; pragma synchronous = full; create table batch(place integer "
            "primary key, first integer, entries text) strict", NULL, NULL, NULL), SQLITE_OK);
    /* The log gets the size that it keeps: to write over it takes less than to let it grow. */
    const char *pad = "create table pad(t); insert into pad values (zeroblob(4500000)); drop table pad";
    checked(sqlite3_exec(base, pad, NULL, NULL, NULL), SQLITE_OK);
    begin = prepared("begin immediate");
    insert = prepared("insert into batch values (?, ?, ?)");
    commit = prepared("commit");
    open_calls();
}

/* Longest: two keys, a number, the words between them. */
enum { LONGEST_CALL = 2 * LONGEST_KEY + 64 };

void peer_run(transfer *transfers, size_t count) {
    if (entries_room < count * LONGEST_CALL) check((entries = realloc(entries, entries_room = count * LONGEST_CALL)) != NULL, "no memory");
    char *at = entries;
    for (const transfer *each = transfers; each < transfers + count; each++)
        at += sprintf(at, "call transfer %s %s %lld\n", each->payer, each->payee, each->amount);
    run_calls(transfers, count);
    ran(begin);
    sqlite3_bind_int64(insert, 1, ++place);
    sqlite3_bind_int64(insert, 2, first);
    sqlite3_bind_text(insert, 3, entries, (int)(at - entries), SQLITE_STATIC);
    ran(insert);
    ran(commit);
    first += (sqlite3_int64)count;
}

void peer_close(void) {
    close_calls();
    remove_directory();
}
