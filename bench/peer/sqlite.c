/* SQLite in memory, by prepared statements; with DURABLE defined, in a file, where each commit is synchronised. With IDS defined,
 * each transfer has an id, which is looked up, and stored with what became of it. */
#include "peer.h"

#include <sqlite3.h>
#include <stdio.h>

static sqlite3 *base;
static sqlite3_stmt *begin, *commit, *insert, *take, *give;

static void checked(int status, int wanted) { check(status == wanted, sqlite3_errmsg(base)); }

static sqlite3_stmt *prepared(const char *words) {
    sqlite3_stmt *made;
    checked(sqlite3_prepare_v3(base, words, -1, SQLITE_PREPARE_PERSISTENT, &made, NULL), SQLITE_OK);
    return made;
}

static void run(sqlite3_stmt *statement) {
    checked(sqlite3_step(statement), SQLITE_DONE);
    sqlite3_reset(statement);
}

#ifdef IDS
static sqlite3_stmt *known, *note;
static unsigned long long number;

/* Whether the next transfer's id is stored. */
static int is_known(void) {
    static char id[40];
    int size = sprintf(id, "%llx%016llx", number, number * 0x9e3779b97f4a7c15u);
    number++;
    sqlite3_bind_text(known, 1, id, size, SQLITE_STATIC);
    sqlite3_bind_text(note, 1, id, size, SQLITE_STATIC);
    int found = sqlite3_step(known) == SQLITE_ROW;
    sqlite3_reset(known);
    return found;
}

/* Stores that id. */
static void noted(int is_done) {
    sqlite3_bind_int(note, 2, is_done);
    run(note);
}
#else
static int is_known(void) { return 0; }

static void noted(int is_done) { (void)is_done; }
#endif

static void change(sqlite3_stmt *statement, const char *key, long long amount) {
    sqlite3_bind_text(statement, 1, key, -1, SQLITE_STATIC);
    sqlite3_bind_int64(statement, 2, amount);
    run(statement);
}

void peer_open(void) {
#ifdef DURABLE
    char path[600];
    snprintf(path, sizeof path, "%s/base", new_directory());
    checked(sqlite3_open(path, &base), SQLITE_OK);
    checked(sqlite3_exec(base, "pragma journal_mode = wal; pragma synchronous = full", NULL, NULL, NULL), SQLITE_OK);
#else
    checked(sqlite3_open(":memory:", &base), SQLITE_OK);
#endif
    run(prepared("create table account (key text primary key, balance integer not null) without rowid"));
    begin = prepared("begin");
    commit = prepared("commit");
    insert = prepared("insert into account values (?1, ?2)");
    take = prepared("update account set balance = balance - ?2 where key = ?1 and balance >= ?2");
    give = prepared("update account set balance = balance + ?2 where key = ?1");
#ifdef IDS
    run(prepared("create table request (id text primary key, done integer) strict, without rowid"));
    known = prepared("select done from request where id = ?");
    note = prepared("insert into request values (?, ?)");
#endif
    run(begin);
}

void peer_put(const char *key, long long balance) { change(insert, key, balance); }

void peer_filled(void) {
    run(commit);
#ifdef DURABLE
    /* The log gets the size that it keeps: to write over it takes less than to let it grow. */
    const char *pad = "create table pad(t); insert into pad values (zeroblob(4500000)); drop table pad";
    checked(sqlite3_exec(base, pad, NULL, NULL, NULL), SQLITE_OK);
#endif
}

void peer_run(transfer *transfers, size_t count) {
    run(begin);
    for (transfer *each = transfers; each < transfers + count; each++) {
        if (is_known()) continue;
        change(take, each->payer, each->amount);
        each->is_done = sqlite3_changes(base) > 0;
        if (each->is_done) change(give, each->payee, each->amount);
        noted(each->is_done);
    }
    run(commit);
}

void peer_each(void (*tell)(const char *key, size_t size, long long balance)) {
    sqlite3_stmt *all = prepared("select key, balance from account order by key");
    while (sqlite3_step(all) == SQLITE_ROW)
        tell((const char *)sqlite3_column_text(all, 0), (size_t)sqlite3_column_bytes(all, 0), sqlite3_column_int64(all, 1));
}

void peer_close(void) {
#ifdef DURABLE
    remove_directory();
#endif
}
