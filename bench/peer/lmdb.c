/* LMDB in memory, not written to a disk: the transfers of a call in one write transaction. With DURABLE defined, each is
 * synchronised. */
#include "peer.h"

#include <lmdb.h>
#include <string.h>

static MDB_env *base;
static MDB_txn *txn;
static MDB_dbi accounts;

static void checked(int status) { check(status == MDB_SUCCESS, mdb_strerror(status)); }

static void put(const char *key, long long balance) {
    MDB_val name = {strlen(key), (void *)key}, value = {sizeof balance, &balance};
    checked(mdb_put(txn, accounts, &name, &value, 0));
}

static long long get(const char *key) {
    MDB_val name = {strlen(key), (void *)key}, value;
    long long balance;
    checked(mdb_get(txn, accounts, &name, &value));
    memcpy(&balance, value.mv_data, sizeof balance);
    return balance;
}

void peer_open(void) {
    checked(mdb_env_create(&base));
    checked(mdb_env_set_mapsize(base, (size_t)1 << 30));
#ifdef DURABLE
    checked(mdb_env_open(base, new_directory(), 0, 0600));
#else
    checked(mdb_env_open(base, new_directory(), MDB_NOSYNC | MDB_WRITEMAP, 0600));
#endif
    checked(mdb_txn_begin(base, NULL, 0, &txn));
    checked(mdb_dbi_open(txn, NULL, 0, &accounts));
}

void peer_put(const char *key, long long balance) { put(key, balance); }

void peer_filled(void) { checked(mdb_txn_commit(txn)); }

void peer_run(transfer *transfers, size_t count) {
    checked(mdb_txn_begin(base, NULL, 0, &txn));
    for (transfer *each = transfers; each < transfers + count; each++) {
        long long balance = get(each->payer);
        each->is_done = balance >= each->amount;
        if (!each->is_done) continue;
        put(each->payer, balance - each->amount);
        put(each->payee, get(each->payee) + each->amount);
    }
    checked(mdb_txn_commit(txn));
}

void peer_each(void (*tell)(const char *key, size_t size, long long balance)) {
    MDB_cursor *cursor;
    MDB_val name, value;
    checked(mdb_txn_begin(base, NULL, MDB_RDONLY, &txn));
    checked(mdb_cursor_open(txn, accounts, &cursor));
    while (mdb_cursor_get(cursor, &name, &value, MDB_NEXT) == MDB_SUCCESS) {
        long long balance;
        memcpy(&balance, value.mv_data, sizeof balance);
        tell(name.mv_data, name.mv_size, balance);
    }
    mdb_cursor_close(cursor);
    mdb_txn_abort(txn);
}

void peer_close(void) {
    mdb_env_close(base);
    remove_directory();
}
