/* RocksDB's pessimistic transactions, on files in memory and without its write-ahead log; with DURABLE defined, on a disk,
 * with a log that each commit synchronises. */
#include "peer.h"

#include <rocksdb/c.h>
#include <string.h>

static rocksdb_transactiondb_t *base;
static rocksdb_transaction_t *txn;
static rocksdb_writeoptions_t *writes;
static rocksdb_readoptions_t *reads;
static rocksdb_transaction_options_t *options;
static char *error;

static void checked(void) { check(!error, error); }

/* The previous transaction is reused. */
static void begin(void) { txn = rocksdb_transaction_begin(base, writes, options, txn); }

static void commit(void) {
    rocksdb_transaction_commit(txn, &error);
    checked();
}

static void put(const char *key, long long balance) {
    rocksdb_transaction_put(txn, key, strlen(key), (const char *)&balance, sizeof balance, &error);
    checked();
}

static long long get(const char *key) {
    size_t size;
    long long balance;
    char *value = rocksdb_transaction_get_for_update(txn, reads, key, strlen(key), &size, 1, &error);
    checked();
    check(value && size == sizeof balance, "no account");
    memcpy(&balance, value, sizeof balance);
    rocksdb_free(value);
    return balance;
}

void peer_open(void) {
    rocksdb_options_t *made = rocksdb_options_create();
    rocksdb_options_set_create_if_missing(made, 1);
    base = rocksdb_transactiondb_open(made, rocksdb_transactiondb_options_create(), new_directory(), &error);
    checked();
    writes = rocksdb_writeoptions_create();
#ifdef DURABLE
    rocksdb_writeoptions_set_sync(writes, 1);
#else
    rocksdb_writeoptions_disable_WAL(writes, 1);
#endif
    reads = rocksdb_readoptions_create();
    options = rocksdb_transaction_options_create();
    begin();
}

void peer_put(const char *key, long long balance) { put(key, balance); }

void peer_filled(void) { commit(); }

void peer_run(transfer *transfers, size_t count) {
    begin();
    for (transfer *each = transfers; each < transfers + count; each++) {
        long long balance = get(each->payer);
        each->is_done = balance >= each->amount;
        if (!each->is_done) continue;
        put(each->payer, balance - each->amount);
        put(each->payee, get(each->payee) + each->amount);
    }
    commit();
}

void peer_each(void (*tell)(const char *key, size_t size, long long balance)) {
    rocksdb_iterator_t *at = rocksdb_transactiondb_create_iterator(base, reads);
    for (rocksdb_iter_seek_to_first(at); rocksdb_iter_valid(at); rocksdb_iter_next(at)) {
        size_t size, length;
        long long balance;
        const char *key = rocksdb_iter_key(at, &size);
        memcpy(&balance, rocksdb_iter_value(at, &length), sizeof balance);
        tell(key, size, balance);
    }
    rocksdb_iter_destroy(at);
}

void peer_close(void) {
    rocksdb_transaction_destroy(txn);
    rocksdb_transactiondb_close(base);
    remove_directory();
}
