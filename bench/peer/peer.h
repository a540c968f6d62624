/* The functions of each peer. peer.c has `main`, which reads the transfers and measures. */
#include <stddef.h>

enum { LONGEST_KEY = 32 };

/* The numbers are those of the keys in the order of the store. The names are stored elsewhere, so that a peer that uses
 * numbers doesn't read past them. */
typedef struct {
    const char *payer, *payee;
    long long amount;
    unsigned payer_number, payee_number;
    int is_done;
} transfer;

/* Opens the peer, without keys. */
void peer_open(void);

/* Adds a key of the starting store; `peer_filled` is called after the last one. */
void peer_put(const char *key, long long balance);
void peer_filled(void);

/* Runs these transfers as one transaction of the peer: each takes the amount from the payer, if it has that much, and
 * gives it to the payee. `is_done` says whether it did. */
void peer_run(transfer *transfers, size_t count);

/* Reports all keys in order. */
void peer_each(void (*tell)(const char *key, size_t size, long long balance));

void peer_close(void);

/* Ends the process if the condition is false. */
void check(int is_so, const char *what);

/* Creates a directory, on an in-memory file system if there is one; with DURABLE defined, in the folder PEER_FOLDER. */
const char *new_directory(void);

/* Removes that directory and the files in it. */
void remove_directory(void);
