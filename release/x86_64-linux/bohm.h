/* bohm.h: the proved executor in another program.
 *
 * Link libbohm.a, or its shared object libbohm.so.1. docs/embedding.md says how they are built, what is proved about
 * each call, and what is trusted.
 *
 * These rules hold for every call:
 * - A null pointer is allowed where its length is 0, and for an `out`; the bytes that would be returned there are then
 *   freed. For any other null pointer, a closed handle where an open one is needed, or an open handle where a closed
 *   one is needed, the call returns BOHM_MISUSE, and nothing is touched. The caller ensures what the library can't
 *   check: lengths are right, each pointer points to what its parameter says, none points into memory that another one
 *   points to, and handles aren't copied.
 * - Keys are hashed with a `seed` of 16 bytes; an opened machine, procedure or list keeps a copy of it. If strangers
 *   choose keys, draw the seed from a source of randomness such as getentropy, and keep it secret: whoever knows it can
 *   choose n keys that cost n * n steps. Otherwise any bytes will do. No answer, snapshot or digest depends on the
 *   seed: each replica draws its own.
 * - A call allocates from the C library's heap, or from the functions of bohm_use_allocator, and keeps no pointer to the
 *   caller's memory.
 * - A text that is read has at most BOHM_LONGEST_TEXT bytes; a longer one is BOHM_REFUSED with `refused: too long`. Stores
 *   above that are opened by bohm_open_rows.
 * - If several statuses apply, the first of these is returned: BOHM_MISUSE, BOHM_SHARED, BOHM_WAITING, BOHM_UNFIT,
 *   BOHM_NO_KEY, BOHM_UNSORTED, BOHM_REFUSED, BOHM_HAS_LOG, BOHM_HAS_STORE, BOHM_TIMESTAMPS, BOHM_IN_ORDER, BOHM_TRIMMED,
 *   BOHM_FUTURE. A null pointer to a key's bytes is found after BOHM_UNFIT, and a number that is no key's handle after
 *   BOHM_SHARED. An allocation may fail before a later one is found.
 * - A call starts no thread, doesn't block, and reads and writes no file. It may be made from any thread, but not from
 *   a signal handler, nor from a forked child of a process with threads.
 * - Calls that take a machine by a pointer to const may be made on it at once by several threads. Any other call is the
 *   only one on the machine while it runs, and the machine is passed on to another thread by a lock, or by that thread's
 *   start or end. The same holds for a procedure, for a list of calls and for a worker of shared calls. Two machines share
 *   nothing, and a list shares with its machine only data that never changes.
 */
#ifndef BOHM_H
#define BOHM_H

/* The version, and the checksum of the sources that the library is built from. */
#define BOHM_VERSION "0.4.0"
#define BOHM_SOURCES "31925db72f4e31fbcaf0a3fed46886b1d12cc501e9a59a27f56a36fe6bc01c2e"

/* The version and the checksum of the library that the program is linked with. */
extern const char bohm_version[16], bohm_sources[65];

/* A program without the C library's headers defines BOHM_TYPES_ARE_DECLARED, and declares these types itself. */
#ifndef BOHM_TYPES_ARE_DECLARED
#include <stddef.h>
#include <stdint.h>
#endif

#ifdef __cplusplus
extern "C" {
#endif

/* The number of the interface that this header declares. It rises if a program that was built with an older header would
 * have to be built again; the shared object has it in its name, and its symbols have the version BOHM_1. */
#define BOHM_ABI 1

/* The number of the interface of the library that the program runs with. */
uint32_t bohm_abi(void);

/* The most bytes of a text that a call reads, of a key, and the most values that a reply shows. */
#define BOHM_LONGEST_TEXT 67108864
#define BOHM_LONGEST_KEY 32
#define BOHM_MOST_SHOWN 16

/* The status that a call returns. The library's proof has the same numbers, and tests/embed compares them. */
enum {
    BOHM_DONE = 0,        /* the call succeeded */
    BOHM_REFUSED = 1,     /* the text was refused: *out is the line that says why; nothing has changed */
    BOHM_NO_MEMORY = 2,   /* an allocation failed, and nothing has changed */
    BOHM_TRIMMED = 3,     /* the timestamp is below the floor */
    BOHM_FUTURE = 4,      /* the timestamp is above the top */
    BOHM_HAS_STORE = 5,   /* the segment has a store; nothing has changed */
    BOHM_TIMESTAMPS = 6,  /* the segment's timestamps would pass 4294967295; nothing has changed */
    BOHM_HAS_LOG = 7,     /* the snapshot has transactions; nothing has changed */
    BOHM_NO_KEY = 8,      /* the bytes are not a key */
    BOHM_WAITING = 9,     /* replies are waiting: call bohm_replies or bohm_rows first; nothing has changed */
    BOHM_STOPPED = 10,    /* an allocation failed part way: *out is the replies up to the end of a batch */
    BOHM_KEPT = 11,       /* transactions ran, but there was no room for their replies, which wait */
    BOHM_UNFIT = 12,      /* no acceptable edition, statement, or number of arguments, calls or workers; nothing has changed */
    BOHM_MISUSE = 13,     /* a handle or a pointer isn't what the call needs; nothing was touched */
    BOHM_UNSORTED = 14,   /* the keys don't rise, each above the one before it; nothing has changed */
    BOHM_IN_ORDER = 15,   /* one worker runs these calls in less time; nothing has changed */
    BOHM_SHARED = 16      /* the machine or the list is shared by workers, or one of them is left; nothing has changed */
};

/* The text of a status. It is constant, and is never freed. */
const char *bohm_status_text(uint32_t status);

/* The functions by which the library allocates from here on, as malloc, realloc and free do, but with the context as
 * first argument. `resize` isn't called with a null pointer, nor `release`. */
typedef struct {
    void *(*allocate)(void *context, size_t size);
    void *(*resize)(void *context, void *at, size_t size);
    void (*release)(void *context, void *at);
    void *context;
} bohm_allocator;

/* Sets the allocator of the process, once, before any call that allocates: BOHM_DONE; or BOHM_MISUSE if a function is
 * null, an allocator was set, or something was allocated. No other call may be made at the same time. */
uint32_t bohm_use_allocator(const bohm_allocator *allocator);

/* Bytes that a call returns with BOHM_DONE, BOHM_REFUSED or BOHM_STOPPED; with any other status they are
 * unchanged. {0} is no bytes. If there are any, a zero follows them, which `len` doesn't count. The caller frees them with
 * bohm_free_bytes, or their pointer with bohm_free. */
typedef struct {
    uint8_t *at;
    size_t len;
} bohm_bytes;

#define BOHM_NO_BYTES {0, 0}

/* Frees memory that a call returned. Does nothing with a null pointer. */
void bohm_free(void *at);

static inline void bohm_free_bytes(bohm_bytes *bytes) {
    bohm_free(bytes->at);
    bytes->at = 0;
    bytes->len = 0;
}

/* Runs the log text[0..len] and returns its answer in *out: BOHM_DONE, BOHM_REFUSED or BOHM_NO_MEMORY. */
uint32_t bohm_answer(const uint8_t seed[16], const uint8_t *text, size_t len, bohm_bytes *out);

/* A store with its past, from one timestamp, the floor, up to another, the top. {0} is closed. An open machine must
 * not be copied, overwritten or discarded: bohm_close frees it. */
typedef struct {
    void *at;
} bohm_machine;

/* Opens a closed machine on a snapshot: `log 1` or `log 2`, a line for each key of the store, in rising order, and no
 * transaction. `top` is the timestamp of the last transaction that the store includes, 0 for a new store. BOHM_DONE,
 * BOHM_REFUSED, BOHM_NO_MEMORY or BOHM_HAS_LOG; unless it is BOHM_DONE, the machine stays closed. */
uint32_t bohm_open(bohm_machine *machine, const uint8_t seed[16], const uint8_t *text, size_t len, uint32_t top,
                   bohm_bytes *out);

/* An entry of a store: a key, which zeros fill up to 32 bytes, and its value. */
typedef struct {
    uint8_t key[BOHM_LONGEST_KEY];
    int64_t value;
} bohm_entry;

/* Entries that a call returns as it returns bytes. {0} is none. */
typedef struct {
    bohm_entry *at;
    size_t len;
} bohm_entries;

#define BOHM_NO_ENTRIES {0, 0}

static inline void bohm_free_entries(bohm_entries *entries) {
    bohm_free(entries->at);
    entries->at = 0;
    entries->len = 0;
}

/* Opens a closed machine as bohm_open does, on the store with these entries, as many as memory has room for, in rising
 * order of their keys: by bytes, and a key before those that it begins. A key's bytes are those before the first zero.
 * BOHM_DONE, BOHM_NO_KEY if the bytes of an entry are not a key, BOHM_UNSORTED or BOHM_NO_MEMORY; unless it is BOHM_DONE,
 * the machine stays closed. */
uint32_t bohm_open_rows(bohm_machine *machine, const uint8_t seed[16], const bohm_entry *entries, size_t count,
                        uint32_t top);

/* Runs a segment on an open machine: `log 1` or `log 2` and transactions, without a store. Returns a line for each
 * reply; the first is numbered top + 1. With BOHM_DONE all transactions ran, with BOHM_STOPPED not all, with BOHM_KEPT
 * at least one. The top has risen by the number that ran, in whole batches of 4096; the rest can be applied again.
 * Or BOHM_REFUSED, BOHM_NO_MEMORY, BOHM_HAS_STORE, BOHM_TIMESTAMPS or BOHM_WAITING. */
uint32_t bohm_apply(bohm_machine *machine, const uint8_t *text, size_t len, bohm_bytes *out);

/* Returns the replies that wait after BOHM_KEPT, bohm_apply_held or bohm_run_calls_held, as bohm_apply would have:
 * BOHM_DONE or BOHM_NO_MEMORY. */
uint32_t bohm_replies(bohm_machine *machine, bohm_bytes *out);

/* How a transaction ended. */
enum {
    BOHM_COMMIT = 0,
    BOHM_ABORT_NEED = 1,   /* a `need` failed */
    BOHM_ABORT_FAIL = 2,   /* it ran `fail` */
    BOHM_ABORT_ABSENT = 3, /* a sum read a key without a value */
    BOHM_ABORT_RANGE = 4   /* a sum's total is not a 64-bit value */
};

/* A reply. Its shown values are values.at[first] to values.at[first + shown - 1]. */
typedef struct {
    uint32_t outcome;
    uint32_t statement; /* the statement that aborted, counted from 1; 0 for a commit */
    uint64_t first;
    uint64_t shown;
} bohm_reply;

/* Replies, and the values that they show; a call returns them as it returns bytes. {0} is none. */
typedef struct {
    bohm_reply *at;
    size_t len;
} bohm_reply_rows;

typedef struct {
    int64_t *at;
    size_t len;
} bohm_values;

#define BOHM_NO_ROWS {0, 0}
#define BOHM_NO_VALUES {0, 0}

static inline void bohm_free_rows(bohm_reply_rows *rows, bohm_values *values) {
    bohm_free(rows->at);
    bohm_free(values->at);
    rows->at = 0;
    values->at = 0;
    rows->len = values->len = 0;
}

/* Runs a segment as bohm_apply does, but leaves its replies waiting for bohm_rows or bohm_replies. *out is set only
 * by BOHM_REFUSED. BOHM_DONE, BOHM_STOPPED, BOHM_REFUSED, BOHM_NO_MEMORY, BOHM_HAS_STORE, BOHM_TIMESTAMPS or
 * BOHM_WAITING. */
uint32_t bohm_apply_held(bohm_machine *machine, const uint8_t *text, size_t len, bohm_bytes *out);

/* Returns the waiting replies, beginning with that of the first transaction of the last segment: BOHM_DONE or
 * BOHM_NO_MEMORY. Neither pointer may be null. */
uint32_t bohm_rows(bohm_machine *machine, bohm_reply_rows *rows, bohm_values *values);

/* Reads a key of an open machine as of the transaction with timestamp `ts`: *present is 1 and *value its value, or
 * *present is 0. BOHM_DONE, BOHM_TRIMMED, BOHM_FUTURE or BOHM_NO_KEY; unless it is BOHM_DONE, both are unchanged. It
 * allocates nothing. */
uint32_t bohm_value_at(const bohm_machine *machine, const uint8_t *key, size_t len, uint32_t ts,
                       uint8_t *present, int64_t *value);

/* Returns the snapshot at a timestamp, in the form that bohm_open takes if it is no longer than BOHM_LONGEST_TEXT:
 * BOHM_DONE, BOHM_TRIMMED, BOHM_FUTURE or BOHM_NO_MEMORY. */
uint32_t bohm_store_at(const bohm_machine *machine, uint32_t ts, bohm_bytes *out);

/* Returns the entries of the store at a timestamp, in the form that bohm_open_rows takes: BOHM_DONE, BOHM_TRIMMED,
 * BOHM_FUTURE or BOHM_NO_MEMORY. */
uint32_t bohm_store_rows(const bohm_machine *machine, uint32_t ts, bohm_entries *out);

/* Writes the SHA-256 digest of a machine's store at a timestamp: that of the text of bohm_store_at with a line `--`
 * instead of its first line. Equal stores have equal digests. BOHM_DONE, BOHM_TRIMMED, BOHM_FUTURE or BOHM_NO_MEMORY;
 * unless it is BOHM_DONE, the digest is unchanged. */
uint32_t bohm_digest(const bohm_machine *machine, uint32_t ts, uint8_t digest[32]);

/* Drops the past below a timestamp, if that is above the floor: BOHM_DONE, or BOHM_FUTURE if it is above the top. It
 * allocates nothing. */
uint32_t bohm_trim(bohm_machine *machine, uint32_t floor);

/* Drops the past below the top, and gives back the memory of all keys that have no value at the top, and of all names
 * that only aborted transactions brought. The top, the store at it, waiting replies and handles of keys stay, and later
 * segments run as they would have. Lists that share the machine's names keep the old ones until they are closed. The time
 * and the memory that it needs meanwhile grow with the store. BOHM_DONE or BOHM_NO_MEMORY. */
uint32_t bohm_compact(bohm_machine *machine);

typedef struct {
    uint32_t floor;    /* the least timestamp that can be read */
    uint32_t top;      /* the greatest, that of the last transaction */
    uint64_t versions; /* how many versions are kept */
    uint64_t waiting;  /* how many replies wait */
    uint64_t names;    /* how many keys take memory, also without a value; bohm_compact leaves those with one */
    uint64_t bytes;    /* about how many bytes the versions and the names take */
    uint32_t left;     /* how many transactions can still run, before timestamps end at 4294967295 */
    uint32_t unused;   /* 0 */
} bohm_machine_counts;

/* Returns the least and the greatest timestamp of an open machine that can be read: BOHM_DONE. Takes constant time. */
uint32_t bohm_timestamps(const bohm_machine *machine, uint32_t *floor, uint32_t *top);

/* Returns the counts of an open machine: BOHM_DONE. It allocates nothing; its time grows with the number of keys. */
#define bohm_counts(machine, counts) bohm_counts_sized(machine, counts, sizeof(bohm_machine_counts))

/* What bohm_counts calls: sets the first `size` bytes of *counts, those that the program's header declares. A header with
 * more counts than the library knows gets zeros for them. */
uint32_t bohm_counts_sized(const bohm_machine *machine, bohm_machine_counts *counts, size_t size);

/* A procedure: a transaction with parameters, read and checked once. {0} is closed. As with a machine, an open
 * procedure must not be copied, overwritten or discarded. */
typedef struct {
    void *at;
} bohm_procedure;

/* Reads and checks a procedure's text, and opens a closed handle of it: BOHM_DONE, BOHM_REFUSED or BOHM_NO_MEMORY;
 * unless it is BOHM_DONE, the handle stays closed. A refusal's statement number counts the values' `let`s too. */
uint32_t bohm_prepare(bohm_procedure *procedure, const uint8_t seed[16], const uint8_t *text, size_t len,
                      bohm_bytes *out);

/* Prepares a procedure as bohm_prepare does, but a refusal's *out is what bohm-check says of the text: the line of
 * bohm_prepare, and then for each of the first 20 faults its line, counted in this text, what is wrong, and what to write
 * instead. A failed allocation may leave out messages, but not the first line. */
uint32_t bohm_prepare_report(bohm_procedure *procedure, const uint8_t seed[16], const uint8_t *text, size_t len,
                             bohm_bytes *out);

/* Returns the statement of an open procedure that a reply names by its number: its text in *out, and in *line the number,
 * from 1, of its line in the procedure's text. The first numbers are those of the values' `let`s, whose lines are the
 * values'. BOHM_DONE; BOHM_UNFIT if the procedure has no such statement, as for 0; or BOHM_NO_MEMORY. Unless it is
 * BOHM_DONE, *line is unchanged. */
uint32_t bohm_statement_text(const bohm_procedure *procedure, uint32_t statement, size_t *line, bohm_bytes *out);

/* Frees a procedure, and leaves it closed. Calls of it remain in their lists. Does nothing if it is closed. */
void bohm_close_procedure(bohm_procedure *procedure);

/* A list of calls of procedures, which a machine runs as a segment. {0} is closed. As with a machine, an open list must
 * not be copied, overwritten or discarded. */
typedef struct {
    void *at;
} bohm_calls;

/* Opens a closed list, without calls, for procedures of edition 1 or 2: BOHM_DONE, BOHM_UNFIT for any other number, or
 * BOHM_NO_MEMORY; unless it is BOHM_DONE, the list stays closed. */
uint32_t bohm_open_calls(bohm_calls *calls, const uint8_t seed[16], uint32_t edition);

/* Opens a closed list as bohm_open_calls does. It shares the names of the keys that the machine's store had when the
 * machine was opened: calls on these keys take the least time and memory. The list runs on any machine, even after this
 * one is closed. BOHM_DONE, BOHM_UNFIT or BOHM_NO_MEMORY. */
uint32_t bohm_open_calls_for(const bohm_machine *machine, bohm_calls *calls, uint32_t edition);

/* An argument: the bytes of a key. */
typedef struct {
    const uint8_t *at;
    size_t len;
} bohm_key;

/* Appends a call to an open list: an open procedure with its arguments, in the order of its parameters. BOHM_DONE;
 * BOHM_NO_KEY if an argument's bytes are not a key; BOHM_UNFIT if the procedure has different numbers of parameters or
 * another edition, or there are 1000000 calls; or BOHM_NO_MEMORY. Unless it is BOHM_DONE, the list is unchanged. */
uint32_t bohm_push(bohm_calls *calls, const bohm_procedure *procedure, const bohm_key *keys, size_t key_count,
                   const int64_t *values, size_t value_count);

/* Makes a handle of a key, by which bohm_push_named names the key in this list: a small number, which stays valid until
 * the list is closed, even if it is cleared. Each call makes a new handle, and older ones stay valid. BOHM_DONE;
 * BOHM_NO_KEY if the bytes are not a key; or BOHM_NO_MEMORY, also when there are 2^32 handles and shared keys. Unless it
 * is BOHM_DONE, *handle is unchanged. */
uint32_t bohm_key_handle(bohm_calls *calls, const uint8_t *key, size_t len, uint32_t *handle);

/* Appends a call as bohm_push does, with its keys named by handles of the list. A key whose number the list has kept
 * since the handle was made isn't looked up. BOHM_DONE, BOHM_UNFIT or BOHM_NO_MEMORY; or BOHM_MISUSE if a handle isn't
 * one of this list. */
uint32_t bohm_push_named(bohm_calls *calls, const bohm_procedure *procedure, const uint32_t *handles, size_t handle_count,
                         const int64_t *values, size_t value_count);

/* Returns the text of the log that the list's calls are, without a store, as bohm_apply takes it if it is no longer than
 * BOHM_LONGEST_TEXT: BOHM_DONE or BOHM_NO_MEMORY. The list keeps its calls. */
uint32_t bohm_calls_text(const bohm_calls *calls, bohm_bytes *out);

/* Runs one call of an open procedure on an open machine, as a segment of one transaction, without a list. *row is its
 * reply, whose `first` is 0, and its values are shown[0] to shown[row->shown - 1]; `room` is how many `shown` has room for,
 * and BOHM_MOST_SHOWN always suffice. BOHM_DONE; BOHM_KEPT if the call ran, but shows more than `room` values: its reply
 * waits for bohm_rows or bohm_replies; BOHM_WAITING; BOHM_UNFIT if the procedure has different numbers of parameters;
 * BOHM_NO_KEY if an argument's bytes are not a key; BOHM_TIMESTAMPS or BOHM_NO_MEMORY. Unless it is BOHM_DONE, *row and
 * shown are unchanged. */
uint32_t bohm_call(bohm_machine *machine, const bohm_procedure *procedure, const bohm_key *keys, size_t key_count,
                   const int64_t *values, size_t value_count, bohm_reply *row, int64_t *shown, size_t room);

/* Makes a handle of a key, by which bohm_call_named names the key on this machine, as bohm_key_handle does in a list: it
 * stays valid until the machine is closed. The statuses are those of bohm_key_handle. */
uint32_t bohm_machine_key(bohm_machine *machine, const uint8_t *key, size_t len, uint32_t *handle);

/* Runs one call as bohm_call does, with its keys named by handles of the machine. The statuses are those of bohm_call, but
 * for BOHM_NO_KEY; BOHM_MISUSE if a handle isn't one of this machine. */
uint32_t bohm_call_named(bohm_machine *machine, const bohm_procedure *procedure, const uint32_t *handles,
                         size_t handle_count, const int64_t *values, size_t value_count, bohm_reply *row, int64_t *shown,
                         size_t room);

/* Runs an open list's calls on an open machine, as bohm_apply runs a segment: BOHM_DONE, BOHM_STOPPED, BOHM_KEPT,
 * BOHM_TIMESTAMPS or BOHM_WAITING. The list keeps its calls. */
uint32_t bohm_run_calls(bohm_machine *machine, const bohm_calls *calls, bohm_bytes *out);

/* Runs calls as bohm_run_calls does, but leaves their replies waiting for bohm_rows or bohm_replies: BOHM_DONE,
 * BOHM_STOPPED, BOHM_TIMESTAMPS or BOHM_WAITING. */
uint32_t bohm_run_calls_held(bohm_machine *machine, const bohm_calls *calls);

/* Calls that several threads run, threads of the caller's own: bohm_share_calls plans them, bohm_open_worker opens a handle
 * for each worker, bohm_work has a worker run its share, on any thread, and bohm_finish_calls ends it. bohm_threads.h has a
 * pool of threads that does all of this.
 *
 * Whatever the threads do, the calls have run as by bohm_run_calls_held once bohm_finish_calls returns: workers that begin
 * late, or never work, only cost time. The caller owes this, beside the rules above: a worker's handle goes to its thread,
 * and the end of each bohm_work comes before bohm_finish_calls, by a lock, by a thread's start or end, or by an atomic that is
 * sequentially consistent.
 *
 * From bohm_share_calls to bohm_finish_calls the machine has the list. Each other call on either is BOHM_SHARED; only closing
 * them isn't. A machine that is closed frees the calls too; then, or if the list is closed, what is left of the two can only be
 * closed, too. Workers that are open then may still work, in vain. */

/* A worker of shared calls. {0} is closed. As with a machine, an open worker must not be copied, overwritten or discarded. */
typedef struct {
    void *at;
} bohm_worker;

/* Shares the calls of an open list among so many workers of an open machine: BOHM_DONE; BOHM_IN_ORDER if one worker runs them
 * in less time, as bohm_run_calls does: there is one, or more than 16, the bodies are short, or there are no calls or more than
 * 4096; BOHM_SHARED, BOHM_WAITING, BOHM_UNFIT for no worker, BOHM_TIMESTAMPS or BOHM_NO_MEMORY. */
uint32_t bohm_share_calls(bohm_machine *machine, bohm_calls *calls, uint32_t workers);

/* Opens a closed handle of the next worker of a shared machine: BOHM_DONE; BOHM_UNFIT if as many were opened as there are
 * workers, or calls if these are fewer; or BOHM_NO_MEMORY. BOHM_MISUSE also if the machine isn't shared. Workers may work before
 * the next one is opened. */
uint32_t bohm_open_worker(bohm_machine *machine, bohm_worker *worker);

/* Runs a worker's share of the calls on this thread, and closes its handle: BOHM_DONE. It doesn't wait for other workers: what
 * needs a call that another one is running is left to the end. */
uint32_t bohm_work(bohm_worker *worker);

/* Frees a worker that doesn't work, and leaves it closed. Does nothing if it is closed. */
void bohm_close_worker(bohm_worker *worker);

/* Runs what the workers left, gives the list its calls back, and leaves the replies waiting for bohm_rows or bohm_replies:
 * BOHM_DONE; BOHM_STOPPED if an allocation failed, after which none of the calls has run; or BOHM_SHARED if a worker's handle is
 * open. BOHM_MISUSE also if the machine isn't shared, or the list isn't. The list is the one that was shared with this
 * machine. */
uint32_t bohm_finish_calls(bohm_machine *machine, bohm_calls *calls);

/* Removes all calls from an open list, which keeps its memory for later calls, and its handles: BOHM_DONE. */
uint32_t bohm_clear_calls(bohm_calls *calls);

/* Frees a list of calls, and leaves it closed. Does nothing if it is closed. */
void bohm_close_calls(bohm_calls *calls);

/* Frees a machine and its waiting replies, and leaves it closed. Does nothing if it is closed. */
void bohm_close(bohm_machine *machine);

#ifdef __cplusplus
}
#endif

#endif
