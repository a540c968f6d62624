/* The extension module bohm._native: machines, procedures, calls and replies over a library that is loaded already.
 *
 * Objects are used with the interpreter's lock held. What runs without it is in running.c, and touches only the library,
 * memory of its own, and what a machine's turns protect. */
#ifndef BOHM_NATIVE_H
#define BOHM_NATIVE_H

#define PY_SSIZE_T_CLEAN
#define Py_LIMITED_API 0x03090000
#include <Python.h>
#include <structmember.h>

#include <bohm.h>
#include <bohm_threads.h>

/* Every CPython from 3.3 on has these. The stable ABI lists them since 3.10 and 3.11, with the same layout. */
#if Py_LIMITED_API < 0x030a0000
const char *PyUnicode_AsUTF8AndSize(PyObject *text, Py_ssize_t *size);
#endif
#if Py_LIMITED_API < 0x030b0000
typedef struct {
    void *buf;
    PyObject *obj;
    Py_ssize_t len, itemsize;
    int readonly, ndim;
    char *format;
    Py_ssize_t *shape, *strides, *suboffsets;
    void *internal;
} Py_buffer;
int PyObject_CheckBuffer(PyObject *object);
int PyObject_GetBuffer(PyObject *object, Py_buffer *view, int flags);
void PyBuffer_Release(Py_buffer *view);
#define PyBUF_FORMAT 0x0004
#define PyBUF_STRIDES (0x0010 | 0x0008)
#endif

/* A batch: between two of them other threads read the machine, and signals are handled. */
#define BATCH 4096
/* The fewest calls, and the shortest text, whose run is worth the interpreter's lock being released. */
#define MANY_CALLS 32
#define LONG_TEXT 4096
/* A past read that goes back by more timestamps than this releases it, too. */
#define FAR_BACK 4096
#define MOST_KEYS 32
#define MOST_VALUES 64
#define LAST_TIMESTAMP 4294967295u

/* --- turns.c: who is using a machine --- */

typedef struct waiter {
    struct waiter *next;
    unsigned long thread;
    PyThread_type_lock gate;
} waiter;

/* One thread at a time has the turn; others get it in the order in which they came. */
typedef struct {
    unsigned long owner;
    waiter *first;
} turn;

/* Takes the turn; waits, without the interpreter's lock, while another thread has it. -1 with an exception set: BusyError
 * if this thread has it, or what a signal's handler raised. */
int take_turn(turn *turn);
void pass_turn(turn *turn);

/* --- library.c: the functions of a loaded library --- */

#define FUNCTIONS(each) \
    each(answer) each(open) each(open_rows) each(apply_held) each(rows) each(value_at) each(store_at) each(store_rows) \
    each(digest) each(trim) each(compact) each(timestamps) each(counts_sized) each(close) each(prepare_report) \
    each(statement_text) each(close_procedure) \
    each(open_calls_for) each(push) each(key_handle) each(push_named) each(run_calls_held) each(share_calls) each(open_worker) \
    each(work) each(finish_calls) each(calls_text) each(clear_calls) each(close_calls) each(call) each(machine_key) each(call_named) each(free)

#define DECLARED(name) __typeof__(&bohm_##name) name;
typedef struct {
    PyObject_HEAD
    FUNCTIONS(DECLARED)
} table_object;
#undef DECLARED

/* --- replies.c --- */

typedef struct {
    bohm_reply *rows;
    int64_t *values;
    size_t start, len; /* the place of its first reply, and how many it has */
    uint32_t behind;   /* the timestamp before the first */
    int is_ours;       /* whether Python's allocator has its memory, and not the library's */
} chunk;

/* Replies, in chunks. Each is made when it is looked at. */
typedef struct replies_object {
    PyObject_HEAD
    table_object *table;
    size_t len, count, room;
    chunk *chunks;
    struct replies_object *older; /* the next in a machine's list of replies that no call has returned */
} replies_object;

/* Replies without any, with room for so many chunks. */
replies_object *new_replies(table_object *table, size_t room);
/* Adds a chunk, for which there is room. */
void add_chunk(replies_object *replies, chunk made);
PyObject *make_reply(uint32_t timestamp, const bohm_reply *row, const int64_t *values);
/* Those of a list, from the oldest to the newest, in one, which takes their chunks. */
replies_object *joined_replies(replies_object *newest);

/* --- keys.c --- */

typedef struct machine_object machine_object;

#define NO_HANDLE UINT32_MAX

/* A key that was looked up. */
typedef struct {
    uint32_t len;
    char at[32];
} known_key;

typedef struct {
    PyObject_HEAD
    machine_object *machine;
    PyObject *name;
    uint32_t index;
} key_object;

/* Bytes of a text that somebody holds. */
typedef struct {
    const char *at;
    uint32_t len;
} span;

int is_key(const char *at, size_t len);
/* The bytes of a str or of a bytes-like object. *held is a new reference to what they are in. */
int bytes_of(PyObject *text, const char **at, size_t *len, PyObject **held);
/* The bytes of a key, or of one that was looked up; 0 if it isn't a key, and then *held is null. */
int key_bytes(PyObject *key, const char **at, size_t *len, PyObject **held);
/* Sets *handle to a key's handle in the list of an edition, or on the machine for edition 0; it is made if there is none.
 * Needs the machine's turn. */
uint32_t handle_of(machine_object *machine, uint32_t edition, uint32_t index, uint32_t *handle);
uint32_t open_list(machine_object *machine, uint32_t edition);
/* Sets *index to a key's place among those that are known, where it is put if it isn't there. -1 with an exception set. Needs a turn. */
int find_key(machine_object *machine, const char *at, size_t len, uint32_t *index);

/* --- calls.c --- */

typedef struct {
    PyObject_HEAD
    machine_object *machine;
    bohm_procedure procedure;
    PyObject *keys, *values, *places; /* the parameters' names, and the place of each word for them */
    Py_ssize_t key_count, value_count;
    uint32_t edition;
} procedure_object;

/* An argument for a key: one that was looked up, by its index, or bytes that `object` owns. */
typedef struct {
    PyObject *object;
    const char *at;
    uint32_t len, index;
} key_argument;

typedef struct {
    PyObject_VAR_HEAD
    procedure_object *procedure;
    key_argument keys[]; /* followed by the values */
} call_object;

#define CALL_UNIT 8
static inline int64_t *call_values(call_object *call) {
    return (int64_t *)(call->keys + call->procedure->key_count);
}

/* Calls of a procedure, read from their lines. */
typedef struct {
    PyObject_HEAD
    procedure_object *procedure;
    PyObject *text; /* whose bytes the keys are */
    size_t count;
    span *keys; /* those of each call in the order of the parameters, one call after another, and so the values */
    int64_t *values;
    PyObject *ids;
} read_object;

/* The calls that lines of a text are: all accepted calls of the procedure, by this name, so many; None if they aren't that, or if a
 * value has more than 18 bytes. */
PyObject *procedure_read(PyObject *self, PyObject *args);

/* Fills the arguments of a call, each key with a reference of its own. -1 with an exception set, and no reference. */
int fill_arguments(procedure_object *procedure, PyObject *args, PyObject *named, key_argument *keys, int64_t *values);
void drop_arguments(key_argument *keys, Py_ssize_t count);
/* Appends a call to a list, and runs one without a list. Both need the machine's turn, and not the interpreter's lock. */
uint32_t push_call(procedure_object *procedure, const key_argument *keys, const int64_t *values);
uint32_t run_directly(procedure_object *procedure, const key_argument *keys, const int64_t *values, bohm_reply *row, int64_t *shown);

/* --- machine.c, running.c --- */

/* Places of keys that were found last, by a hash of their bytes. */
#define RECENT_KEYS 4096

struct machine_object {
    PyObject_HEAD
    table_object *table;
    bohm_machine machine;
    bohm_calls lists[2];
    uint8_t seed[16];
    uint32_t floor, top;
    bohm_threads threads; /* those that run calls together */
    pid_t starter;        /* the process that has them */
    turn writing; /* of a call that changes the machine, for all of it */
    turn inside;  /* of a batch, or of a call that reads */
    known_key *keys;
    uint32_t *handles[3]; /* those of the keys on the machine, and in the lists of editions 1 and 2 */
    size_t key_count, key_room;
    uint8_t *changed; /* of each known key, whether calls that were read may have written it since `_changed` */
    uint32_t recent[RECENT_KEYS];
    size_t closings; /* how many of its procedures were closed */
    PyObject *indices; /* the place in `keys` of each key that was looked up, by its bytes */
    int is_held; /* whether replies wait in the library, of the transactions after `held_behind` */
    uint32_t held_behind, lone_behind;
    int has_lone; /* whether the reply of a single call couldn't be returned: it is `lone`, the next after `lone_behind` */
    bohm_reply lone;
    int64_t lone_values[BOHM_MOST_SHOWN];
    replies_object *pending; /* the replies that no call has returned, the newest first */
};

/* Takes the turns of a call that reads, or of one that changes the machine. -1 with an exception set: also if it is closed. */
int begin_reading(machine_object *machine);
void end_reading(machine_object *machine);
int begin_writing(machine_object *machine);
void end_writing(machine_object *machine);
PyObject *machine_apply(machine_object *machine, PyObject *segment);
PyObject *machine_run(machine_object *machine, PyObject *calls);
PyObject *machine_calls_text(machine_object *machine, PyObject *calls);
PyObject *machine_compact(machine_object *machine, PyObject *nothing);
PyObject *machine_run_columns(machine_object *machine, PyObject *args);
PyObject *machine_run_read(machine_object *machine, PyObject *args);
PyObject *machine_replies(machine_object *machine, PyObject *nothing);
PyObject *call_once(procedure_object *procedure, PyObject *args, PyObject *named);

/* --- columns.c --- */

/* Reads a column's whole numbers into every `step`-th place of an array, from the first one on: places of known keys, below
 * `limit`, or values. -1 with an exception set; also if there are other than `count`. */
int read_indices(PyObject *column, PyObject *name, uint32_t limit, uint32_t *into, size_t step, size_t count);
int read_values(PyObject *column, PyObject *name, int64_t *into, size_t step, size_t count);
/* How many a column has; -1 with an exception set if it isn't one. */
Py_ssize_t column_length(PyObject *column, PyObject *name);

/* --- module.c: what bohm's Python modules have --- */

extern PyObject *error_for, *refusal_for, *stopped_for, *busy_error, *no_key_error, *closed_error, *note_on;
extern PyObject *reply_class, *replies_class, *reasons[5];
extern newfunc new_tuple;
extern PyTypeObject *table_type, *replies_type, *key_type, *procedure_type, *call_type, *read_type, *machine_type;

/* Sets the exception of a status, or of a refusal with its line or report. Each returns null. */
PyObject *raise_status(uint32_t status);
PyObject *raise_refusal(table_object *table, bohm_bytes *report);

PyTypeObject *make_table_type(void), *make_replies_type(void), *make_key_type(void), *make_procedure_type(void),
    *make_call_type(void), *make_read_type(void), *make_machine_type(void);

/* --- hashes.c --- */

/* The sum modulo 2^256 of a number in hexadecimal and of the SHA-256 of the two texts of each pair, with a space between them. */
PyObject *sum_of_hashes(PyObject *module, PyObject *args);

#endif
