/* Machines: opening, reading, closing. */
#include "native.h"

#include <unistd.h>

static int is_open(machine_object *machine, turn *taken) {
    if (machine->machine.at) return 0;
    pass_turn(taken);
    PyErr_SetString(closed_error, "the machine is closed");
    return -1;
}

int begin_reading(machine_object *machine) {
    if (machine->writing.owner == PyThread_get_thread_ident()) {
        PyErr_SetNone(busy_error);
        return -1;
    }
    return take_turn(&machine->inside) < 0 ? -1 : is_open(machine, &machine->inside);
}

void end_reading(machine_object *machine) { pass_turn(&machine->inside); }

int begin_writing(machine_object *machine) {
    if (machine->inside.owner == PyThread_get_thread_ident()) {
        PyErr_SetNone(busy_error);
        return -1;
    }
    return take_turn(&machine->writing) < 0 ? -1 : is_open(machine, &machine->writing);
}

void end_writing(machine_object *machine) { pass_turn(&machine->writing); }

/* A timestamp from an argument, or the top if there is none. */
static int timestamp_of(machine_object *machine, PyObject *given, uint32_t *ts) {
    *ts = machine->top;
    if (!given || given == Py_None) return 0;
    PyObject *number = PyNumber_Index(given);
    if (!number) return -1;
    int over = 0;
    long long value = PyLong_AsLongLongAndOverflow(number, &over);
    if (over || value < 0 || value > LAST_TIMESTAMP) PyErr_Format(PyExc_ValueError, "%S is not a timestamp", number);
    else *ts = (uint32_t)value;
    Py_DECREF(number);
    return PyErr_Occurred() ? -1 : 0;
}

/* Sets *rows to those in a buffer. Where they aren't aligned it is a copy, and *copy too. -1 with an exception set. */
static int align_rows(const Py_buffer *given, const bohm_entry **rows, bohm_entry **copy) {
    size_t len = (size_t)given->len;
    *rows = given->buf;
    *copy = NULL;
    if (len % sizeof **rows) return PyErr_SetString(PyExc_ValueError, "the rows of a store have 40 bytes each"), -1;
    if (!len || !((uintptr_t)given->buf % _Alignof(bohm_entry))) return 0;
    *copy = PyMem_Malloc(len);
    if (!*copy) return PyErr_NoMemory(), -1;
    *rows = memcpy(*copy, given->buf, len);
    return 0;
}

/* Opens a machine on rows. -1 with an exception set. */
static int open_rows(machine_object *machine, const Py_buffer *given, uint32_t top) {
    const bohm_entry *rows;
    bohm_entry *copy;
    uint32_t status;
    if (align_rows(given, &rows, &copy) < 0) return -1;
    Py_BEGIN_ALLOW_THREADS
    status = machine->table->open_rows(&machine->machine, machine->seed, rows, (size_t)given->len / sizeof *rows, top);
    Py_END_ALLOW_THREADS
    PyMem_Free(copy);
    return status ? (raise_status(status), -1) : 0;
}

/* Opens a machine on a snapshot. -1 with an exception set. */
static int open_text(machine_object *machine, const Py_buffer *text, uint32_t top) {
    bohm_bytes line = BOHM_NO_BYTES;
    uint32_t status;
    Py_BEGIN_ALLOW_THREADS
    status = machine->table->open(&machine->machine, machine->seed, text->buf, (size_t)text->len, top, &line);
    Py_END_ALLOW_THREADS
    if (status == BOHM_REFUSED) return raise_refusal(machine->table, &line), -1;
    return status ? (raise_status(status), -1) : 0;
}

/* Starts the machine's threads. -1 with an exception set. */
static int start_threads(machine_object *machine, int workers) {
    if (workers < 1 || workers > BOHM_MOST_WORKERS) {
        PyErr_Format(PyExc_ValueError, "a machine has 1 to %d workers, not %d", BOHM_MOST_WORKERS, workers);
        return -1;
    }
    uint32_t status = bohm_start_threads(&machine->threads, (uint32_t)workers);
    machine->starter = getpid();
    return status ? (raise_status(status), -1) : 0;
}

static int machine_init(PyObject *self, PyObject *args, PyObject *named) {
    machine_object *machine = (machine_object *)self;
    static char *words[] = {"table", "seed", "store", "top", "is_rows", "workers", NULL};
    PyObject *table, *top;
    const char *seed;
    Py_ssize_t seed_len;
    Py_buffer store;
    uint32_t ts = 0;
    int is_rows = 0, workers = 1, status = -1;
    if (machine->table) return PyErr_SetString(PyExc_TypeError, "a machine is opened once"), -1;
    if (!PyArg_ParseTupleAndKeywords(args, named, "O!y#y*O|pi", words, table_type, &table, &seed, &seed_len, &store, &top, &is_rows,
                                     &workers))
        return -1;
    if (seed_len != sizeof machine->seed) PyErr_SetString(PyExc_ValueError, "a seed has 16 bytes");
    else if (!timestamp_of(machine, top, &ts)) {
        Py_INCREF(table);
        machine->table = (table_object *)table;
        memcpy(machine->seed, seed, sizeof machine->seed);
        machine->floor = machine->top = ts;
        status = is_rows ? open_rows(machine, &store, ts) : open_text(machine, &store, ts);
    }
    PyBuffer_Release(&store);
    if (status < 0 || start_threads(machine, workers) < 0) return -1;
    machine->indices = PyDict_New();
    return machine->indices ? 0 : -1;
}

static void close_handles(machine_object *machine) {
    if (!machine->table) return;
    /* A forked child doesn't have the threads. */
    if (machine->starter == getpid()) bohm_stop_threads(&machine->threads);
    for (int i = 0; i < 2; i++) machine->table->close_calls(machine->lists + i);
    machine->table->close(&machine->machine);
}

static PyObject *machine_close(PyObject *self, PyObject *nothing) {
    machine_object *machine = (machine_object *)self;
    (void)nothing;
    if (!machine->machine.at) Py_RETURN_NONE;
    if (begin_writing(machine) < 0) return NULL;
    if (take_turn(&machine->inside) < 0) {
        end_writing(machine);
        return NULL;
    }
    close_handles(machine);
    end_reading(machine);
    end_writing(machine);
    Py_RETURN_NONE;
}

static int machine_traverse(PyObject *self, visitproc visit, void *arg) {
    (void)arg;
    Py_VISIT(Py_TYPE(self));
    return 0;
}

static void machine_dealloc(PyObject *self) {
    machine_object *machine = (machine_object *)self;
    PyTypeObject *type = Py_TYPE(self);
    PyObject_GC_UnTrack(self);
    close_handles(machine);
    PyMem_Free(machine->keys);
    PyMem_Free(machine->changed);
    for (int i = 0; i < 3; i++) PyMem_Free(machine->handles[i]);
    Py_XDECREF(machine->indices);
    Py_XDECREF(machine->pending);
    Py_XDECREF(machine->table);
    freefunc release = (freefunc)PyType_GetSlot(type, Py_tp_free);
    release(self);
    Py_DECREF(type);
}

/* 1 with the key's value at a timestamp, 0 if it has none, -1 with an exception set. */
static int read_value(machine_object *machine, const char *at, size_t len, PyObject *given, int64_t *value) {
    uint32_t ts, status;
    uint8_t present = 0;
    if (begin_reading(machine) < 0) return -1;
    if (timestamp_of(machine, given, &ts) < 0) return end_reading(machine), -1;
    if (ts < machine->top && machine->top - ts > FAR_BACK) {
        Py_BEGIN_ALLOW_THREADS
        status = machine->table->value_at(&machine->machine, (const uint8_t *)at, len, ts, &present, value);
        Py_END_ALLOW_THREADS
    } else {
        status = machine->table->value_at(&machine->machine, (const uint8_t *)at, len, ts, &present, value);
    }
    end_reading(machine);
    return status ? (raise_status(status), -1) : present;
}

static PyObject *machine_value_at(PyObject *self, PyObject *args, PyObject *named) {
    static char *words[] = {"key", "ts", NULL};
    PyObject *key, *ts = NULL, *held;
    const char *at;
    size_t len;
    if (!named && PyTuple_Size(args) == 1) key = PyTuple_GetItem(args, 0);
    else if (!PyArg_ParseTupleAndKeywords(args, named, "O|O", words, &key, &ts)) return NULL;
    int is = key_bytes(key, &at, &len, &held);
    if (is < 0) return NULL;
    if (!is) return PyErr_Format(no_key_error, "%R is not a key", key);
    int64_t value = 0;
    int has = read_value((machine_object *)self, at, len, ts, &value);
    Py_DECREF(held);
    if (has < 0) return NULL;
    if (has) return PyLong_FromLongLong(value);
    Py_RETURN_NONE;
}

/* As read_value, of any object, at the top: what isn't a key has no value. */
static int look_up(PyObject *self, PyObject *key, int64_t *value) {
    const char *at;
    size_t len;
    PyObject *held;
    int is = key_bytes(key, &at, &len, &held);
    if (is <= 0) return is;
    int has = read_value((machine_object *)self, at, len, NULL, value);
    Py_DECREF(held);
    return has;
}

static PyObject *machine_get(PyObject *self, PyObject *key) {
    int64_t value = 0;
    int has = look_up(self, key, &value);
    if (has == 1) return PyLong_FromLongLong(value);
    if (!has) PyErr_SetObject(PyExc_KeyError, key);
    return NULL;
}

static int machine_contains(PyObject *self, PyObject *key) {
    int64_t value;
    return look_up(self, key, &value);
}

static PyObject *machine_snapshot(PyObject *self, PyObject *args, PyObject *named) {
    machine_object *machine = (machine_object *)self;
    static char *words[] = {"ts", NULL};
    PyObject *given = NULL;
    uint32_t ts, status = 0;
    bohm_bytes out = BOHM_NO_BYTES;
    if (!PyArg_ParseTupleAndKeywords(args, named, "|O", words, &given) || begin_reading(machine) < 0) return NULL;
    if (timestamp_of(machine, given, &ts) < 0) return end_reading(machine), NULL;
    Py_BEGIN_ALLOW_THREADS
    status = machine->table->store_at(&machine->machine, ts, &out);
    Py_END_ALLOW_THREADS
    end_reading(machine);
    if (status) return raise_status(status);
    PyObject *text = PyBytes_FromStringAndSize((const char *)out.at, (Py_ssize_t)out.len);
    machine->table->free(out.at);
    return text;
}

static PyObject *machine_store_rows(PyObject *self, PyObject *args, PyObject *named) {
    machine_object *machine = (machine_object *)self;
    static char *words[] = {"ts", NULL};
    PyObject *given = NULL;
    uint32_t ts, status;
    bohm_entries out = BOHM_NO_ENTRIES;
    if (!PyArg_ParseTupleAndKeywords(args, named, "|O", words, &given) || begin_reading(machine) < 0) return NULL;
    if (timestamp_of(machine, given, &ts) < 0) return end_reading(machine), NULL;
    Py_BEGIN_ALLOW_THREADS
    status = machine->table->store_rows(&machine->machine, ts, &out);
    Py_END_ALLOW_THREADS
    end_reading(machine);
    if (status) return raise_status(status);
    PyObject *rows = PyBytes_FromStringAndSize((const char *)out.at, (Py_ssize_t)(out.len * sizeof *out.at));
    machine->table->free(out.at);
    return rows;
}

static PyObject *machine_digest(PyObject *self, PyObject *args, PyObject *named) {
    machine_object *machine = (machine_object *)self;
    static char *words[] = {"ts", NULL};
    PyObject *given = NULL;
    uint32_t ts, status;
    uint8_t digest[32];
    if (!PyArg_ParseTupleAndKeywords(args, named, "|O", words, &given) || begin_reading(machine) < 0) return NULL;
    if (timestamp_of(machine, given, &ts) < 0) return end_reading(machine), NULL;
    Py_BEGIN_ALLOW_THREADS
    status = machine->table->digest(&machine->machine, ts, digest);
    Py_END_ALLOW_THREADS
    end_reading(machine);
    return status ? raise_status(status) : PyBytes_FromStringAndSize((const char *)digest, sizeof digest);
}

static PyObject *machine_trim(PyObject *self, PyObject *args, PyObject *named) {
    machine_object *machine = (machine_object *)self;
    static char *words[] = {"floor", NULL};
    PyObject *given = NULL;
    uint32_t ts, status;
    if (!PyArg_ParseTupleAndKeywords(args, named, "|O", words, &given) || begin_reading(machine) < 0) return NULL;
    if (timestamp_of(machine, given, &ts) < 0) return end_reading(machine), NULL;
    Py_BEGIN_ALLOW_THREADS
    status = machine->table->trim(&machine->machine, ts);
    Py_END_ALLOW_THREADS
    if (!status && ts > machine->floor) machine->floor = ts;
    end_reading(machine);
    if (status) return raise_status(status);
    Py_RETURN_NONE;
}

static PyObject *machine_counts(PyObject *self, PyObject *nothing) {
    machine_object *machine = (machine_object *)self;
    bohm_machine_counts counts = {0};
    (void)nothing;
    if (begin_reading(machine) < 0) return NULL;
    Py_BEGIN_ALLOW_THREADS
    machine->table->counts_sized(&machine->machine, &counts, sizeof counts);
    Py_END_ALLOW_THREADS
    end_reading(machine);
    size_t waiting = (size_t)machine->has_lone;
    for (replies_object *each = machine->pending; each; each = each->older) waiting += each->len;
    return Py_BuildValue("(kkKKKKk)", (unsigned long)counts.floor, (unsigned long)counts.top, (unsigned long long)counts.versions,
                         (unsigned long long)(counts.waiting + waiting), (unsigned long long)counts.names,
                         (unsigned long long)counts.bytes, (unsigned long)counts.left);
}

/* Adds the names of the known keys that calls that were read may have written since the last time to a set. They count until all are
 * in it. */
static PyObject *machine_changed(PyObject *self, PyObject *names) {
    machine_object *machine = (machine_object *)self;
    if (!PySet_Check(names)) return PyErr_Format(PyExc_TypeError, "the names go into a set");
    if (begin_reading(machine) < 0) return NULL;
    int status = 0;
    for (size_t i = 0; !status && i < machine->key_count; i++) {
        if (!machine->changed[i]) continue;
        PyObject *name = PyUnicode_FromStringAndSize(machine->keys[i].at, machine->keys[i].len);
        status = name ? PySet_Add(names, name) : -1;
        Py_XDECREF(name);
    }
    if (!status && machine->key_count) memset(machine->changed, 0, machine->key_count);
    end_reading(machine);
    if (status) return NULL;
    Py_RETURN_NONE;
}

static PyObject *machine_is_closed(PyObject *self, void *nothing) {
    (void)nothing;
    return PyBool_FromLong(!((machine_object *)self)->machine.at);
}

static PyObject *apply_method(PyObject *self, PyObject *segment) { return machine_apply((machine_object *)self, segment); }
static PyObject *run_method(PyObject *self, PyObject *calls) { return machine_run((machine_object *)self, calls); }
static PyObject *calls_text_method(PyObject *self, PyObject *calls) { return machine_calls_text((machine_object *)self, calls); }
static PyObject *compact_method(PyObject *self, PyObject *none) { return machine_compact((machine_object *)self, none); }
static PyObject *columns_method(PyObject *self, PyObject *args) { return machine_run_columns((machine_object *)self, args); }
static PyObject *read_method(PyObject *self, PyObject *args) { return machine_run_read((machine_object *)self, args); }
static PyObject *replies_method(PyObject *self, PyObject *none) { return machine_replies((machine_object *)self, none); }

#define WITH_WORDS(call) (PyCFunction)(void (*)(void))call, METH_VARARGS | METH_KEYWORDS

static PyMethodDef methods[] = {
    {"apply", apply_method, METH_O, "Runs a segment."},
    {"run", run_method, METH_O, "Runs calls."},
    {"_calls_text", calls_text_method, METH_O, "The log that calls of one edition are, of which a batch has room."},
    {"_run_columns", columns_method, METH_VARARGS, "Runs a procedure on columns of arguments."},
    {"_run_read", read_method, METH_VARARGS, "Runs calls that a procedure has read, and notes the keys at these places as changed."},
    {"_changed", machine_changed, METH_O, "Adds the names of the keys that were noted to a set; they are then no more."},
    {"replies", replies_method, METH_NOARGS, "The replies that no call has returned."},
    {"value_at", WITH_WORDS(machine_value_at), "A key's value at a timestamp, or at the top."},
    {"snapshot", WITH_WORDS(machine_snapshot), "The snapshot at a timestamp, or at the top."},
    {"store_rows", WITH_WORDS(machine_store_rows), "The rows of the store at a timestamp, or at the top."},
    {"digest", WITH_WORDS(machine_digest), "The digest of the store at a timestamp, or at the top."},
    {"trim", WITH_WORDS(machine_trim), "Drops the past below a timestamp, or all of it."},
    {"compact", compact_method, METH_NOARGS, "Drops the past, and gives back the memory of keys without a value."},
    {"_counts", machine_counts, METH_NOARGS, "Floor, top, versions, waiting replies, names, bytes, timestamps left."},
    {"close", machine_close, METH_NOARGS, "Frees the machine. Does nothing if it is closed."},
    {0}};

static PyMemberDef members[] = {
    {"_known", T_PYSSIZET, offsetof(machine_object, key_count), READONLY, "How many keys were looked up."},
    {"floor", T_UINT, offsetof(machine_object, floor), READONLY, "The least timestamp that can be read."},
    {"top", T_UINT, offsetof(machine_object, top), READONLY, "The timestamp of the last transaction."},
    {0}};

static PyGetSetDef getters[] = {{"closed", machine_is_closed, NULL, "Whether it is closed.", NULL}, {0}};

static PyType_Slot slots[] = {
    {Py_tp_doc, "A store with its past."}, {Py_tp_init, machine_init}, {Py_tp_new, PyType_GenericNew},
    {Py_tp_dealloc, machine_dealloc}, {Py_tp_traverse, machine_traverse}, {Py_tp_methods, methods}, {Py_tp_members, members},
    {Py_tp_getset, getters}, {Py_mp_subscript, machine_get}, {Py_sq_contains, machine_contains}, {0}};

static PyType_Spec spec = {
    "bohm._native.Machine", sizeof(machine_object), 0, Py_TPFLAGS_DEFAULT | Py_TPFLAGS_BASETYPE | Py_TPFLAGS_HAVE_GC, slots};

PyTypeObject *make_machine_type(void) { return (PyTypeObject *)PyType_FromSpec(&spec); }
