/* Running: single calls, and runs of many transactions in batches. Between two batches readers of other threads get their
 * turn, and signals are handled. */
#include "native.h"

/* --- replies that no call has returned --- */

/* Puts a list of replies, the newest first, before those that are pending. */
static void keep(machine_object *machine, replies_object *replies) {
    replies_object *oldest = replies;
    while (oldest->older) oldest = oldest->older;
    oldest->older = machine->pending;
    machine->pending = replies;
}

/* Takes the replies that wait in the library. Needs the turns; not the interpreter's lock. */
static uint32_t take_rows(machine_object *machine, uint32_t behind, chunk *made) {
    bohm_reply_rows rows = BOHM_NO_ROWS;
    bohm_values values = BOHM_NO_VALUES;
    uint32_t status = machine->table->rows(&machine->machine, &rows, &values);
    machine->is_held = status != BOHM_DONE;
    machine->held_behind = behind;
    *made = (chunk){.rows = rows.at, .values = values.at, .len = rows.len, .behind = behind};
    return status;
}

static int keep_held(machine_object *machine) {
    replies_object *replies = new_replies(machine->table, 1);
    if (!replies) return -1;
    chunk made;
    if (take_rows(machine, machine->held_behind, &made)) {
        Py_DECREF(replies);
        raise_status(BOHM_NO_MEMORY);
        return -1;
    }
    add_chunk(replies, made);
    keep(machine, replies);
    return 0;
}

static int keep_lone(machine_object *machine) {
    size_t shown = (size_t)machine->lone.shown;
    replies_object *replies = new_replies(machine->table, 1);
    bohm_reply *row = PyMem_Malloc(sizeof *row);
    int64_t *values = PyMem_Malloc((shown ? shown : 1) * sizeof *values);
    if (!replies || !row || !values) {
        Py_XDECREF(replies);
        PyMem_Free(row);
        PyMem_Free(values);
        PyErr_NoMemory();
        return -1;
    }
    *row = machine->lone;
    memcpy(values, machine->lone_values, shown * sizeof *values);
    add_chunk(replies, (chunk){.rows = row, .values = values, .len = 1, .behind = machine->lone_behind, .is_ours = 1});
    machine->has_lone = 0;
    keep(machine, replies);
    return 0;
}

/* Makes room for the next call's replies: those that an earlier call left behind are listed as pending. Needs the turns. */
static int set_aside(machine_object *machine) {
    if (machine->has_lone && keep_lone(machine) < 0) return -1;
    return machine->is_held ? keep_held(machine) : 0;
}

/* Takes both turns, with nothing left behind. */
static int begin_run(machine_object *machine) {
    if (begin_writing(machine) < 0) return -1;
    if (!machine->has_lone && !machine->is_held) return 0;
    int status = take_turn(&machine->inside);
    if (!status) {
        status = set_aside(machine);
        pass_turn(&machine->inside);
    }
    if (status < 0) end_writing(machine);
    return status;
}

/* Closes the lists of calls, which share names that the machine gives back, and whose handles are made again. */
static void drop_lists(machine_object *machine) {
    for (uint32_t edition = 1; edition < 3; edition++) {
        machine->table->close_calls(machine->lists + (edition - 1));
        for (size_t i = 0; i < machine->key_count; i++) machine->handles[edition][i] = NO_HANDLE;
    }
}

PyObject *machine_compact(machine_object *machine, PyObject *nothing) {
    uint32_t status;
    (void)nothing;
    if (begin_run(machine) < 0) return NULL;
    if (take_turn(&machine->inside) < 0) return end_writing(machine), NULL;
    drop_lists(machine);
    Py_BEGIN_ALLOW_THREADS
    status = machine->table->compact(&machine->machine);
    Py_END_ALLOW_THREADS
    if (!status) machine->floor = machine->top;
    pass_turn(&machine->inside);
    end_writing(machine);
    if (status) return raise_status(status);
    Py_RETURN_NONE;
}

PyObject *machine_replies(machine_object *machine, PyObject *nothing) {
    (void)nothing;
    if (begin_run(machine) < 0) return NULL;
    replies_object *pending = machine->pending;
    machine->pending = NULL;
    end_writing(machine);
    if (!pending) return (PyObject *)new_replies(machine->table, 0);
    if (!pending->older) return (PyObject *)pending;
    replies_object *joined = joined_replies(pending);
    if (!joined) keep(machine, pending);
    return (PyObject *)joined;
}

/* --- one call --- */

static void note(const char *text) {
    PyObject *kind, *error, *trace;
    PyErr_Fetch(&kind, &error, &trace);
    PyErr_NormalizeException(&kind, &error, &trace);
    PyObject *done = PyObject_CallFunction(note_on, "Os", error, text);
    if (!done) PyErr_Clear();
    Py_XDECREF(done);
    PyErr_Restore(kind, error, trace);
}

/* Keeps a reply that can't be returned. */
static PyObject *leave_lone(machine_object *machine, uint32_t behind, const bohm_reply *row, const int64_t *shown) {
    if (machine->has_lone) keep_lone(machine);
    machine->lone = *row;
    machine->lone_behind = behind;
    memcpy(machine->lone_values, shown, (size_t)row->shown * sizeof *shown);
    machine->has_lone = 1;
    note("the call ran: Machine.replies returns its reply");
    return NULL;
}

static PyObject *run_filled(procedure_object *procedure, const key_argument *keys, const int64_t *values) {
    machine_object *machine = procedure->machine;
    bohm_reply row;
    int64_t shown[BOHM_MOST_SHOWN];
    if (begin_run(machine) < 0) return NULL;
    if (take_turn(&machine->inside) < 0) return end_writing(machine), NULL;
    uint32_t behind = machine->top;
    int is_open = procedure->procedure.at != NULL;
    uint32_t status = is_open ? run_directly(procedure, keys, values, &row, shown) : BOHM_MISUSE;
    machine->top += !status;
    pass_turn(&machine->inside);
    end_writing(machine);
    if (!is_open) return PyErr_Format(closed_error, "the procedure is closed");
    if (status) return raise_status(status);
    PyObject *reply = make_reply(behind + 1, &row, shown);
    if (reply && !PyErr_CheckSignals()) return reply;
    Py_XDECREF(reply);
    return leave_lone(machine, behind, &row, shown);
}

PyObject *call_once(procedure_object *procedure, PyObject *args, PyObject *named) {
    key_argument keys[MOST_KEYS];
    int64_t values[MOST_VALUES];
    if (!procedure->machine) return PyErr_Format(closed_error, "the procedure is closed");
    if (fill_arguments(procedure, args, named, keys, values) < 0) return NULL;
    PyObject *reply = run_filled(procedure, keys, values);
    drop_arguments(keys, procedure->key_count);
    return reply;
}

/* --- batches --- */

typedef struct job {
    machine_object *machine;
    replies_object *replies;
    size_t batches, room, *ends;                                 /* the place behind each batch: a call's, or a byte's */
    int is_long;                                                 /* whether the interpreter's lock is released */
    uint32_t top;                                                /* the machine's, behind the last batch */
    uint32_t (*run)(struct job *job, size_t from, size_t to);    /* runs a batch, whose replies wait */
    call_object **calls;
    procedure_object *procedure;
    uint32_t *indices;
    int64_t *values;
    const char *text;
    char *piece;
    bohm_bytes line;
} job;

static void drop_job(job *job) {
    PyMem_Free(job->ends);
    PyMem_Free(job->calls);
    PyMem_Free(job->indices);
    PyMem_Free(job->values);
    PyMem_Free(job->piece);
}

/* Runs a batch and takes its replies. Needs the turns. */
static uint32_t run_batch(job *job, size_t from, size_t to) {
    machine_object *machine = job->machine;
    uint32_t behind = job->top, floor, status = job->run(job, from, to);
    if (status && status != BOHM_STOPPED) return status;
    machine->table->timestamps(&machine->machine, &floor, &job->top);
    if (job->top == behind) return status;
    chunk made;
    if (take_rows(machine, behind, &made)) return BOHM_KEPT;
    add_chunk(job->replies, made);
    return status;
}

/* Runs the batches: BOHM_DONE, another status, or -1 with an exception set. */
static int64_t run_batches(job *job) {
    int64_t status = BOHM_DONE;
    size_t from = 0;
    job->top = job->machine->top;
    for (size_t i = 0; !status && i < job->batches; i++) {
        if ((i && PyErr_CheckSignals() < 0) || take_turn(&job->machine->inside) < 0) return -1;
        if (job->is_long) {
            Py_BEGIN_ALLOW_THREADS
            status = run_batch(job, from, job->ends[i]);
            Py_END_ALLOW_THREADS
        } else {
            status = run_batch(job, from, job->ends[i]);
        }
        job->machine->top = job->top;
        pass_turn(&job->machine->inside);
        from = job->ends[i];
    }
    return status;
}

/* Sets the exception of a run that ended early, of which some transactions may have run. */
static PyObject *raise_stopped(job *job, int64_t status) {
    replies_object *replies = job->replies;
    size_t ran = replies->len;
    if (!ran) Py_CLEAR(job->replies);
    if ((status == BOHM_STOPPED || status == BOHM_NO_MEMORY) && ran) {
        PyObject *error = PyObject_CallFunctionObjArgs(stopped_for, replies, NULL);
        if (error) {
            Py_CLEAR(job->replies);
            PyErr_SetObject(stopped_for, error);
            Py_DECREF(error);
            return NULL;
        }
    } else if (status == BOHM_REFUSED) {
        raise_refusal(job->machine->table, &job->line);
    } else if (status > 0) {
        raise_status(status == BOHM_STOPPED ? BOHM_NO_MEMORY : (uint32_t)status);
    }
    if (job->replies) {
        keep(job->machine, job->replies);
        job->replies = NULL;
        char text[96];
        PyOS_snprintf(text, sizeof text, "%zu transactions ran: Machine.replies returns their replies", ran);
        note(text);
    }
    return NULL;
}

/* Runs a job, and ends the writing that its machine is in. */
static PyObject *run_job(job *job) {
    job->replies = new_replies(job->machine->table, job->batches);
    int64_t status = job->replies ? run_batches(job) : -1;
    end_writing(job->machine);
    if (!status && PyErr_CheckSignals() < 0) status = -1;
    if (!status) return (PyObject *)job->replies;
    return job->replies ? raise_stopped(job, status) : NULL;
}

static int has_timestamps(machine_object *machine, size_t count) {
    if (count <= LAST_TIMESTAMP - machine->top) return 1;
    raise_status(BOHM_TIMESTAMPS);
    return 0;
}

/* --- calls --- */

typedef struct {
    table_object *table;
    bohm_worker workers[BOHM_MOST_WORKERS];
} shared_calls;

static void work_at(void *given, uint32_t place) {
    shared_calls *shared = given;
    shared->table->work(&shared->workers[place]);
}

/* Runs the calls of a list, on the machine's threads if that takes less time. */
static uint32_t run_together(machine_object *machine, bohm_calls *list) {
    table_object *table = machine->table;
    shared_calls shared = {.table = table};
    uint32_t opened = 0, most = machine->threads.count + 1;
    uint32_t status = most > 1 ? table->share_calls(&machine->machine, list, most) : BOHM_IN_ORDER;
    if (status == BOHM_IN_ORDER || status == BOHM_NO_MEMORY) return table->run_calls_held(&machine->machine, list);
    if (status) return status;
    /* What has no worker, for want of memory, is run at the end. */
    while (opened < most && !table->open_worker(&machine->machine, &shared.workers[opened])) opened++;
    bohm_on_threads(&machine->threads, work_at, &shared, opened);
    return table->finish_calls(&machine->machine, list);
}

/* Runs the calls of a list, which is emptied. */
static uint32_t run_list(machine_object *machine, uint32_t edition) {
    bohm_calls *list = machine->lists + (edition - 1);
    uint32_t status = run_together(machine, list);
    machine->table->clear_calls(list);
    return status;
}

/* Fills the list of an edition with calls of it. Unless it is BOHM_DONE, the list is empty. */
static uint32_t fill_list(machine_object *machine, uint32_t edition, call_object **calls, size_t count) {
    uint32_t status = open_list(machine, edition);
    for (size_t i = 0; !status && i < count; i++) status = push_call(calls[i]->procedure, calls[i]->keys, call_values(calls[i]));
    if (status) machine->table->clear_calls(machine->lists + (edition - 1));
    return status;
}

static uint32_t run_calls(job *job, size_t from, size_t to) {
    uint32_t edition = job->calls[from]->procedure->edition;
    uint32_t status = fill_list(job->machine, edition, job->calls + from, to - from);
    return status ? status : run_list(job->machine, edition);
}

/* Ends the batch that is being made before a place. */
static int end_batch(job *job, size_t place) {
    if (job->batches == job->room) {
        size_t room = 2 * job->room + 16;
        size_t *ends = PyMem_Realloc(job->ends, room * sizeof *ends);
        if (!ends) return PyErr_NoMemory(), -1;
        job->ends = ends;
        job->room = room;
    }
    job->ends[job->batches++] = place;
    return 0;
}

/* A call at a place of a run of the machine; null with an exception set if it is none. */
static call_object *call_at(const machine_object *machine, PyObject *calls, size_t place) {
    PyObject *given = PyTuple_GetItem(calls, (Py_ssize_t)place);
    call_object *call = (call_object *)given;
    if (Py_TYPE(given) != call_type) PyErr_Format(PyExc_TypeError, "call %zu: %R is not a Call", place, given);
    else if (call->procedure->machine != machine) PyErr_Format(PyExc_ValueError, "call %zu: the procedure belongs to another machine", place);
    else if (!call->procedure->procedure.at) PyErr_Format(closed_error, "call %zu: the procedure is closed", place);
    else return call;
    return NULL;
}

/* Takes the calls of a tuple, in batches, each of one edition. */
static int take_calls(job *job, PyObject *calls, size_t count) {
    size_t begin = 0;
    job->calls = PyMem_Malloc((count ? count : 1) * sizeof *job->calls);
    if (!job->calls) return PyErr_NoMemory(), -1;
    for (size_t i = 0; i < count; i++) {
        call_object *call = job->calls[i] = call_at(job->machine, calls, i);
        if (!call) return -1;
        if (i - begin < BATCH && call->procedure->edition == job->calls[begin]->procedure->edition) continue;
        if (end_batch(job, i) < 0) return -1;
        begin = i;
    }
    return count ? end_batch(job, count) : 0;
}

/* Whether the calls can still be run, now that the machine can't change: a procedure may have been closed meanwhile. */
static int are_still_open(const job *job, PyObject *calls, size_t count, size_t closings) {
    size_t i = 0;
    while (closings != job->machine->closings && i < count && call_at(job->machine, calls, i)) i++;
    return !PyErr_Occurred();
}

PyObject *machine_run(machine_object *machine, PyObject *calls) {
    PyObject *all = PySequence_Tuple(calls), *replies = NULL;
    if (!all) return NULL;
    size_t count = (size_t)PyTuple_Size(all);
    job job = {.machine = machine, .run = run_calls, .is_long = count >= MANY_CALLS};
    size_t closings = machine->closings;
    if (!take_calls(&job, all, count) && !begin_run(machine)) {
        if (are_still_open(&job, all, count, closings) && has_timestamps(machine, count)) replies = run_job(&job);
        else end_writing(machine);
    }
    drop_job(&job);
    Py_DECREF(all);
    return replies;
}

/* The log that calls of one edition are, which fill a batch at most. Needs the turns. */
static uint32_t text_of_calls(job *job, size_t count, bohm_bytes *out) {
    machine_object *machine = job->machine;
    uint32_t edition = job->calls[0]->procedure->edition, status = fill_list(machine, edition, job->calls, count);
    if (status) return status;
    bohm_calls *list = machine->lists + (edition - 1);
    status = machine->table->calls_text(list, out);
    machine->table->clear_calls(list);
    return status;
}

/* The same as bytes. Ends the writing that the machine is in. */
static PyObject *made_text(job *job, size_t count) {
    bohm_bytes out = BOHM_NO_BYTES;
    uint32_t status;
    if (take_turn(&job->machine->inside) < 0) return end_writing(job->machine), NULL;
    Py_BEGIN_ALLOW_THREADS
    status = text_of_calls(job, count, &out);
    Py_END_ALLOW_THREADS
    pass_turn(&job->machine->inside);
    end_writing(job->machine);
    if (status) return raise_status(status);
    PyObject *text = PyBytes_FromStringAndSize((const char *)out.at, (Py_ssize_t)out.len);
    job->machine->table->free(out.at);
    return text;
}

PyObject *machine_calls_text(machine_object *machine, PyObject *calls) {
    if (!PyTuple_Check(calls)) return PyErr_Format(PyExc_TypeError, "a tuple of calls is expected");
    size_t count = (size_t)PyTuple_Size(calls), closings = machine->closings;
    job job = {.machine = machine};
    PyObject *text = NULL;
    int taken = take_calls(&job, calls, count);
    if (!taken && job.batches != 1) taken = -1, PyErr_SetString(PyExc_ValueError, "the calls are of two editions");
    if (!taken && !begin_run(machine)) {
        if (are_still_open(&job, calls, count, closings)) text = made_text(&job, count);
        else end_writing(machine);
    }
    drop_job(&job);
    return text;
}

/* --- columns --- */

static uint32_t run_columns(job *job, size_t from, size_t to) {
    machine_object *machine = job->machine;
    procedure_object *by = job->procedure;
    uint32_t handles[MOST_KEYS], edition = by->edition, status = open_list(machine, edition);
    size_t keys = (size_t)by->key_count, values = (size_t)by->value_count;
    bohm_calls *list = machine->lists + (edition - 1);
    for (size_t i = from; !status && i < to; i++) {
        for (size_t j = 0; !status && j < keys; j++) status = handle_of(machine, edition, job->indices[i * keys + j], handles + j);
        if (!status) status = machine->table->push_named(list, &by->procedure, handles, keys, job->values + i * values, values);
    }
    if (!status) return run_list(machine, edition);
    machine->table->clear_calls(list);
    return status;
}

static int take_columns(job *job, PyObject *columns, size_t count) {
    procedure_object *by = job->procedure;
    size_t keys = (size_t)by->key_count, values = (size_t)by->value_count;
    job->indices = PyMem_Malloc((count * keys + 1) * sizeof *job->indices);
    job->values = PyMem_Malloc((count * values + 1) * sizeof *job->values);
    if (!job->indices || !job->values) return PyErr_NoMemory(), -1;
    for (size_t i = 0; i < keys + values; i++) {
        PyObject *column = PyTuple_GetItem(columns, (Py_ssize_t)i);
        int is_key = i < keys;
        PyObject *name = PyTuple_GetItem(is_key ? by->keys : by->values, (Py_ssize_t)(is_key ? i : i - keys));
        uint32_t limit = (uint32_t)job->machine->key_count;
        if ((is_key ? read_indices(column, name, limit, job->indices + i, keys, count)
                    : read_values(column, name, job->values + (i - keys), values, count)) < 0)
            return -1;
    }
    return 0;
}

static int divide_evenly(job *job, size_t count) {
    job->batches = (count + BATCH - 1) / BATCH;
    job->ends = PyMem_Malloc((job->batches + 1) * sizeof *job->ends);
    if (!job->ends) return PyErr_NoMemory(), -1;
    for (size_t i = 0; i < job->batches; i++) job->ends[i] = i + 1 < job->batches ? (i + 1) * BATCH : count;
    return 0;
}

/* How many calls columns are: as many as the first one has. */
static Py_ssize_t count_of(procedure_object *by, PyObject *columns) {
    Py_ssize_t wanted = by->key_count + by->value_count;
    if (PyTuple_Size(columns) != wanted) {
        PyErr_Format(PyExc_TypeError, "%zd columns expected, %zd given", wanted, PyTuple_Size(columns));
        return -1;
    }
    if (!wanted) {
        PyErr_SetString(PyExc_TypeError, "a procedure without parameters has no columns");
        return -1;
    }
    return column_length(PyTuple_GetItem(columns, 0), PyTuple_GetItem(by->key_count ? by->keys : by->values, 0));
}

/* Takes calls that were read: their keys' places, and their values. Marks keys at places that are written as changed. */
static int take_read(job *job, const read_object *read, const uint8_t *writes, size_t writes_len) {
    machine_object *machine = job->machine;
    size_t keys = (size_t)read->procedure->key_count, values = (size_t)read->procedure->value_count;
    job->indices = PyMem_Malloc((read->count * keys + 1) * sizeof *job->indices);
    job->values = PyMem_Malloc((read->count * values + 1) * sizeof *job->values);
    if (!job->indices || !job->values) return PyErr_NoMemory(), -1;
    memcpy(job->values, read->values, read->count * values * sizeof *job->values);
    if (begin_reading(machine) < 0) return -1;
    int status = 0;
    for (size_t i = 0; !status && i < read->count * keys; i++) status = find_key(machine, read->keys[i].at, read->keys[i].len, job->indices + i);
    for (size_t i = 0; !status && i < read->count; i++)
        for (size_t j = 0; j < writes_len; j++) machine->changed[job->indices[i * keys + writes[j]]] = 1;
    end_reading(machine);
    return status;
}

/* Runs the calls of a job of one procedure. */
static PyObject *run_evenly(job *job, size_t count) {
    if (divide_evenly(job, count) < 0 || begin_run(job->machine) < 0) return NULL;
    if (!job->procedure->procedure.at) PyErr_SetString(closed_error, "the procedure is closed");
    if (job->procedure->procedure.at && has_timestamps(job->machine, count)) return run_job(job);
    end_writing(job->machine);
    return NULL;
}

PyObject *machine_run_read(machine_object *machine, PyObject *args) {
    PyObject *given;
    const char *writes;
    Py_ssize_t writes_len, at = 0;
    if (!PyArg_ParseTuple(args, "O!y#", read_type, &given, &writes, &writes_len)) return NULL;
    read_object *read = (read_object *)given;
    procedure_object *by = read->procedure;
    if (!by || by->machine != machine) return PyErr_Format(PyExc_ValueError, "the procedure belongs to another machine");
    while (at < writes_len && (uint8_t)writes[at] < by->key_count) at++;
    if (at < writes_len) return PyErr_Format(PyExc_ValueError, "the procedure has no key parameter %d", (uint8_t)writes[at]);
    job job = {.machine = machine, .run = run_columns, .procedure = by, .is_long = read->count >= MANY_CALLS};
    int taken = take_read(&job, read, (const uint8_t *)writes, (size_t)writes_len);
    PyObject *replies = taken < 0 ? NULL : run_evenly(&job, read->count);
    drop_job(&job);
    return replies;
}

PyObject *machine_run_columns(machine_object *machine, PyObject *args) {
    PyObject *given, *columns, *replies = NULL;
    if (!PyArg_ParseTuple(args, "O!O!", procedure_type, &given, &PyTuple_Type, &columns)) return NULL;
    procedure_object *by = (procedure_object *)given;
    if (by->machine != machine) return PyErr_Format(PyExc_ValueError, "the procedure belongs to another machine");
    Py_ssize_t count = count_of(by, columns);
    if (count < 0) return NULL;
    job job = {.machine = machine, .run = run_columns, .procedure = by, .is_long = count >= MANY_CALLS};
    if (!take_columns(&job, columns, (size_t)count)) replies = run_evenly(&job, (size_t)count);
    drop_job(&job);
    return replies;
}

/* --- texts --- */

#define HEAD 6 /* the bytes of `log 1` and its newline */

static uint32_t run_text(job *job, size_t from, size_t to) {
    machine_object *machine = job->machine;
    const char *text = job->text;
    size_t len = to;
    if (from) {
        memcpy(job->piece + HEAD, text + from, to - from);
        text = job->piece;
        len = HEAD + to - from;
    }
    return machine->table->apply_held(&machine->machine, (const uint8_t *)text, len, &job->line);
}

/* The place behind `count` transactions, or behind all that are left; *left is how many of `count` there weren't. */
static size_t behind_transactions(const char *text, size_t from, size_t len, size_t count, size_t *left) {
    for (; count; count--) {
        const char *end = memmem(text + from, len - from, "\nend\n", 5);
        if (!end) break;
        from = (size_t)(end - text) + 5;
    }
    *left = count;
    return from;
}

/* Divides a text into batches; one that is none but lines of transactions is left whole. */
static int divide_text(job *job, const char *text, size_t len, size_t *count) {
    size_t left = 0, room = len / (BATCH * 8) + 2, longest = 0;
    job->ends = PyMem_Malloc(room * sizeof *job->ends);
    if (!job->ends) return PyErr_NoMemory(), -1;
    *count = 0;
    for (size_t from = HEAD; !left && from < len && job->batches + 1 < room; *count += BATCH - left) {
        size_t end = behind_transactions(text, from, len, BATCH, &left);
        if (end - from > longest) longest = end - from;
        if (end > from) job->ends[job->batches++] = end;
        from = end;
    }
    if (job->batches < 2 || job->ends[job->batches - 1] != len) {
        job->batches = 1;
        job->ends[0] = len;
        return 0;
    }
    job->piece = PyMem_Malloc(HEAD + longest);
    if (!job->piece) return PyErr_NoMemory(), -1;
    memcpy(job->piece, text, HEAD);
    return 0;
}

/* Refuses a segment before a part of it runs: opening a machine on it reads and checks it, and then finds that it has
 * transactions. -1 with an exception set. */
static int check_text(job *job, const char *text, size_t len) {
    table_object *table = job->machine->table;
    bohm_machine other = {0};
    uint32_t status;
    Py_BEGIN_ALLOW_THREADS
    status = table->open(&other, job->machine->seed, (const uint8_t *)text, len, 0, &job->line);
    table->close(&other);
    Py_END_ALLOW_THREADS
    if (status == BOHM_HAS_LOG) return 0;
    if (status == BOHM_REFUSED) raise_refusal(table, &job->line);
    else raise_status(status);
    return -1;
}

static PyObject *apply_text(machine_object *machine, const char *text, size_t len) {
    PyObject *replies = NULL;
    size_t count = 0;
    job job = {.machine = machine, .run = run_text, .text = text, .is_long = len >= LONG_TEXT, .line = BOHM_NO_BYTES};
    int has_no_store = len > HEAD + 4 && !memcmp(text + HEAD, "txn\n", 4);
    int status = divide_text(&job, text, has_no_store ? len : 0, &count);
    if (!has_no_store && !status) job.ends[0] = len;
    if (!status && job.batches > 1) status = check_text(&job, text, len);
    if (!status && !begin_run(machine)) {
        if (job.batches < 2 || has_timestamps(machine, count)) replies = run_job(&job);
        else end_writing(machine);
    }
    drop_job(&job);
    return replies;
}

PyObject *machine_apply(machine_object *machine, PyObject *segment) {
    const char *text;
    size_t len;
    PyObject *held;
    if (bytes_of(segment, &text, &len, &held) < 0) return NULL;
    PyObject *replies = machine->table ? apply_text(machine, text, len) : PyErr_Format(closed_error, "the machine is closed");
    Py_DECREF(held);
    return replies;
}
