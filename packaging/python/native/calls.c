/* Procedures, and calls with their arguments. */
#include "native.h"

void drop_arguments(key_argument *keys, Py_ssize_t count) {
    for (Py_ssize_t i = 0; i < count; i++) Py_CLEAR(keys[i].object);
}

static PyObject *word_at(PyObject *words, Py_ssize_t place) { return PyTuple_GetItem(words, place); }

static int fill_key(procedure_object *procedure, Py_ssize_t place, PyObject *given, key_argument *key) {
    if (Py_TYPE(given) == key_type) {
        if (((key_object *)given)->machine != procedure->machine) {
            PyErr_SetString(PyExc_ValueError, "the key belongs to another machine");
            return -1;
        }
        Py_INCREF(given);
        *key = (key_argument){given, NULL, 0, ((key_object *)given)->index};
        return 0;
    }
    size_t len;
    int is = key_bytes(given, &key->at, &len, &key->object);
    if (!is) PyErr_Format(no_key_error, "%U: %R is not a key", word_at(procedure->keys, place), given);
    key->len = (uint32_t)len;
    key->index = NO_HANDLE;
    return is == 1 ? 0 : -1;
}

static int fill_value(procedure_object *procedure, Py_ssize_t place, PyObject *given, int64_t *value) {
    PyObject *name = word_at(procedure->values, place);
    if (!PyIndex_Check(given)) {
        PyObject *kind = PyObject_GetAttrString((PyObject *)Py_TYPE(given), "__name__");
        if (kind) PyErr_Format(PyExc_TypeError, "%U must be an int, not %S", name, kind);
        Py_XDECREF(kind);
        return -1;
    }
    PyObject *number = PyNumber_Index(given);
    if (!number) return -1;
    int over = 0;
    *value = PyLong_AsLongLongAndOverflow(number, &over);
    if (over) PyErr_Format(PyExc_OverflowError, "%U: %S does not fit in 64 bits", name, number);
    Py_DECREF(number);
    return over ? -1 : 0;
}

/* Puts the arguments at their parameters' places. -1 without an exception if they don't fit. */
static int place_arguments(procedure_object *procedure, PyObject *args, PyObject *named, PyObject **given, Py_ssize_t wanted) {
    Py_ssize_t count = PyTuple_Size(args), at = 0;
    if (count + (named ? PyDict_Size(named) : 0) != wanted) return -1;
    for (Py_ssize_t i = 0; i < wanted; i++) given[i] = i < count ? PyTuple_GetItem(args, i) : NULL;
    PyObject *word, *value;
    while (named && PyDict_Next(named, &at, &word, &value)) {
        PyObject *place = PyDict_GetItemWithError(procedure->places, word);
        if (!place) return -1;
        Py_ssize_t index = PyLong_AsSsize_t(place);
        if (given[index]) return -1;
        given[index] = value;
    }
    return 0;
}

/* Lets bohm's Python say why the arguments don't fit. */
static int raise_misfit(procedure_object *procedure, PyObject *args, PyObject *named) {
    if (PyErr_Occurred()) return -1;
    PyObject *said = PyObject_CallMethod((PyObject *)procedure, "_arguments", "OO", args, named ? named : Py_None);
    if (said) PyErr_SetString(PyExc_SystemError, "the arguments fit");
    Py_XDECREF(said);
    return -1;
}

int fill_arguments(procedure_object *procedure, PyObject *args, PyObject *named, key_argument *keys, int64_t *values) {
    PyObject *given[MOST_KEYS + MOST_VALUES];
    Py_ssize_t key_count = procedure->key_count, wanted = key_count + procedure->value_count;
    if (place_arguments(procedure, args, named, given, wanted) < 0) return raise_misfit(procedure, args, named);
    for (Py_ssize_t i = 0; i < wanted; i++) {
        int status = i < key_count ? fill_key(procedure, i, given[i], keys + i)
                                   : fill_value(procedure, i - key_count, given[i], values + (i - key_count));
        if (status < 0) {
            drop_arguments(keys, i < key_count ? i : key_count);
            return -1;
        }
    }
    return 0;
}

static int are_known(const procedure_object *procedure, const key_argument *keys) {
    Py_ssize_t known = 0;
    while (known < procedure->key_count && keys[known].index != NO_HANDLE) known++;
    return known == procedure->key_count;
}

static uint32_t handles_of(procedure_object *procedure, uint32_t edition, const key_argument *keys, uint32_t *handles) {
    uint32_t status = BOHM_DONE;
    for (Py_ssize_t i = 0; !status && i < procedure->key_count; i++)
        status = handle_of(procedure->machine, edition, keys[i].index, handles + i);
    return status;
}

static void names_of(procedure_object *procedure, const key_argument *keys, bohm_key *names) {
    for (Py_ssize_t i = 0; i < procedure->key_count; i++) {
        const known_key *key = keys[i].index == NO_HANDLE ? NULL : procedure->machine->keys + keys[i].index;
        names[i] = (bohm_key){(const uint8_t *)(key ? key->at : keys[i].at), key ? key->len : keys[i].len};
    }
}

uint32_t push_call(procedure_object *procedure, const key_argument *keys, const int64_t *values) {
    table_object *table = procedure->machine->table;
    uint32_t handles[MOST_KEYS], edition = procedure->edition;
    size_t key_count = (size_t)procedure->key_count, value_count = (size_t)procedure->value_count;
    bohm_calls *list = procedure->machine->lists + (edition - 1);
    bohm_key names[MOST_KEYS];
    if (!are_known(procedure, keys)) {
        names_of(procedure, keys, names);
        return table->push(list, &procedure->procedure, names, key_count, values, value_count);
    }
    uint32_t status = handles_of(procedure, edition, keys, handles);
    return status ? status : table->push_named(list, &procedure->procedure, handles, key_count, values, value_count);
}

uint32_t run_directly(procedure_object *procedure, const key_argument *keys, const int64_t *values, bohm_reply *row, int64_t *shown) {
    table_object *table = procedure->machine->table;
    bohm_machine *machine = &procedure->machine->machine;
    uint32_t handles[MOST_KEYS];
    size_t key_count = (size_t)procedure->key_count, value_count = (size_t)procedure->value_count;
    bohm_key names[MOST_KEYS];
    if (!are_known(procedure, keys)) {
        names_of(procedure, keys, names);
        return table->call(machine, &procedure->procedure, names, key_count, values, value_count, row, shown, BOHM_MOST_SHOWN);
    }
    uint32_t status = handles_of(procedure, 0, keys, handles);
    if (status) return status;
    return table->call_named(machine, &procedure->procedure, handles, key_count, values, value_count, row, shown, BOHM_MOST_SHOWN);
}

/* --- a call --- */

static call_object *new_call(procedure_object *procedure) {
    allocfunc alloc = (allocfunc)PyType_GetSlot(call_type, Py_tp_alloc);
    size_t bytes = (size_t)procedure->key_count * sizeof(key_argument) + (size_t)procedure->value_count * sizeof(int64_t);
    call_object *call = (call_object *)alloc(call_type, (Py_ssize_t)(bytes / CALL_UNIT));
    if (!call) return NULL;
    Py_INCREF(procedure);
    call->procedure = procedure;
    return call;
}

static PyObject *procedure_call(PyObject *self, PyObject *args, PyObject *named) {
    procedure_object *procedure = (procedure_object *)self;
    call_object *call = new_call(procedure);
    if (!call) return NULL;
    if (fill_arguments(procedure, args, named, call->keys, call_values(call)) < 0) {
        Py_DECREF(call);
        return NULL;
    }
    return (PyObject *)call;
}

static PyObject *call_new(PyTypeObject *type, PyObject *args, PyObject *named) {
    static char *words[] = {"procedure", "keys", "values", NULL};
    PyObject *procedure, *keys, *values;
    (void)type;
    if (!PyArg_ParseTupleAndKeywords(args, named, "O!OO", words, procedure_type, &procedure, &keys, &values)) return NULL;
    PyObject *first = PySequence_Tuple(keys), *second = first ? PySequence_Tuple(values) : NULL;
    PyObject *all = second ? PySequence_Concat(first, second) : NULL;
    PyObject *call = NULL;
    if (all && PyTuple_Size(first) == ((procedure_object *)procedure)->key_count) call = procedure_call(procedure, all, NULL);
    else if (all) PyErr_SetString(PyExc_TypeError, "another number of keys than the procedure has");
    Py_XDECREF(first);
    Py_XDECREF(second);
    Py_XDECREF(all);
    return call;
}

static PyObject *call_keys(PyObject *self, void *nothing) {
    call_object *call = (call_object *)self;
    PyObject *keys = PyTuple_New(call->procedure->key_count);
    (void)nothing;
    for (Py_ssize_t i = 0; keys && i < call->procedure->key_count; i++) {
        PyObject *key = call->keys[i].object;
        if (PyBytes_Check(key)) key = PyUnicode_FromStringAndSize(call->keys[i].at, (Py_ssize_t)call->keys[i].len);
        else Py_INCREF(key);
        if (!key || PyTuple_SetItem(keys, i, key) < 0) Py_CLEAR(keys);
    }
    return keys;
}

static PyObject *call_values_of(PyObject *self, void *nothing) {
    call_object *call = (call_object *)self;
    PyObject *values = PyTuple_New(call->procedure->value_count);
    (void)nothing;
    for (Py_ssize_t i = 0; values && i < call->procedure->value_count; i++) {
        PyObject *value = PyLong_FromLongLong(call_values(call)[i]);
        if (!value || PyTuple_SetItem(values, i, value) < 0) Py_CLEAR(values);
    }
    return values;
}

static PyObject *call_repr(PyObject *self) {
    PyObject *keys = call_keys(self, NULL), *values = keys ? call_values_of(self, NULL) : NULL;
    PyObject *text = values ? PyUnicode_FromFormat("Call(%R, %R, %R)", ((call_object *)self)->procedure, keys, values) : NULL;
    Py_XDECREF(keys);
    Py_XDECREF(values);
    return text;
}

static void call_dealloc(PyObject *self) {
    call_object *call = (call_object *)self;
    PyTypeObject *type = Py_TYPE(self);
    if (call->procedure) drop_arguments(call->keys, call->procedure->key_count);
    Py_XDECREF(call->procedure);
    PyObject_Free(self);
    Py_DECREF(type);
}

static PyMemberDef call_members[] = {
    {"procedure", T_OBJECT, offsetof(call_object, procedure), READONLY, "The procedure."}, {0}};
static PyGetSetDef call_getters[] = {
    {"keys", call_keys, NULL, "The keys, in the order of the parameters.", NULL},
    {"values", call_values_of, NULL, "The values, in the order of the parameters.", NULL},
    {0}};
static PyType_Slot call_slots[] = {
    {Py_tp_doc, "A procedure with its arguments."}, {Py_tp_new, call_new}, {Py_tp_dealloc, call_dealloc},
    {Py_tp_repr, call_repr}, {Py_tp_members, call_members}, {Py_tp_getset, call_getters}, {0}};
/* Without support for the collector of cycles, which would take as long for 100,000 calls as running them. So a machine that
 * has calls of its own among its attributes is freed by `close` alone. */
static PyType_Spec call_spec = {"bohm._native.Call", sizeof(call_object), CALL_UNIT, Py_TPFLAGS_DEFAULT, call_slots};

PyTypeObject *make_call_type(void) { return (PyTypeObject *)PyType_FromSpec(&call_spec); }

/* --- a procedure --- */

static PyObject *procedure_prepare(PyObject *self, PyObject *args) {
    procedure_object *procedure = (procedure_object *)self;
    PyObject *machine;
    Py_buffer text;
    if (procedure->machine) return PyErr_Format(PyExc_TypeError, "a procedure doesn't change");
    if (!PyArg_ParseTuple(args, "O!y*", machine_type, &machine, &text)) return NULL;
    machine_object *of = (machine_object *)machine;
    bohm_bytes report = BOHM_NO_BYTES;
    uint32_t status = 0;
    int begun = begin_reading(of);
    if (!begun) {
        status = of->table->prepare_report(&procedure->procedure, of->seed, text.buf, (size_t)text.len, &report);
        end_reading(of);
    }
    PyBuffer_Release(&text);
    if (begun < 0) return NULL;
    if (status == BOHM_REFUSED) return raise_refusal(of->table, &report);
    if (status) return raise_status(status);
    Py_INCREF(machine);
    procedure->machine = of;
    Py_RETURN_NONE;
}

/* The line and the text of a statement, or None if there is none with this number. */
static PyObject *procedure_statement(PyObject *self, PyObject *args) {
    procedure_object *procedure = (procedure_object *)self;
    unsigned int number;
    if (!PyArg_ParseTuple(args, "I", &number)) return NULL;
    if (!procedure->procedure.at) return PyErr_Format(closed_error, "the procedure is closed");
    size_t line;
    bohm_bytes text = BOHM_NO_BYTES;
    /* It is read with the interpreter's lock held, under which alone it is closed. */
    uint32_t status = procedure->machine->table->statement_text(&procedure->procedure, number, &line, &text);
    if (status == BOHM_UNFIT) Py_RETURN_NONE;
    if (status) return raise_status(status);
    PyObject *found = Py_BuildValue("ns#", (Py_ssize_t)line, (const char *)text.at, (Py_ssize_t)text.len);
    procedure->machine->table->free(text.at);
    return found;
}

static PyObject *procedure_describe(PyObject *self, PyObject *args) {
    procedure_object *procedure = (procedure_object *)self;
    PyObject *keys, *values, *places;
    unsigned int edition;
    if (!PyArg_ParseTuple(args, "IO!O!O!", &edition, &PyTuple_Type, &keys, &PyTuple_Type, &values, &PyDict_Type, &places)) return NULL;
    if (procedure->keys || PyTuple_Size(keys) > MOST_KEYS || PyTuple_Size(values) > MOST_VALUES || edition - 1 > 1)
        return PyErr_Format(PyExc_TypeError, "not what a procedure has");
    procedure->edition = edition;
    procedure->key_count = PyTuple_Size(keys);
    procedure->value_count = PyTuple_Size(values);
    Py_INCREF(keys), Py_INCREF(values), Py_INCREF(places);
    procedure->keys = keys, procedure->values = values, procedure->places = places;
    Py_RETURN_NONE;
}

static PyObject *procedure_close(PyObject *self, PyObject *nothing) {
    procedure_object *procedure = (procedure_object *)self;
    (void)nothing;
    if (!procedure->machine || !procedure->procedure.at) Py_RETURN_NONE;
    if (take_turn(&procedure->machine->writing) < 0) return NULL;
    procedure->machine->table->close_procedure(&procedure->procedure);
    procedure->machine->closings++;
    pass_turn(&procedure->machine->writing);
    Py_RETURN_NONE;
}

static PyObject *procedure_is_closed(PyObject *self, void *nothing) {
    (void)nothing;
    return PyBool_FromLong(!((procedure_object *)self)->procedure.at);
}

static int procedure_traverse(PyObject *self, visitproc visit, void *arg) {
    Py_VISIT(Py_TYPE(self));
    Py_VISIT((PyObject *)((procedure_object *)self)->machine);
    return 0;
}

static void procedure_dealloc(PyObject *self) {
    procedure_object *procedure = (procedure_object *)self;
    PyTypeObject *type = Py_TYPE(self);
    PyObject_GC_UnTrack(self);
    if (procedure->machine) procedure->machine->table->close_procedure(&procedure->procedure);
    Py_XDECREF(procedure->machine);
    Py_XDECREF(procedure->keys);
    Py_XDECREF(procedure->values);
    Py_XDECREF(procedure->places);
    freefunc release = (freefunc)PyType_GetSlot(type, Py_tp_free);
    release(self);
    Py_DECREF(type);
}

static PyObject *procedure_run(PyObject *self, PyObject *args, PyObject *named) {
    return call_once((procedure_object *)self, args, named);
}

static PyMemberDef procedure_members[] = {
    {"machine", T_OBJECT, offsetof(procedure_object, machine), READONLY, "The machine."},
    {"edition", T_UINT, offsetof(procedure_object, edition), READONLY, "The edition, 1 or 2."},
    {"keys", T_OBJECT, offsetof(procedure_object, keys), READONLY, "The key parameters' names."},
    {"values", T_OBJECT, offsetof(procedure_object, values), READONLY, "The value parameters' names."},
    {"_places", T_OBJECT, offsetof(procedure_object, places), READONLY, "The parameters' places, by their words."},
    {0}};
static PyGetSetDef procedure_getters[] = {{"closed", procedure_is_closed, NULL, "Whether it is closed.", NULL}, {0}};
static PyMethodDef procedure_methods[] = {
    {"_prepare", procedure_prepare, METH_VARARGS, "Reads and checks a text."},
    {"_statement", procedure_statement, METH_VARARGS, "The line and the text of a statement."},
    {"_describe", procedure_describe, METH_VARARGS, "Sets edition and parameters."},
    {"_read", procedure_read, METH_VARARGS, "Reads lines that are calls."},
    {"call", (PyCFunction)(void (*)(void))procedure_call, METH_VARARGS | METH_KEYWORDS, "A call with these arguments."},
    {"close", procedure_close, METH_NOARGS, "Frees the procedure. Does nothing if it is closed."},
    {0}};
static PyType_Slot procedure_slots[] = {
    {Py_tp_doc, "A procedure."}, {Py_tp_new, PyType_GenericNew}, {Py_tp_dealloc, procedure_dealloc},
    {Py_tp_traverse, procedure_traverse}, {Py_tp_call, procedure_run}, {Py_tp_members, procedure_members},
    {Py_tp_getset, procedure_getters}, {Py_tp_methods, procedure_methods}, {0}};
static PyType_Spec procedure_spec = {
    "bohm._native.Procedure", sizeof(procedure_object), 0, Py_TPFLAGS_DEFAULT | Py_TPFLAGS_BASETYPE | Py_TPFLAGS_HAVE_GC,
    procedure_slots};

PyTypeObject *make_procedure_type(void) { return (PyTypeObject *)PyType_FromSpec(&procedure_spec); }
