/* Keys: their form, and those that a machine has looked up. */
#include "native.h"

static int is_letter(char byte) { return byte >= 'a' && byte <= 'z'; }
static int is_digit(char byte) { return byte >= '0' && byte <= '9'; }

int is_key(const char *at, size_t len) {
    if (!len || len > 32 || !is_letter(at[0])) return 0;
    for (size_t i = 1; i < len; i++)
        if (!is_letter(at[i]) && !is_digit(at[i]) && at[i] != '_') return 0;
    return 1;
}

static PyObject *copied_bytes(PyObject *text) {
    if (PyObject_CheckBuffer(text)) return PyBytes_FromObject(text);
    PyObject *name = PyObject_GetAttrString((PyObject *)Py_TYPE(text), "__name__");
    if (name) PyErr_Format(PyExc_TypeError, "a str or a bytes-like object is expected, not %S", name);
    Py_XDECREF(name);
    return NULL;
}

int bytes_of(PyObject *text, const char **at, size_t *len, PyObject **held) {
    Py_ssize_t size;
    if (PyUnicode_Check(text)) {
        *at = PyUnicode_AsUTF8AndSize(text, &size);
        if (!*at) return -1;
        Py_INCREF(text);
        *held = text;
    } else {
        if (PyBytes_Check(text)) Py_INCREF(text), *held = text;
        else *held = copied_bytes(text);
        if (!*held) return -1;
        *at = PyBytes_AsString(*held);
        size = PyBytes_Size(*held);
    }
    *len = (size_t)size;
    return 0;
}

int key_bytes(PyObject *key, const char **at, size_t *len, PyObject **held) {
    if (Py_TYPE(key) == key_type) key = ((key_object *)key)->name;
    if (bytes_of(key, at, len, held) < 0) return -1;
    if (is_key(*at, *len)) return 1;
    Py_CLEAR(*held);
    return 0;
}

uint32_t open_list(machine_object *machine, uint32_t edition) {
    bohm_calls *list = machine->lists + (edition - 1);
    return list->at ? BOHM_DONE : machine->table->open_calls_for(&machine->machine, list, edition);
}

uint32_t handle_of(machine_object *machine, uint32_t edition, uint32_t index, uint32_t *handle) {
    uint32_t *known = machine->handles[edition] + index;
    if (*known == NO_HANDLE) {
        const known_key *key = machine->keys + index;
        const uint8_t *at = (const uint8_t *)key->at;
        uint32_t status = edition ? machine->table->key_handle(machine->lists + (edition - 1), at, key->len, known)
                                  : machine->table->machine_key(&machine->machine, at, key->len, known);
        if (status) return status;
    }
    *handle = *known;
    return BOHM_DONE;
}

static int has_key_room(machine_object *machine) {
    if (machine->key_count < machine->key_room) return 1;
    size_t room = machine->key_room ? 2 * machine->key_room : 16;
    known_key *keys = room < NO_HANDLE ? PyMem_Realloc(machine->keys, room * sizeof *keys) : NULL;
    if (!keys) return 0;
    machine->keys = keys;
    for (int i = 0; i < 3; i++) {
        uint32_t *handles = PyMem_Realloc(machine->handles[i], room * sizeof *handles);
        if (!handles) return 0;
        machine->handles[i] = handles;
    }
    uint8_t *changed = PyMem_Realloc(machine->changed, room);
    if (!changed) return 0;
    machine->changed = changed;
    machine->key_room = room;
    return 1;
}

/* Appends a key to those that are known, and returns its place; null with an exception set. */
static PyObject *add_key(machine_object *machine, const char *at, size_t len, PyObject *bytes) {
    if (!has_key_room(machine)) return PyErr_NoMemory();
    known_key *key = machine->keys + machine->key_count;
    for (int i = 0; i < 3; i++) machine->handles[i][machine->key_count] = NO_HANDLE;
    machine->changed[machine->key_count] = 0;
    key->len = (uint32_t)len;
    memcpy(key->at, at, len);
    PyObject *index = PyLong_FromSize_t(machine->key_count);
    if (!index || PyDict_SetItem(machine->indices, bytes, index) < 0) {
        Py_XDECREF(index);
        return NULL;
    }
    machine->key_count++;
    return index;
}

/* The place of a key among those that are known, where it is put if it isn't there. A new reference. Needs a turn. */
static PyObject *looked_up(machine_object *machine, const char *at, size_t len) {
    PyObject *bytes = PyBytes_FromStringAndSize(at, (Py_ssize_t)len);
    if (!bytes) return NULL;
    PyObject *index = PyDict_GetItemWithError(machine->indices, bytes);
    if (index) Py_INCREF(index);
    else if (!PyErr_Occurred()) index = add_key(machine, at, len, bytes);
    Py_DECREF(bytes);
    return index;
}

static PyObject *index_of(machine_object *machine, const char *at, size_t len) {
    if (begin_reading(machine) < 0) return NULL;
    PyObject *index = looked_up(machine, at, len);
    end_reading(machine);
    return index;
}

/* Where a key's place is kept. Keys that have one hash only take longer. */
static size_t recent_slot(const char *at, size_t len) {
    uint32_t hash = 2166136261u;
    for (size_t i = 0; i < len; i++) hash = (hash ^ (uint8_t)at[i]) * 16777619u;
    return (hash ^ hash >> 15) % RECENT_KEYS;
}

int find_key(machine_object *machine, const char *at, size_t len, uint32_t *index) {
    uint32_t *recent = machine->recent + recent_slot(at, len);
    const known_key *key = *recent < machine->key_count ? machine->keys + *recent : NULL;
    if (!key || key->len != len || memcmp(key->at, at, len)) {
        PyObject *found = looked_up(machine, at, len);
        if (!found) return -1;
        *recent = (uint32_t)PyLong_AsUnsignedLong(found);
        Py_DECREF(found);
    }
    *index = *recent;
    return 0;
}

/* A key of a machine, at a place among its known ones. Takes the reference to the place. */
static PyObject *made_key(machine_object *machine, const char *at, size_t len, PyObject *index) {
    allocfunc alloc = (allocfunc)PyType_GetSlot(key_type, Py_tp_alloc);
    key_object *key = index ? (key_object *)alloc(key_type, 0) : NULL;
    if (key) {
        Py_INCREF(machine);
        key->machine = machine;
        key->index = (uint32_t)PyLong_AsUnsignedLong(index);
        key->name = PyUnicode_FromStringAndSize(at, (Py_ssize_t)len);
        if (!key->name) Py_CLEAR(key);
    }
    Py_XDECREF(index);
    return (PyObject *)key;
}

static PyObject *key_new(PyTypeObject *type, PyObject *args, PyObject *named) {
    static char *words[] = {"machine", "name", NULL};
    PyObject *machine, *name, *held;
    const char *at;
    size_t len;
    (void)type;
    if (!PyArg_ParseTupleAndKeywords(args, named, "O!O", words, machine_type, &machine, &name)) return NULL;
    int is = key_bytes(name, &at, &len, &held);
    if (is < 0) return NULL;
    if (!is) return PyErr_Format(no_key_error, "%R is not a key", name);
    PyObject *key = made_key((machine_object *)machine, at, len, index_of((machine_object *)machine, at, len));
    Py_DECREF(held);
    return key;
}

static int key_traverse(PyObject *self, visitproc visit, void *arg) {
    Py_VISIT(Py_TYPE(self));
    Py_VISIT((PyObject *)((key_object *)self)->machine);
    return 0;
}

static int key_clear(PyObject *self) {
    Py_CLEAR(((key_object *)self)->machine);
    return 0;
}

static void key_dealloc(PyObject *self) {
    PyTypeObject *type = Py_TYPE(self);
    PyObject_GC_UnTrack(self);
    key_clear(self);
    Py_XDECREF(((key_object *)self)->name);
    PyObject_GC_Del(self);
    Py_DECREF(type);
}

static PyObject *key_repr(PyObject *self) { return PyUnicode_FromFormat("<key %U>", ((key_object *)self)->name); }

static PyMemberDef members[] = {
    {"machine", T_OBJECT, offsetof(key_object, machine), READONLY, "The machine."},
    {"name", T_OBJECT, offsetof(key_object, name), READONLY, "The key's name."},
    {"handle", T_UINT, offsetof(key_object, index), READONLY, "The number that names the key in columns of this machine."},
    {0}};

static PyType_Slot slots[] = {
    {Py_tp_doc, "A key that a machine has looked up."}, {Py_tp_new, key_new},
    {Py_tp_traverse, key_traverse}, {Py_tp_clear, key_clear}, {Py_tp_dealloc, key_dealloc}, {Py_tp_repr, key_repr},
    {Py_tp_members, members}, {0}};

static PyType_Spec spec = {"bohm._native.Key", sizeof(key_object), 0, Py_TPFLAGS_DEFAULT | Py_TPFLAGS_HAVE_GC, slots};

PyTypeObject *make_key_type(void) { return (PyTypeObject *)PyType_FromSpec(&spec); }
