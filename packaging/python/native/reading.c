/* Calls as text: the lines of one procedure's calls, which are read and run together. */
#include "native.h"

/* The most bytes of an id, of a key, and of a value that is read here. */
#define LONGEST_ID 64
#define LONGEST_KEY 32
#define LONGEST_VALUE 18

/* What is left of a text. */
typedef struct {
    const char *at, *end;
} rest;

static int skips(rest *left, const char *word, size_t len) {
    if ((size_t)(left->end - left->at) < len || memcmp(left->at, word, len)) return 0;
    left->at += len;
    return 1;
}

/* The bytes from ! to ~ that come next. */
static size_t word_length(const rest *left) {
    const char *at = left->at;
    while (at < left->end && *at >= '!' && *at <= '~') at++;
    return (size_t)(at - left->at);
}

/* Reads an id with the space behind it, if there is one. Without one, *id is empty. */
static int read_id(rest *left, span *id) {
    *id = (span){left->at, 0};
    if (!skips(left, "#", 1)) return 1;
    size_t len = word_length(left);
    *id = (span){left->at, (uint32_t)len};
    if (!len || len > LONGEST_ID) return 0;
    left->at += len;
    return skips(left, " ", 1);
}

static int read_key(rest *left, span *key) {
    if (!skips(left, " ", 1)) return 0;
    size_t len = word_length(left);
    *key = (span){left->at, (uint32_t)len};
    left->at += len;
    return len <= LONGEST_KEY && is_key(key->at, len);
}

static int read_value(rest *left, int64_t *value) {
    if (!skips(left, " ", 1)) return 0;
    size_t len = word_length(left), sign = len && *left->at == '-', i = sign;
    const char *at = left->at;
    int64_t sum = 0;
    if (len == sign || len > LONGEST_VALUE || (at[sign] == '0' && len > 1)) return 0;
    for (; i < len && at[i] >= '0' && at[i] <= '9'; i++) sum = 10 * sum + (at[i] - '0');
    left->at += len;
    *value = sign ? -sum : sum;
    return i == len;
}

/* Reads a line that is a call, with its newline. */
static int read_line(read_object *read, rest *left, const char *name, size_t name_len, size_t place, span *id) {
    size_t keys = (size_t)read->procedure->key_count, values = (size_t)read->procedure->value_count;
    if (!skips(left, "call ", 5) || !read_id(left, id) || !skips(left, name, name_len)) return 0;
    for (size_t i = 0; i < keys; i++)
        if (!read_key(left, read->keys + place * keys + i)) return 0;
    for (size_t i = 0; i < values; i++)
        if (!read_value(left, read->values + place * values + i)) return 0;
    return skips(left, "\n", 1);
}

/* Reads all lines. 0 if one isn't an accepted call, or if they are other than so many; -1 with an exception set. */
static int read_lines(read_object *read, rest left, const char *name, size_t name_len) {
    for (size_t i = 0; i < read->count; i++) {
        span id;
        if (!read_line(read, &left, name, name_len, i, &id)) return 0;
        PyObject *made = PyUnicode_FromStringAndSize(id.at, id.len);
        if (!made || PyList_SetItem(read->ids, (Py_ssize_t)i, made) < 0) return -1;
    }
    return left.at == left.end;
}

static read_object *new_read(procedure_object *procedure, PyObject *text, size_t count) {
    allocfunc alloc = (allocfunc)PyType_GetSlot(read_type, Py_tp_alloc);
    read_object *read = (read_object *)alloc(read_type, 0);
    if (!read) return NULL;
    Py_INCREF(procedure), Py_INCREF(text);
    read->procedure = procedure;
    read->text = text;
    read->count = count;
    read->keys = PyMem_Malloc((count * (size_t)procedure->key_count + 1) * sizeof *read->keys);
    read->values = PyMem_Malloc((count * (size_t)procedure->value_count + 1) * sizeof *read->values);
    read->ids = PyList_New((Py_ssize_t)count);
    if (read->keys && read->values && read->ids) return read;
    if (!PyErr_Occurred()) PyErr_NoMemory();
    Py_DECREF(read);
    return NULL;
}

PyObject *procedure_read(PyObject *self, PyObject *args) {
    procedure_object *procedure = (procedure_object *)self;
    const char *name;
    Py_ssize_t name_len, count, len;
    PyObject *text;
    if (!PyArg_ParseTuple(args, "s#Un", &name, &name_len, &text, &count)) return NULL;
    const char *at = PyUnicode_AsUTF8AndSize(text, &len);
    if (!at) return NULL;
    /* Each call has six bytes at least. */
    if (count < 0 || count > len / 6 || !(procedure->key_count + procedure->value_count)) Py_RETURN_NONE;
    read_object *read = new_read(procedure, text, (size_t)count);
    int found = read ? read_lines(read, (rest){at, at + len}, name, (size_t)name_len) : -1;
    if (found > 0) return (PyObject *)read;
    Py_XDECREF(read);
    if (found < 0) return NULL;
    Py_RETURN_NONE;
}

static void read_dealloc(PyObject *self) {
    read_object *read = (read_object *)self;
    PyTypeObject *type = Py_TYPE(self);
    PyMem_Free(read->keys);
    PyMem_Free(read->values);
    Py_XDECREF(read->ids);
    Py_XDECREF(read->text);
    Py_XDECREF(read->procedure);
    PyObject_Free(self);
    Py_DECREF(type);
}

static PyMemberDef members[] = {
    {"ids", T_OBJECT, offsetof(read_object, ids), READONLY, "The id of each call, or an empty text."}, {0}};

static PyType_Slot slots[] = {
    {Py_tp_doc, "Calls of a procedure, read from their lines."}, {Py_tp_dealloc, read_dealloc}, {Py_tp_members, members}, {0}};

static PyType_Spec spec = {"bohm._native.ReadCalls", sizeof(read_object), 0, Py_TPFLAGS_DEFAULT, slots};

PyTypeObject *make_read_type(void) { return (PyTypeObject *)PyType_FromSpec(&spec); }
