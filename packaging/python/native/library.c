/* The functions of a library, by their addresses: Python's ctypes loads it, since it finds and names it in the same way
 * everywhere. */
#include "native.h"

#define NAMED(name) {"bohm_" #name, offsetof(table_object, name)},
static const struct {
    const char *name;
    size_t offset;
} places[] = {FUNCTIONS(NAMED)};

static int table_init(PyObject *self, PyObject *args, PyObject *named) {
    PyObject *addresses;
    static char *words[] = {"addresses", NULL};
    if (!PyArg_ParseTupleAndKeywords(args, named, "O", words, &addresses)) return -1;
    for (size_t i = 0; i < sizeof places / sizeof *places; i++) {
        PyObject *address = PyMapping_GetItemString(addresses, places[i].name);
        if (!address) return -1;
        *(void **)((char *)self + places[i].offset) = PyLong_AsVoidPtr(address);
        Py_DECREF(address);
        if (PyErr_Occurred()) return -1;
    }
    return 0;
}

static void table_dealloc(PyObject *self) {
    PyTypeObject *type = Py_TYPE(self);
    PyObject_Free(self);
    Py_DECREF(type);
}

static PyObject *table_answer(PyObject *self, PyObject *args) {
    table_object *table = (table_object *)self;
    Py_buffer text;
    const uint8_t *seed;
    Py_ssize_t seed_len;
    if (!PyArg_ParseTuple(args, "y#y*", &seed, &seed_len, &text)) return NULL;
    if (seed_len != 16) {
        PyBuffer_Release(&text);
        PyErr_SetString(PyExc_ValueError, "a seed has 16 bytes");
        return NULL;
    }
    bohm_bytes out = BOHM_NO_BYTES;
    uint32_t status;
    Py_BEGIN_ALLOW_THREADS
    status = table->answer(seed, text.buf, (size_t)text.len, &out);
    Py_END_ALLOW_THREADS
    PyBuffer_Release(&text);
    if (status == BOHM_REFUSED) return raise_refusal(table, &out);
    if (status) return raise_status(status);
    PyObject *answer = PyBytes_FromStringAndSize((const char *)out.at, (Py_ssize_t)out.len);
    table->free(out.at);
    return answer;
}

static PyMethodDef methods[] = {
    {"answer", table_answer, METH_VARARGS, "answer(seed, log): runs a whole log, and returns its answer's bytes."}, {0}};

static PyType_Slot slots[] = {
    {Py_tp_doc, "The functions of a loaded library, by their addresses."}, {Py_tp_init, table_init},
    {Py_tp_new, PyType_GenericNew}, {Py_tp_dealloc, table_dealloc}, {Py_tp_methods, methods}, {0}};

static PyType_Spec spec = {"bohm._native.Table", sizeof(table_object), 0, Py_TPFLAGS_DEFAULT, slots};

PyTypeObject *make_table_type(void) { return (PyTypeObject *)PyType_FromSpec(&spec); }
