/* The module: its types, and what it takes from bohm's Python modules. */
#include "native.h"

PyObject *error_for, *refusal_for, *stopped_for, *busy_error, *no_key_error, *closed_error, *note_on;
PyObject *reply_class, *replies_class, *reasons[5];
newfunc new_tuple;
static PyObject *tuple_new;
PyTypeObject *table_type, *replies_type, *key_type, *procedure_type, *call_type, *read_type, *machine_type;

/* Sets the exception that a function of bohm.errors makes. */
static PyObject *raise_made(PyObject *error) {
    if (!error) return NULL;
    PyErr_SetObject((PyObject *)Py_TYPE(error), error);
    Py_DECREF(error);
    return NULL;
}

PyObject *raise_status(uint32_t status) {
    return raise_made(PyObject_CallFunction(error_for, "k", (unsigned long)status));
}

PyObject *raise_refusal(table_object *table, bohm_bytes *report) {
    PyObject *error = PyObject_CallFunction(refusal_for, "y#", report->at ? (const char *)report->at : "", (Py_ssize_t)report->len);
    table->free(report->at);
    return raise_made(error);
}

/* Before Python 3.10 a static type's slots can't be had: then tuple.__new__ is called as Python calls it. */
static PyObject *new_by_name(PyTypeObject *type, PyObject *args, PyObject *named) {
    (void)named;
    return PyObject_CallFunctionObjArgs(tuple_new, type, PyTuple_GetItem(args, 0), NULL);
}

static int take(const char *module, const char *name, PyObject **into) {
    PyObject *from = PyImport_ImportModule(module);
    *into = from ? PyObject_GetAttrString(from, name) : NULL;
    Py_XDECREF(from);
    return *into ? 0 : -1;
}

static int take_all(void) {
    PyObject *outcomes = NULL;
    if (take("bohm.errors", "error_for", &error_for) || take("bohm.errors", "refusal_for", &refusal_for) ||
        take("bohm.errors", "StoppedError", &stopped_for) || take("bohm.errors", "BusyError", &busy_error) ||
        take("bohm.errors", "NoKeyError", &no_key_error) || take("bohm.errors", "ClosedError", &closed_error) ||
        take("bohm.errors", "note_on", &note_on) || take("bohm.replies", "Reply", &reply_class) ||
        take("bohm.replies", "REASONS", &outcomes))
        return -1;
    for (Py_ssize_t i = 0; i < 5; i++) reasons[i] = PySequence_GetItem(outcomes, i);
    Py_DECREF(outcomes);
    tuple_new = PyObject_GetAttrString((PyObject *)&PyTuple_Type, "__new__");
    new_tuple = (newfunc)PyType_GetSlot(&PyTuple_Type, Py_tp_new);
    if (!new_tuple) {
        PyErr_Clear();
        new_tuple = new_by_name;
    }
    return reasons[0] && reasons[1] && reasons[2] && reasons[3] && reasons[4] && tuple_new ? 0 : -1;
}

static PyObject *use_replies(PyObject *module, PyObject *class) {
    (void)module;
    Py_INCREF(class);
    Py_XDECREF(replies_class);
    replies_class = class;
    Py_RETURN_NONE;
}

static PyMethodDef functions[] = {
    {"use_replies", use_replies, METH_O, "Sets the class of the replies that calls return, a subclass of Rows."},
    {"summed", sum_of_hashes, METH_VARARGS, "The sum of a number and of the hashes of pairs of texts."},
    {0}};

static struct PyModuleDef definition = {
    PyModuleDef_HEAD_INIT, "bohm._native", "Machines and procedures over a library that is loaded.", -1, functions,
    NULL, NULL, NULL, NULL};

static int add_type(PyObject *module, const char *name, PyTypeObject *type) {
    if (!type) return -1;
    Py_INCREF(type);
    return PyModule_AddObject(module, name, (PyObject *)type);
}

__attribute__((visibility("default"))) PyObject *PyInit__native(void) {
    PyObject *module = PyModule_Create(&definition);
    if (!module || take_all() < 0) return NULL;
    if (add_type(module, "Table", table_type = make_table_type()) < 0 || add_type(module, "Rows", replies_type = make_replies_type()) < 0 ||
        add_type(module, "Machine", machine_type = make_machine_type()) < 0 || add_type(module, "Key", key_type = make_key_type()) < 0 ||
        add_type(module, "Procedure", procedure_type = make_procedure_type()) < 0 ||
        add_type(module, "Call", call_type = make_call_type()) < 0 || add_type(module, "ReadCalls", read_type = make_read_type()) < 0)
        return NULL;
    return use_replies(NULL, (PyObject *)replies_type), module;
}
