/* Columns: buffers of whole numbers, an argument for each call. */
#include "native.h"

/* How a column's numbers are laid out. */
typedef struct {
    Py_buffer view;
    int is_signed;
    Py_ssize_t count, stride;
} column_view;

static int raise_no_column(PyObject *name) {
    PyErr_Format(PyExc_TypeError, "%U: a buffer of one dimension with whole numbers is expected", name);
    return -1;
}

static int open_column(PyObject *column, PyObject *name, column_view *opened) {
    if (PyObject_GetBuffer(column, &opened->view, PyBUF_STRIDES | PyBUF_FORMAT) < 0) return PyErr_Clear(), raise_no_column(name);
    Py_buffer *view = &opened->view;
    const char *format = view->format ? view->format : "B";
    if (*format && strchr("@=<", *format)) format++;
    int is_known = strlen(format) == 1 && strchr("bBhHiIlLqQnN", *format);
    if (!is_known || view->ndim != 1) {
        PyBuffer_Release(view);
        return raise_no_column(name);
    }
    opened->is_signed = *format >= 'a';
    opened->stride = view->strides[0];
    opened->count = view->shape[0];
    return 0;
}

Py_ssize_t column_length(PyObject *column, PyObject *name) {
    column_view opened;
    if (open_column(column, name, &opened) < 0) return -1;
    PyBuffer_Release(&opened.view);
    return opened.count;
}

/* A number of a column; 0 if it is above the greatest value. */
static int number_at(const column_view *column, Py_ssize_t place, int64_t *number) {
    const char *at = (const char *)column->view.buf + place * column->stride;
    union { int8_t b; uint8_t ub; int16_t h; uint16_t uh; int32_t i; uint32_t ui; int64_t q; uint64_t uq; } read = {.uq = 0};
    memcpy(&read, at, (size_t)column->view.itemsize);
    switch (column->view.itemsize) {
    case 1: *number = column->is_signed ? (int64_t)read.b : read.ub; return 1;
    case 2: *number = column->is_signed ? (int64_t)read.h : read.uh; return 1;
    case 4: *number = column->is_signed ? (int64_t)read.i : read.ui; return 1;
    default: *number = read.q; return column->is_signed || read.q >= 0;
    }
}

static int begin_column(PyObject *column, PyObject *name, size_t count, column_view *opened) {
    if (open_column(column, name, opened) < 0) return -1;
    if ((size_t)opened->count == count) return 0;
    PyErr_Format(PyExc_ValueError, "%U has %zd items, and the columns before it have %zu", name, opened->count, count);
    PyBuffer_Release(&opened->view);
    return -1;
}

int read_indices(PyObject *column, PyObject *name, uint32_t limit, uint32_t *into, size_t step, size_t count) {
    column_view opened;
    if (begin_column(column, name, count, &opened) < 0) return -1;
    int64_t number = 0;
    size_t done = 0;
    while (done < count && number_at(&opened, (Py_ssize_t)done, &number) && number >= 0 && number < limit)
        into[step * done++] = (uint32_t)number;
    if (done < count) PyErr_Format(PyExc_ValueError, "%U[%zu]: %lld is no handle of a key of this machine", name, done, (long long)number);
    PyBuffer_Release(&opened.view);
    return done < count ? -1 : 0;
}

int read_values(PyObject *column, PyObject *name, int64_t *into, size_t step, size_t count) {
    column_view opened;
    if (begin_column(column, name, count, &opened) < 0) return -1;
    size_t done = 0;
    while (done < count && number_at(&opened, (Py_ssize_t)done, into + step * done)) done++;
    if (done < count) PyErr_Format(PyExc_OverflowError, "%U[%zu] does not fit in 64 bits with a sign", name, done);
    PyBuffer_Release(&opened.view);
    return done < count ? -1 : 0;
}
