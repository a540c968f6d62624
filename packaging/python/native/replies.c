/* Replies: rows and shown values as the library returns them, a chunk for each batch. */
#include <inttypes.h>

#include "native.h"

replies_object *new_replies(table_object *table, size_t room) {
    allocfunc alloc = (allocfunc)PyType_GetSlot((PyTypeObject *)replies_class, Py_tp_alloc);
    replies_object *replies = (replies_object *)alloc((PyTypeObject *)replies_class, 0);
    if (!replies) return NULL;
    Py_INCREF(table);
    replies->table = table;
    replies->room = room;
    replies->chunks = PyMem_Malloc((room ? room : 1) * sizeof(chunk));
    if (!replies->chunks) {
        Py_DECREF(replies);
        PyErr_NoMemory();
        return NULL;
    }
    return replies;
}

void add_chunk(replies_object *replies, chunk made) {
    made.start = replies->len;
    replies->chunks[replies->count++] = made;
    replies->len += made.len;
}

static void replies_dealloc(PyObject *self) {
    replies_object *replies = (replies_object *)self;
    PyTypeObject *type = Py_TYPE(self);
    for (size_t i = 0; i < replies->count; i++) {
        chunk *each = replies->chunks + i;
        void (*release_memory)(void *) = each->is_ours ? PyMem_Free : replies->table->free;
        release_memory(each->rows);
        release_memory(each->values);
    }
    PyMem_Free(replies->chunks);
    Py_XDECREF(replies->older);
    Py_XDECREF(replies->table);
    freefunc release = (freefunc)PyType_GetSlot(type, Py_tp_free);
    release(self);
    Py_DECREF(type);
}

static PyObject *shown_values(const int64_t *values, uint64_t count) {
    PyObject *shows = PyTuple_New((Py_ssize_t)count);
    if (!shows) return NULL;
    for (uint64_t i = 0; i < count; i++) {
        PyObject *value = PyLong_FromLongLong(values[i]);
        if (!value || PyTuple_SetItem(shows, (Py_ssize_t)i, value) < 0) {
            Py_DECREF(shows);
            return NULL;
        }
    }
    return shows;
}

/* The items of a reply. A part that is null has an exception set. */
static PyObject *fields_of(uint32_t timestamp, PyObject *shows, uint32_t outcome, uint32_t statement) {
    PyObject *parts[] = {PyLong_FromUnsignedLong(timestamp), shows, reasons[outcome], PyLong_FromUnsignedLong(statement)};
    PyObject *fields = parts[0] && shows && parts[3] ? PyTuple_New(4) : NULL;
    Py_INCREF(parts[2]);
    for (int i = 0; i < 4; i++)
        if (fields) PyTuple_SetItem(fields, i, parts[i]);
        else Py_XDECREF(parts[i]);
    return fields;
}

PyObject *make_reply(uint32_t timestamp, const bohm_reply *row, const int64_t *values) {
    PyObject *fields = fields_of(timestamp, shown_values(values, row->shown), row->outcome, row->statement);
    PyObject *args = fields ? PyTuple_New(1) : NULL;
    if (!args) {
        Py_XDECREF(fields);
        return NULL;
    }
    PyTuple_SetItem(args, 0, fields);
    PyObject *reply = new_tuple((PyTypeObject *)reply_class, args, NULL);
    Py_DECREF(args);
    return reply;
}

static Py_ssize_t replies_length(PyObject *self) { return (Py_ssize_t)((replies_object *)self)->len; }

static const chunk *chunk_of(const replies_object *replies, size_t index) {
    size_t low = 0, high = replies->count - 1;
    while (low < high) {
        size_t half = low + (high - low + 1) / 2;
        if (replies->chunks[half].start <= index) low = half;
        else high = half - 1;
    }
    return replies->chunks + low;
}

static PyObject *replies_item(PyObject *self, Py_ssize_t index) {
    replies_object *replies = (replies_object *)self;
    if (index < 0 || (size_t)index >= replies->len) {
        PyErr_SetString(PyExc_IndexError, "there is no such reply");
        return NULL;
    }
    const chunk *in = chunk_of(replies, (size_t)index);
    size_t place = (size_t)index - in->start;
    const bohm_reply *row = in->rows + place;
    return make_reply(in->behind + 1 + (uint32_t)place, row, row->shown ? in->values + row->first : NULL);
}

static PyObject *replies_slice(PyObject *self, PyObject *slice) {
    Py_ssize_t start, stop, step;
    if (PySlice_Unpack(slice, &start, &stop, &step) < 0) return NULL;
    Py_ssize_t count = PySlice_AdjustIndices(replies_length(self), &start, &stop, step);
    PyObject *list = PyList_New(count);
    for (Py_ssize_t i = 0; list && i < count; i++) {
        PyObject *reply = replies_item(self, start + i * step);
        if (!reply) Py_CLEAR(list);
        else PyList_SetItem(list, i, reply);
    }
    return list;
}

static PyObject *replies_get(PyObject *self, PyObject *place) {
    if (PySlice_Check(place)) return replies_slice(self, place);
    Py_ssize_t index = PyNumber_AsSsize_t(place, PyExc_IndexError);
    if (index == -1 && PyErr_Occurred()) return NULL;
    return replies_item(self, index < 0 ? index + replies_length(self) : index);
}

/* The line of a reply in the text of an answer. */
static PyObject *line_of(uint32_t timestamp, const bohm_reply *row, const int64_t *values) {
    static const char *const names[] = {"commit", "need", "fail", "absent", "range"};
    char small[256];
    /* A number has at most 20 characters, with its sign, and there is a space before it. */
    size_t room = 64 + 21 * (size_t)row->shown;
    char *line = room > sizeof small ? PyMem_Malloc(room) : small;
    if (!line) return PyErr_NoMemory();
    int end = row->outcome ? snprintf(line, room, "%" PRIu32 " abort %s %" PRIu32, timestamp, names[row->outcome], row->statement)
                           : snprintf(line, room, "%" PRIu32 " commit", timestamp);
    for (uint64_t i = 0; !row->outcome && i < row->shown; i++)
        end += snprintf(line + end, room - (size_t)end, " %" PRId64, values[i]);
    PyObject *made = PyUnicode_FromStringAndSize(line, end);
    if (line != small) PyMem_Free(line);
    return made;
}

static PyObject *replies_lines(PyObject *self, PyObject *unused) {
    (void)unused;
    replies_object *replies = (replies_object *)self;
    PyObject *list = PyList_New(replies_length(self));
    for (size_t i = 0; list && i < replies->count; i++) {
        const chunk *in = replies->chunks + i;
        for (size_t place = 0; list && place < in->len; place++) {
            const bohm_reply *row = in->rows + place;
            PyObject *line = line_of(in->behind + 1 + (uint32_t)place, row, row->shown ? in->values + row->first : NULL);
            if (!line) Py_CLEAR(list);
            else PyList_SetItem(list, (Py_ssize_t)(in->start + place), line);
        }
    }
    return list;
}

static PyMethodDef methods[] = {{"lines", replies_lines, METH_NOARGS, "The line of each."}, {0}};

static replies_object *reversed(replies_object *newest) {
    replies_object *oldest = NULL;
    while (newest) {
        replies_object *next = newest->older;
        newest->older = oldest;
        oldest = newest;
        newest = next;
    }
    return oldest;
}

replies_object *joined_replies(replies_object *newest) {
    size_t room = 0;
    for (replies_object *each = newest; each; each = each->older) room += each->count;
    replies_object *joined = new_replies(newest->table, room);
    if (!joined) return NULL;
    replies_object *oldest = reversed(newest);
    for (replies_object *each = oldest; each; each = each->older) {
        for (size_t i = 0; i < each->count; i++) add_chunk(joined, each->chunks[i]);
        each->count = 0;
    }
    Py_DECREF(oldest);
    return joined;
}

static PyType_Slot slots[] = {
    {Py_tp_doc, "The rows of replies."}, {Py_tp_dealloc, replies_dealloc}, {Py_tp_methods, methods}, {Py_sq_length, replies_length},
    {Py_sq_item, replies_item}, {Py_mp_length, replies_length}, {Py_mp_subscript, replies_get}, {0}};

static PyType_Spec spec = {"bohm._native.Rows", sizeof(replies_object), 0, Py_TPFLAGS_DEFAULT | Py_TPFLAGS_BASETYPE, slots};

PyTypeObject *make_replies_type(void) { return (PyTypeObject *)PyType_FromSpec(&spec); }
