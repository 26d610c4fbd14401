/* The calls on whole texts and on indexes for Python, where a call of `ctypes` would take longer than the reading of a small text.
 *
 * By the stable interface of Python 3.11 and later alone. The package hands in the library's functions by `bind`, so that this and
 * `ctypes` call the same library. What it does for each call, `jx/_calls.py` does by `ctypes` where this is not built.
 *
 * The interpreter's lock is held in each call but for what takes long: readings of large texts, and the listing of children, for which
 * other calls on the same index wait. So no two calls use one index at once.
 */
#define PY_SSIZE_T_CLEAN
#define Py_LIMITED_API 0x030b0000
#include <Python.h>

#include <string.h>
#include <time.h>

#include "jx.h"

/* From so many bytes on, other threads of Python run while a text is read. */
#define WORTH_A_SWITCH 16384

/* The objects that the package handed in. */
static struct {
    __typeof__(&jx_check_non_null) check;
    __typeof__(&jx_compact_non_null) compact;
    __typeof__(&jx_at_non_null) at;
    __typeof__(&jx_index_new_non_null) index_new;
    __typeof__(&jx_index_find_non_null) index_find;
    __typeof__(&jx_index_row_non_null) index_row;
    __typeof__(&jx_index_free_non_null) index_free;
} library;

/* Raises what a status stands for; the callers have ruled out all others. */
static PyObject *fault(uint32_t status) {
    if (status == JX_NO_MEMORY) return PyErr_NoMemory();
    return PyErr_Format(PyExc_SystemError, "jx: status %u", status);
}

/* Raises a TypeError whose words end with the name of the object's type. */
static int wrong_type(const char *words, PyObject *found) {
    PyObject *name = PyType_GetName(Py_TYPE(found));
    if (name != NULL) {
        PyErr_Format(PyExc_TypeError, "%s%U", words, name);
        Py_DECREF(name);
    }
    return -1;
}

/* Reads the words depth, ignore_bom and unique_names. */
static int read_settings(PyObject *const *words, jx_settings *settings) {
    int overflow, ignore_bom, unique_names;
    long depth;
    if (!PyLong_Check(words[0]) || PyBool_Check(words[0])) return wrong_type("depth is an int, not ", words[0]);
    depth = PyLong_AsLongAndOverflow(words[0], &overflow);
    if (overflow != 0 || depth < 0 || depth > JX_DEPTH_MAX) {
        PyErr_Format(PyExc_ValueError, "depth is from 0 to %d, not %S", JX_DEPTH_MAX, words[0]);
        return -1;
    }
    ignore_bom = PyObject_IsTrue(words[1]);
    unique_names = PyObject_IsTrue(words[2]);
    if (ignore_bom < 0 || unique_names < 0) return -1;
    settings->depth = (uint32_t)depth;
    settings->flags = (ignore_bom ? JX_IGNORE_MARK : 0) | (unique_names ? JX_UNIQUE_NAMES : 0);
    return 0;
}

/* Holds the bytes of a buffer, so that the object refuses to be resized or closed. */
static int hold(PyObject *data, Py_buffer *held) {
    if (PyUnicode_Check(data)) {
        PyErr_SetString(PyExc_TypeError, "jx reads bytes, and this is a str: pass data.encode()");
        return -1;
    }
    return PyObject_GetBuffer(data, held, PyBUF_SIMPLE);
}

/* The library takes no null pointer, also where there are no bytes. */
static const uint8_t *bytes_of(const Py_buffer *held) {
    static const uint8_t none[1] = {0};
    return held->buf == NULL ? none : held->buf;
}

/* The bytes of a pointer. They live as long as the str. */
static const uint8_t *spelt(PyObject *pointer, Py_ssize_t *size) {
    if (!PyUnicode_Check(pointer)) {
        wrong_type("a pointer is a str, not ", pointer);
        return NULL;
    }
    return (const uint8_t *)PyUnicode_AsUTF8AndSize(pointer, size);
}

static int are_words(Py_ssize_t given, Py_ssize_t wanted) {
    if (given == wanted) return 1;
    PyErr_Format(PyExc_TypeError, "%zd words, not %zd", wanted, given);
    return 0;
}

/* None where a text is accepted, else the verdict's kind and offset. */
static PyObject *told(const jx_verdict *verdict) {
    if (verdict->kind == JX_ACCEPTED) return Py_NewRef(Py_None);
    return Py_BuildValue("(In)", verdict->kind, (Py_ssize_t)verdict->offset);
}

static PyObject *verdict(PyObject *Py_UNUSED(module), PyObject *const *words, Py_ssize_t count) {
    jx_settings settings;
    jx_verdict answer;
    Py_buffer held;
    uint32_t status;
    if (!are_words(count, 4) || read_settings(words + 1, &settings) < 0 || hold(words[0], &held) < 0) return NULL;
    if (held.len < WORTH_A_SWITCH) {
        status = library.check(bytes_of(&held), (size_t)held.len, &settings, &answer);
    } else {
        Py_BEGIN_ALLOW_THREADS
        status = library.check(bytes_of(&held), (size_t)held.len, &settings, &answer);
        Py_END_ALLOW_THREADS
    }
    PyBuffer_Release(&held);
    return status == JX_OK ? told(&answer) : fault(status);
}

/* compact(data, depth, ignore_bom, unique_names): the compact form of a text, or the verdict on what is none. */
static PyObject *compact(PyObject *Py_UNUSED(module), PyObject *const *words, Py_ssize_t count) {
    jx_settings settings;
    jx_verdict answer;
    Py_buffer held;
    PyObject *form = NULL;
    uint8_t *room;
    size_t size = 0;
    uint32_t status;
    if (!are_words(count, 4) || read_settings(words + 1, &settings) < 0 || hold(words[0], &held) < 0) return NULL;
    room = PyMem_Malloc((size_t)held.len);
    if (room == NULL) {
        PyBuffer_Release(&held);
        return PyErr_NoMemory();
    }
    if (held.len < WORTH_A_SWITCH) {
        status = library.compact(bytes_of(&held), (size_t)held.len, &settings, room, (size_t)held.len, &size, &answer);
    } else {
        Py_BEGIN_ALLOW_THREADS
        status = library.compact(bytes_of(&held), (size_t)held.len, &settings, room, (size_t)held.len, &size, &answer);
        Py_END_ALLOW_THREADS
    }
    PyBuffer_Release(&held);
    if (status != JX_OK) {
        fault(status);
    } else {
        form = answer.kind == JX_ACCEPTED ? PyBytes_FromStringAndSize((const char *)room, (Py_ssize_t)size) : told(&answer);
    }
    PyMem_Free(room);
    return form;
}

static PyObject *at(PyObject *Py_UNUSED(module), PyObject *const *words, Py_ssize_t count) {
    jx_settings settings;
    jx_answer answer;
    Py_buffer held;
    Py_ssize_t size;
    const uint8_t *pointer;
    uint32_t status;
    if (!are_words(count, 5) || read_settings(words + 2, &settings) < 0) return NULL;
    pointer = spelt(words[1], &size);
    if (pointer == NULL || hold(words[0], &held) < 0) return NULL;
    if (held.len < WORTH_A_SWITCH) {
        status = library.at(bytes_of(&held), (size_t)held.len, pointer, (size_t)size, &settings, &answer);
    } else {
        Py_BEGIN_ALLOW_THREADS
        status = library.at(bytes_of(&held), (size_t)held.len, pointer, (size_t)size, &settings, &answer);
        Py_END_ALLOW_THREADS
    }
    PyBuffer_Release(&held);
    if (status != JX_OK) return fault(status);
    return Py_BuildValue("(IKnn)", answer.outcome, (unsigned long long)answer.at, (Py_ssize_t)answer.span.start,
                         (Py_ssize_t)answer.span.end);
}

/* The index of a text, with the rows of each value's children once these are asked for. */
typedef struct Rows {
    PyObject_HEAD
    Py_buffer text;
    jx_index index;
    size_t count;
    /* Both null until the children of a value are asked for. Those of row n are children[firsts[n]] up to, but not including,
     * children[firsts[n + 1]]. Numbers of rows take four bytes, or eight where there are 2^32 or more. */
    void *firsts;
    void *children;
    int is_listing;
} Rows;

static PyTypeObject *rows_type;

static int is_wide(const Rows *rows) { return rows->count > UINT32_MAX; }

static size_t number_in(const Rows *rows, const void *list, size_t at) {
    return is_wide(rows) ? ((const uint64_t *)list)[at] : ((const uint32_t *)list)[at];
}

static void put_number(const Rows *rows, void *list, size_t at, size_t number) {
    if (is_wide(rows)) {
        ((uint64_t *)list)[at] = number;
    } else {
        ((uint32_t *)list)[at] = (uint32_t)number;
    }
}

static jx_row row_of(Rows *rows, size_t number) {
    jx_row row;
    memset(&row, 0, sizeof row);
    library.index_row(&rows->index, number, &row);
    return row;
}

/* The first number from 0 up to, but not including, `end` whose row starts at the offset or behind it. */
static size_t number_at(Rows *rows, size_t offset, size_t end) {
    size_t low = 0;
    while (low < end) {
        size_t middle = low + (end - low) / 2;
        if (row_of(rows, middle).span.start < offset) {
            low = middle + 1;
        } else {
            end = middle;
        }
    }
    return low;
}

/* How many rows there are: the library tells a row by its number, or that there is none. */
static size_t count_rows(Rows *rows) {
    jx_row row;
    size_t low = 1, high = 1;
    while (library.index_row(&rows->index, high, &row) == JX_OK) {
        low = high + 1;
        high *= 2;
    }
    while (low < high) {
        size_t middle = low + (high - low) / 2;
        if (library.index_row(&rows->index, middle, &row) == JX_OK) {
            low = middle + 1;
        } else {
            high = middle;
        }
    }
    return low;
}

/* Waits while another thread lists the children. */
static void settle(const Rows *rows) {
    static const struct timespec moment = {0, 1000000};
    while (rows->is_listing) {
        Py_BEGIN_ALLOW_THREADS
        nanosleep(&moment, NULL);
        Py_END_ALLOW_THREADS
    }
}

/* Counts the children of each row, then puts each child at its place. */
static void fill_lists(Rows *rows, void *firsts, void *children) {
    size_t number;
    for (number = 1; number < rows->count; number++) {
        size_t behind = row_of(rows, number).parent + 1;
        put_number(rows, firsts, behind, number_in(rows, firsts, behind) + 1);
    }
    for (number = 1; number <= rows->count; number++) {
        size_t before = number_in(rows, firsts, number - 1);
        put_number(rows, firsts, number, before + number_in(rows, firsts, number));
    }
    for (number = 1; number < rows->count; number++) {
        jx_row row = row_of(rows, number);
        put_number(rows, children, number_in(rows, firsts, row.parent) + row.place, number);
    }
}

/* Lists the children of all rows, if that is not done. */
static int list_children(Rows *rows) {
    size_t width = is_wide(rows) ? 8 : 4;
    void *firsts, *children;
    if (rows->firsts != NULL) return 0;
    firsts = PyMem_Calloc(rows->count + 1, width);
    children = PyMem_Calloc(rows->count, width);
    if (firsts == NULL || children == NULL) {
        PyMem_Free(firsts);
        PyMem_Free(children);
        PyErr_NoMemory();
        return -1;
    }
    rows->is_listing = 1;
    Py_BEGIN_ALLOW_THREADS
    fill_lists(rows, firsts, children);
    Py_END_ALLOW_THREADS
    rows->firsts = firsts;
    rows->children = children;
    rows->is_listing = 0;
    return 0;
}

/* index(data, depth, ignore_bom, unique_names): the rows of a text, or the verdict on what is none. */
static PyObject *index_of(PyObject *Py_UNUSED(module), PyObject *const *words, Py_ssize_t count) {
    jx_settings settings;
    jx_verdict answer;
    Rows *rows;
    uint32_t status;
    if (!are_words(count, 4) || read_settings(words + 1, &settings) < 0) return NULL;
    rows = PyObject_New(Rows, rows_type);
    if (rows == NULL) return NULL;
    memset((char *)rows + sizeof(PyObject), 0, sizeof *rows - sizeof(PyObject));
    if (hold(words[0], &rows->text) < 0) {
        Py_DECREF(rows);
        return NULL;
    }
    Py_BEGIN_ALLOW_THREADS
    status = library.index_new(bytes_of(&rows->text), (size_t)rows->text.len, &settings, &rows->index, &answer);
    Py_END_ALLOW_THREADS
    if (status != JX_OK || answer.kind != JX_ACCEPTED) {
        Py_DECREF(rows);
        return status == JX_OK ? told(&answer) : fault(status);
    }
    rows->count = count_rows(rows);
    return (PyObject *)rows;
}

static void free_rows(PyObject *self) {
    Rows *rows = (Rows *)self;
    PyTypeObject *type = Py_TYPE(self);
    library.index_free(&rows->index);
    PyMem_Free(rows->firsts);
    PyMem_Free(rows->children);
    if (rows->text.obj != NULL) PyBuffer_Release(&rows->text);
    PyObject_Free(self);
    Py_DECREF(type);
}

/* Reads the number of a row, and waits until the index may be used. */
static int read_number(Rows *rows, PyObject *word, size_t *number) {
    settle(rows);
    *number = PyLong_AsSize_t(word);
    if (PyErr_Occurred() != NULL) {
        if (!PyErr_ExceptionMatches(PyExc_OverflowError)) return -1;
        PyErr_Clear();
    } else if (*number < rows->count) {
        return 0;
    }
    PyErr_Format(PyExc_IndexError, "row %S of %zu", word, rows->count);
    return -1;
}

/* find(pointer): the number of a row, or an outcome and its place. */
static PyObject *find(PyObject *self, PyObject *pointer) {
    Rows *rows = (Rows *)self;
    jx_answer answer;
    Py_ssize_t size;
    const uint8_t *bytes = spelt(pointer, &size);
    uint32_t status;
    if (bytes == NULL) return NULL;
    settle(rows);
    status = library.index_find(&rows->index, bytes, (size_t)size, &answer);
    if (status != JX_OK) return fault(status);
    if (answer.outcome == JX_FOUND) return PyLong_FromSize_t(number_at(rows, answer.span.start, rows->count));
    return Py_BuildValue("(IK)", answer.outcome, (unsigned long long)answer.at);
}

/* row(number): kind, start and end of the value, start and end of its name, parent or None, place. */
static PyObject *row(PyObject *self, PyObject *word) {
    Rows *rows = (Rows *)self;
    size_t number;
    jx_row told_row;
    if (read_number(rows, word, &number) < 0) return NULL;
    told_row = row_of(rows, number);
    return Py_BuildValue("(InnnnNn)", told_row.kind, (Py_ssize_t)told_row.span.start, (Py_ssize_t)told_row.span.end,
                         (Py_ssize_t)told_row.name.start, (Py_ssize_t)told_row.name.end,
                         number == 0 ? Py_NewRef(Py_None) : PyLong_FromSize_t(told_row.parent), (Py_ssize_t)told_row.place);
}

/* kind(number): the kind of a value. */
static PyObject *kind(PyObject *self, PyObject *word) {
    Rows *rows = (Rows *)self;
    size_t number;
    if (read_number(rows, word, &number) < 0) return NULL;
    return PyLong_FromLong((long)row_of(rows, number).kind);
}

/* count(number): how many children a value has. */
static PyObject *count_children(PyObject *self, PyObject *word) {
    Rows *rows = (Rows *)self;
    size_t number;
    if (read_number(rows, word, &number) < 0 || list_children(rows) < 0) return NULL;
    return PyLong_FromSize_t(number_in(rows, rows->firsts, number + 1) - number_in(rows, rows->firsts, number));
}

/* child(number, place): the number of a child, whose place is below the count of children. */
static PyObject *child(PyObject *self, PyObject *const *words, Py_ssize_t count) {
    Rows *rows = (Rows *)self;
    size_t number, place, first;
    if (!are_words(count, 2) || read_number(rows, words[0], &number) < 0 || list_children(rows) < 0) return NULL;
    first = number_in(rows, rows->firsts, number);
    place = PyLong_AsSize_t(words[1]);
    if (PyErr_Occurred() != NULL) return NULL;
    if (place >= number_in(rows, rows->firsts, number + 1) - first) return PyErr_Format(PyExc_IndexError, "child %zu", place);
    return PyLong_FromSize_t(number_in(rows, rows->children, first + place));
}

/* members(number, name): the number of the member and how many have the name; or None where the names have to be decoded, since one
 * of them has an escape. */
static PyObject *members(PyObject *self, PyObject *const *words, Py_ssize_t count) {
    Rows *rows = (Rows *)self;
    size_t number, at_child, end, found = 0, times = 0;
    Py_ssize_t size;
    const uint8_t *name;
    if (!are_words(count, 2) || read_number(rows, words[0], &number) < 0 || list_children(rows) < 0) return NULL;
    name = spelt(words[1], &size);
    if (name == NULL) return NULL;
    end = number_in(rows, rows->firsts, number + 1);
    for (at_child = number_in(rows, rows->firsts, number); at_child < end; at_child++) {
        size_t member = number_in(rows, rows->children, at_child);
        jx_span span = row_of(rows, member).name;
        /* Without the quotation marks. */
        const uint8_t *bytes = bytes_of(&rows->text) + span.start + 1;
        size_t length = span.end - span.start - 2;
        if (memchr(bytes, '\\', length) != NULL) return Py_NewRef(Py_None);
        if (length == (size_t)size && memcmp(bytes, name, length) == 0) {
            found = member;
            times++;
        }
    }
    return Py_BuildValue("(nn)", (Py_ssize_t)found, (Py_ssize_t)times);
}

static Py_ssize_t length(PyObject *self) { return (Py_ssize_t)((Rows *)self)->count; }

static PyMethodDef rows_methods[] = {
    {"find", find, METH_O, NULL},
    {"row", row, METH_O, NULL},
    {"kind", kind, METH_O, NULL},
    {"count", count_children, METH_O, NULL},
    {"child", (PyCFunction)(void (*)(void))child, METH_FASTCALL, NULL},
    {"members", (PyCFunction)(void (*)(void))members, METH_FASTCALL, NULL},
    {NULL, NULL, 0, NULL},
};

static PyType_Slot rows_slots[] = {
    {Py_tp_dealloc, free_rows},
    {Py_tp_methods, rows_methods},
    {Py_sq_length, length},
    {0, NULL},
};

static PyType_Spec rows_spec = {
    .name = "jx._native.Rows",
    .basicsize = sizeof(Rows),
    .flags = Py_TPFLAGS_DEFAULT | Py_TPFLAGS_DISALLOW_INSTANTIATION | Py_TPFLAGS_IMMUTABLETYPE,
    .slots = rows_slots,
};

/* bind(address..): takes the library's functions, in the order of `library`. */
static PyObject *bind(PyObject *Py_UNUSED(module), PyObject *const *words, Py_ssize_t count) {
    void *addresses[sizeof library / sizeof(void *)];
    size_t each, all = sizeof library / sizeof(void *);
    if (!are_words(count, (Py_ssize_t)all)) return NULL;
    for (each = 0; each < all; each++) {
        addresses[each] = PyLong_AsVoidPtr(words[each]);
        if (PyErr_Occurred() != NULL) return NULL;
    }
    memcpy(&library, addresses, sizeof library);
    return Py_NewRef(Py_None);
}

static PyMethodDef methods[] = {
    {"bind", (PyCFunction)(void (*)(void))bind, METH_FASTCALL, NULL},
    {"verdict", (PyCFunction)(void (*)(void))verdict, METH_FASTCALL, NULL},
    {"compact", (PyCFunction)(void (*)(void))compact, METH_FASTCALL, NULL},
    {"at", (PyCFunction)(void (*)(void))at, METH_FASTCALL, NULL},
    {"index", (PyCFunction)(void (*)(void))index_of, METH_FASTCALL, NULL},
    {NULL, NULL, 0, NULL},
};

static struct PyModuleDef definition = {
    .m_base = PyModuleDef_HEAD_INIT,
    .m_name = "jx._native",
    .m_doc = "Calls of the C library without ctypes.",
    .m_size = -1,
    .m_methods = methods,
};

PyMODINIT_FUNC PyInit__native(void) {
    PyObject *module = PyModule_Create(&definition);
    if (module == NULL) return NULL;
    rows_type = (PyTypeObject *)PyType_FromSpec(&rows_spec);
    if (rows_type == NULL || PyModule_AddObjectRef(module, "Rows", (PyObject *)rows_type) < 0) {
        Py_DECREF(module);
        return NULL;
    }
    return module;
}
