/* Matches as columns of numbers: of one text, or of many with the number of each text. Included once, by _native.c. */
#ifndef LITERAL_SEARCH_ROWS_H
#define LITERAL_SEARCH_ROWS_H

#include "_python.h"

#include <math.h>

#include "_arrow.h"
#include "_column.h"
#include "_match.h"
#include "_prepared.h"
#include "_text.h"
#include "_walk.h"

enum { FIRST_ROWS = 64 /* room for so many rows at first, and then for twice as many each time */ };

/* Rows of numbers, by columns: of many texts the first column has the numbers of the texts. */
typedef struct {
    int64_t *columns[SHOWN + 1];
    int width; /* how many columns there are */
    size_t count, room;
} Rows;

/* The type of the arrays, the code of their items, and the name of a method, which is looked up by the same object each
 * time. */
static PyObject *array_type, *array_code, *frombytes_name;

static int columns_ready(void) {
    PyObject *module = PyImport_ImportModule("array");
    array_type = module ? PyObject_GetAttrString(module, "array") : NULL;
    array_code = PyUnicode_InternFromString("q");
    frombytes_name = PyUnicode_InternFromString("frombytes");
    Py_XDECREF(module);
    return array_type && array_code && frombytes_name ? 0 : -1;
}

/* Makes room for more rows. */
static int widen_rows(Rows *rows) {
    const size_t most = PY_SSIZE_T_MAX / sizeof(int64_t);
    size_t room = rows->room > 0 ? 2 * rows->room : FIRST_ROWS;
    for (int i = 0; i < rows->width; i++) {
        int64_t *wider = room > most ? NULL : PyMem_Realloc(rows->columns[i], room * sizeof(int64_t));
        if (!wider) {
            PyErr_NoMemory();
            return -1;
        }
        rows->columns[i] = wider;
    }
    rows->room = room;
    return 0;
}

/* An array of the numbers of a column. */
static PyObject *array_of_column(const Rows *rows, int at) {
    PyObject *array = PyObject_CallOneArg(array_type, array_code), *none = NULL;
    Py_ssize_t size = (Py_ssize_t)(rows->count * sizeof(int64_t));
    PyObject *view = array && size > 0 ? PyMemoryView_FromMemory((char *)rows->columns[at], size, PyBUF_READ) : NULL;
    if (view)
        none = PyObject_CallMethodObjArgs(array, frombytes_name, view, NULL);
    Py_XDECREF(view);
    Py_XDECREF(none);
    if (array && size > 0 && !none)
        Py_CLEAR(array);
    return array;
}

/* The columns as a tuple of arrays, or nothing after an error. The rows are gone. */
static PyObject *rows_end(Rows *rows, int status) {
    PyObject *columns = status ? NULL : PyTuple_New(rows->width);
    for (int i = 0; i < rows->width; i++) {
        PyObject *array = columns ? array_of_column(rows, i) : NULL;
        if (array)
            PyTuple_SET_ITEM(columns, i, array);
        else
            Py_CLEAR(columns);
        PyMem_Free(rows->columns[i]);
    }
    return columns;
}

/* Adds all that a walk finds in a text, which has a number if there are many. */
static int add_all(Rows *rows, Walk *walk, size_t number) {
    int before = rows->width - SHOWN;
    size_t shown[SHOWN];
    const literal_match *found;
    while ((found = walk_next(walk))) {
        if (rows->count == rows->room && widen_rows(rows))
            return -1;
        show(&walk->text, &walk->place, found, shown);
        rows->columns[0][rows->count] = (int64_t)number;
        for (int i = 0; i < SHOWN; i++)
            rows->columns[before + i][rows->count] = (int64_t)shown[i];
        rows->count++;
    }
    return PyErr_Occurred() ? -1 : 0;
}

/* All that a walk finds in one text. */
static PyObject *columns_of(Walk *walk) {
    Rows rows = {.width = SHOWN};
    return rows_end(&rows, add_all(&rows, walk, 0));
}

/* ---- Many texts ---- */

/* Puts the number of a text before the message of a TypeError, ValueError or BufferError. */
static void name_row(size_t number) {
    PyObject *type, *value, *trace;
    PyErr_Fetch(&type, &value, &trace);
    PyErr_NormalizeException(&type, &value, &trace);
    bool is_unicode = PyErr_GivenExceptionMatches(type, PyExc_UnicodeError);
    if (type == PyExc_TypeError || type == PyExc_ValueError || type == PyExc_BufferError || is_unicode) {
        PyErr_Format(is_unicode ? PyExc_ValueError : type, "the text at index %zu: %S", number, value);
        Py_XDECREF(type);
        Py_XDECREF(value);
        Py_XDECREF(trace);
    } else {
        PyErr_Restore(type, value, trace);
    }
}

/* Adds all that is found in the text that a walk holds, and gives it back. */
static int add_held(Rows *rows, Walk *walk, size_t number) {
    Place front = {0, 0};
    int status = walk_from(walk, front, walk->text.len) ? -1 : add_all(rows, walk, number);
    give_back(&walk->text);
    return status;
}

/* Holds a text of a column: 1, or 0 if it is missing, or -1 with an error. Its bytes are searched where they are. To tell
 * the word characters beyond ASCII, they have to be right UTF-8, as those of a str. */
static int hold_cell(Text *text, const Prepared *self, const Column *column, size_t number) {
    const uint8_t *bytes;
    set_empty(text, column->is_str);
    int is_there = cell_of(column, number, &bytes, &text->len);
    if (is_there != 1)
        return is_there;
    text->bytes = text->shown = bytes;
    text->is_wide = column->is_str && characters(bytes, text->len) != text->len;
    if (!text->is_wide)
        return 1;
    if (!self->whole_words)
        return self->takes == TAKES_FOLDED && fold_copy(text) ? -1 : 1;
    PyObject *of = object_of(column, bytes, text->len);
    int status = of ? hold(text, self->takes, of) : -1;
    Py_XDECREF(of);
    return status ? -1 : 1;
}

/* Adds all that is found in the texts of an array, the first of which has a number. */
static int add_column(Rows *rows, Walk *walk, const Column *column, size_t first, bool skips) {
    size_t done = 0;
    for (size_t i = 0; i < column->count; i++) {
        int is_there = hold_cell(&walk->text, walk->search, column, i);
        if (is_there == 0 && !skips && !hold(&walk->text, walk->search->takes, Py_None))
            give_back(&walk->text);
        if (PyErr_Occurred()) {
            name_row(first + i);
            return -1;
        }
        size_t len = is_there ? walk->text.len : 0;
        if ((is_there && add_held(rows, walk, first + i)) || pause_after(&done, len))
            return -1;
    }
    return 0;
}

/* All that is found in the texts of a column of Arrow. */
static PyObject *columns_of_source(Prepared *self, PyObject *from, bool skips) {
    Source source;
    Rows rows = {.width = SHOWN + 1};
    Walk walk;
    if (hold_source(&source, from))
        return NULL;
    if (check_type(self, &source.column)) {
        give_back_source(&source);
        return NULL;
    }
    walk_for(&walk, self, false);
    set_empty(&walk.text, false);
    int status = 0, more;
    while (!status && (more = next_column(&source)))
        status = more < 0 ? -1 : add_column(&rows, &walk, &source.column, source.before, skips);
    walk_end(&walk);
    give_back_source(&source);
    return rows_end(&rows, status);
}

/* Whether a text is missing: None, NaN, or one more object. */
static bool is_missing(PyObject *text, PyObject *missing) {
    return text == Py_None || text == missing || (PyFloat_Check(text) && isnan(PyFloat_AsDouble(text)));
}

/* Adds all that is found in a text, unless it is missing. */
static int add_object(Rows *rows, Walk *walk, PyObject *text, size_t number, PyObject *missing, size_t *done) {
    size_t len = 0;
    if (!(missing && is_missing(text, missing))) {
        if (hold(&walk->text, walk->search->takes, text)) {
            name_row(number);
            return -1;
        }
        len = walk->text.len;
        if (add_held(rows, walk, number))
            return -1;
    }
    return pause_after(done, len);
}

/* All that is found in the texts of an iterable. Those that are missing are skipped, if there is an object that is. */
static PyObject *columns_of_texts(Prepared *self, PyObject *from, PyObject *missing) {
    PyObject *texts = PyObject_GetIter(from), *text;
    Rows rows = {.width = SHOWN + 1};
    Walk walk;
    if (!texts)
        return NULL;
    walk_for(&walk, self, false);
    set_empty(&walk.text, false);
    size_t done = 0;
    int status = 0;
    for (size_t i = 0; !status && (text = PyIter_Next(texts)); i++) {
        status = add_object(&rows, &walk, text, i, missing, &done);
        Py_DECREF(text);
    }
    walk_end(&walk);
    Py_DECREF(texts);
    return rows_end(&rows, PyErr_Occurred() ? -1 : status);
}

#endif
