/* The patterns of a searcher, and a searcher as a collection of them. Included once, by _native.c. */
#ifndef LITERAL_SEARCH_PATTERNS_H
#define LITERAL_SEARCH_PATTERNS_H

#include "_python.h"

#include "_prepared.h"
#include "_replace.h"
#include "_text.h"

/* Whether this is a tuple of so many. */
static bool has_one_each(PyObject *of, size_t count) {
    return PyTuple_Check(of) && (size_t)PyTuple_GET_SIZE(of) == count;
}

/* The patterns as a tuple of str, or of bytes of no subclass. */
static PyObject *patterns_of(PyObject *given) {
    PyObject *many = PySequence_Tuple(given);
    Py_ssize_t count = many ? PyTuple_GET_SIZE(many) : 0, strs = 0;
    PyObject *patterns = many ? PyTuple_New(count) : NULL;
    for (Py_ssize_t i = 0; patterns && i < count; i++) {
        PyObject *it = PyTuple_GET_ITEM(many, i);
        PyObject *pattern = PyUnicode_Check(it) ? Py_NewRef(it) : plain_bytes(it, "a pattern");
        strs += PyUnicode_Check(it);
        if (pattern)
            PyTuple_SET_ITEM(patterns, i, pattern);
        else
            Py_CLEAR(patterns);
    }
    Py_XDECREF(many);
    if (patterns && strs > 0 && strs < count) {
        Py_CLEAR(patterns);
        PyErr_SetString(PyExc_TypeError, "the patterns are partly str and partly bytes");
    }
    return patterns;
}

/* ---- A searcher as a collection ---- */

static Py_ssize_t search_length(PyObject *of) {
    const Prepared *self = (Prepared *)of;
    return is_ready(self->takes) ? (Py_ssize_t)self->pieces.count : -1;
}

static PyObject *search_iter(PyObject *of) {
    Prepared *self = (Prepared *)of;
    return is_ready(self->takes) ? PyObject_GetIter(self->patterns) : NULL;
}

/* The set of the patterns, which is built when it is first needed. While it is built, methods of a subclass of str may
 * run, so another thread may have built it too. */
static PyObject *set_of(Prepared *self) {
    PyObject *made;
    if (self->set)
        return self->set;
    made = PyFrozenSet_New(self->patterns);
    if (made && self->set)
        Py_DECREF(made);
    else if (made)
        self->set = made;
    return made ? self->set : NULL;
}

/* Whether an object is one of the patterns. An object of another type is not compared with them: with Python's option -bb
 * comparing str with bytes is an error. */
static int search_contains(PyObject *of, PyObject *word) {
    Prepared *self = (Prepared *)of;
    if (!is_ready(self->takes))
        return -1;
    bool are_str = self->takes == TAKES_STR || self->takes == TAKES_FOLDED;
    if (self->pieces.count == 0 || PyUnicode_Check(word) != are_str || !(are_str || PyObject_CheckBuffer(word)))
        return 0;
    PyObject *plain = are_str ? Py_NewRef(word) : plain_bytes(word, "a pattern"), *set = plain ? set_of(self) : NULL;
    int is_in = set ? PySet_Contains(set, plain) : -1;
    Py_XDECREF(plain);
    return is_in;
}

#endif
