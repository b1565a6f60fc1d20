/* What is found in each text of a column of Arrow, as objects. Included once, by _native.c. */
#ifndef LITERAL_SEARCH_COLUMN_H
#define LITERAL_SEARCH_COLUMN_H

#include "_python.h"

#include "_arrow.h"
#include "_match.h"
#include "_prepared.h"
#include "_text.h"
#include "_walk.h"
#include "literal_search.h"

/* The bytes to search for a text, folded into a room that grows, if the searcher folds. */
static const uint8_t *searched_bytes(const Prepared *self, const uint8_t *bytes, size_t len, uint8_t **room,
                                     size_t *room_len) {
    if (self->takes != TAKES_FOLDED)
        return bytes;
    if (len > *room_len || !*room) {
        uint8_t *wider = PyMem_Realloc(*room, len + 64);
        if (!wider) {
            PyErr_NoMemory();
            return NULL;
        }
        *room = wider;
        *room_len = len + 64;
    }
    memcpy(*room, bytes, len);
    literal_fold(*room, len);
    return *room;
}

/* What is found in a text of the column: the number of matches, or the Match or None. */
static PyObject *found_in(Prepared *self, const Column *column, const uint8_t *text, size_t len, const uint8_t *bytes,
                          bool counts) {
    size_t words_len, count = 0;
    const uint32_t *words = array_of(self, &words_len);
    literal_match found;
    int32_t status;
    if (counts)
        status = self->whole_words
                     ? literal_count_words_in((uint32_t)self->kind, words, words_len, bytes, len, 0, len, &count)
                     : literal_count_in(words, words_len, bytes, len, 0, len, &count);
    else
        status = self->whole_words
                     ? literal_find_word_in((uint32_t)self->kind, words, words_len, bytes, len, 0, len, &found)
                     : literal_find_in(words, words_len, bytes, len, 0, len, &found);
    if (status != LITERAL_OK && status != LITERAL_NONE) {
        refuse(status);
        return NULL;
    }
    if (counts)
        return PyLong_FromSize_t(count);
    if (status == LITERAL_NONE)
        return Py_NewRef(Py_None);
    if (is_found(self, &found) < 0)
        return NULL;
    PyObject *of = object_of(column, text, len), *match = NULL;
    Place place = {0, 0};
    Text held;
    if (of && !hold(&held, self->takes, of)) {
        match = match_at(self, &held, &place, &found);
        give_back(&held);
    }
    Py_XDECREF(of);
    return match;
}

/* Whether a text goes to the call for one text: one whose search may take long, since that call looks for signals and lets
 * other threads run, and with whole words one with characters beyond ASCII. */
static bool goes_alone(const Prepared *self, const Column *column, const uint8_t *text, size_t len) {
    bool is_wide = false;
    for (size_t i = 0; self->whole_words && column->is_str && i < len && !is_wide; i++)
        is_wide = text[i] >= 0x80;
    return len > SHORT || is_wide;
}

static PyObject *search_find(PyObject *self, PyObject *const *given, Py_ssize_t count, PyObject *names);
static PyObject *search_count(PyObject *self, PyObject *const *given, Py_ssize_t count, PyObject *names);

/* The same by the call for one text: not by the method of a subclass, which short texts do not get. */
static PyObject *found_alone(Prepared *self, const Column *column, const uint8_t *text, size_t len, bool counts) {
    PyObject *of = object_of(column, text, len), *answer = NULL;
    if (of)
        answer = (counts ? search_count : search_find)((PyObject *)self, &of, 1, NULL);
    Py_XDECREF(of);
    return answer;
}

/* A text that is missing: nothing is found, or it is refused as None is. */
static PyObject *missing(const Prepared *self, bool skips, bool counts) {
    Text text;
    if (!skips && !hold(&text, self->takes, Py_None))
        give_back(&text);
    if (PyErr_Occurred())
        return NULL;
    return counts ? PyLong_FromLong(0) : Py_NewRef(Py_None);
}

/* Looks for signals, and lets other threads run, after so many bytes. */
static int pause_after(size_t *done, size_t len) {
    enum { OFTEN = 1 << 16, EACH = 64 /* (a text without bytes takes time too) */ };
    *done += len + EACH;
    if (*done < OFTEN)
        return 0;
    *done = 0;
    PyEval_RestoreThread(PyEval_SaveThread());
    return PyErr_CheckSignals();
}

/* Adds an answer to a list, or drops the list with an error. */
static void add_answer(PyObject **all, PyObject *one) {
    if (add_item(*all, one))
        Py_CLEAR(*all);
}

/* Adds what is found in each text of an array to a list, or drops the list with an error. */
static void add_each(Prepared *self, const Column *column, bool skips, bool counts, PyObject **all) {
    uint8_t *room = NULL;
    size_t room_len = 0, done = 0;
    for (size_t i = 0; *all && i < column->count; i++) {
        const uint8_t *text = NULL, *bytes;
        size_t len = 0;
        PyObject *one = NULL;
        int is_there = pause_after(&done, len) ? -1 : cell_of(column, i, &text, &len);
        if (is_there == 0)
            one = missing(self, skips, counts);
        else if (is_there == 1 && goes_alone(self, column, text, len))
            one = found_alone(self, column, text, len, counts);
        else if (is_there == 1 && (bytes = searched_bytes(self, text, len, &room, &room_len)))
            one = found_in(self, column, text, len, bytes, counts);
        done += len;
        add_answer(all, one);
    }
    PyMem_Free(room);
}

/* What is found in each text of a column, as a list. */
static PyObject *found_in_each(Prepared *self, Source *source, bool skips, bool counts) {
    PyObject *all = PyList_New(0);
    while (all && next_column(source) > 0)
        add_each(self, &source->column, skips, counts, &all);
    if (PyErr_Occurred())
        Py_CLEAR(all);
    return all;
}

/* Adds the texts of an array to a list as objects, and None for each that is missing; or drops the list with an error. */
static void add_texts(const Column *column, PyObject **all) {
    for (size_t i = 0; *all && i < column->count; i++) {
        const uint8_t *bytes = NULL;
        size_t len = 0;
        int is_there = cell_of(column, i, &bytes, &len);
        PyObject *one = is_there == 1 ? object_of(column, bytes, len) : is_there == 0 ? Py_NewRef(Py_None) : NULL;
        add_answer(all, one);
    }
}

/* The texts of a column as objects, and None for each that is missing. */
static PyObject *texts_of_column(Source *source) {
    PyObject *all = PyList_New(0);
    while (all && next_column(source) > 0)
        add_texts(&source->column, &all);
    if (PyErr_Occurred())
        Py_CLEAR(all);
    return all;
}

/* Whether the texts are of the type that a searcher takes. An empty one says so, or why not. */
static int check_type(const Prepared *self, const Column *column) {
    Text text;
    PyObject *empty = object_of(column, (const uint8_t *)"", 0);
    int status = empty ? hold(&text, self->takes, empty) : -1;
    if (empty && !status)
        give_back(&text);
    Py_XDECREF(empty);
    return status;
}

#endif
