/* What a searcher holds, how its searches are prepared, and who runs meanwhile. Included once, by _native.c. */
#ifndef LITERAL_SEARCH_PREPARED_H
#define LITERAL_SEARCH_PREPARED_H

#include "_python.h"

#include "_text.h"
#include "literal_search.h"

enum { SCRATCH = 1 << 24 /* numbers, at most, for a search whose length is not known yet */ };

/* The patterns as they cross to C: one buffer, and where each ends. */
typedef struct {
    uint8_t *bytes;
    size_t *ends;
    size_t len, count, longest; /* (the longest pattern) */
} Pieces;

typedef struct {
    PyObject_HEAD
    PyObject *patterns; /* a tuple */
    PyObject *values;   /* what a mapping gives for each, as a tuple, or NULL without a mapping */
    Pieces pieces;      /* the patterns */
    PyObject *prepared; /* the array of the library, as bytes or as a view of a mapped file */
    Py_buffer mapped;   /* the buffer of that view, or without an object if it is bytes */
    PyObject *for_all;  /* the one for all that occurs, once it was asked for */
    PyObject *set;      /* the patterns as a set, once it was asked for */
    PyObject *checked;  /* the replacements that a stream was given last, as a tuple, or NULL */
    int kind;
    char ignore_case, whole_words, ascii_case; /* (only the case of A to Z, in a str too) */
    bool leads_on; /* whether a pattern or a value may lead back to what holds it */
    bool values_replace; /* whether each value was found to be of the patterns' type */
    Takes takes;
} Prepared;

/* Raises what a status other than success stands for. */
static int refuse(int32_t status) {
    switch (status) {
    case LITERAL_NO_SEARCHER:
        PyErr_SetString(PyExc_ValueError, "no search for these patterns: there are too many");
        break;
    case LITERAL_OUT_OF_MEMORY:
        PyErr_SetString(PyExc_MemoryError, "no memory for a search");
        break;
    case LITERAL_TOO_LARGE:
        PyErr_SetString(PyExc_OverflowError, "the table of a search for these patterns would be too large");
        break;
    case LITERAL_DAMAGED:
        PyErr_SetString(PyExc_ValueError, "the prepared search is damaged");
        break;
    default:
        PyErr_Format(PyExc_SystemError, "the library answers the status %d", (int)status);
    }
    return -1;
}

static void free_pieces(Pieces *pieces) {
    PyMem_Free(pieces->bytes);
    PyMem_Free(pieces->ends);
}

/* The bytes of a pattern: of a str those of its UTF-8, which Python keeps with it. */
static const char *bytes_of(PyObject *pattern, Py_ssize_t *len) {
    if (!PyUnicode_Check(pattern)) {
        *len = PyBytes_GET_SIZE(pattern);
        return PyBytes_AS_STRING(pattern);
    }
    const char *bytes = PyUnicode_AsUTF8AndSize(pattern, len);
    if (!bytes && PyErr_ExceptionMatches(PyExc_UnicodeEncodeError)) {
        PyErr_Clear();
        PyErr_Format(PyExc_ValueError, "the pattern %R has a lone surrogate, which is no character", pattern);
    }
    return bytes;
}

/* Joins patterns, which are str or bytes. None may be empty. */
static int join_pieces(Pieces *pieces, PyObject *of) {
    size_t count = (size_t)PyTuple_GET_SIZE(of), at = 0;
    Py_ssize_t len;
    *pieces = (Pieces){NULL, NULL, 0, count, 0};
    for (size_t i = 0; i < count; i++) {
        if (!bytes_of(PyTuple_GET_ITEM(of, i), &len))
            return -1;
        if (len == 0) {
            PyErr_Format(PyExc_ValueError, "no search for these patterns: the one at index %zu is empty", i);
            return -1;
        }
        pieces->len += (size_t)len;
    }
    pieces->bytes = PyMem_Malloc(pieces->len);
    pieces->ends = PyMem_New(size_t, count);
    if (!pieces->bytes || !pieces->ends) {
        free_pieces(pieces);
        PyErr_NoMemory();
        return -1;
    }
    for (size_t i = 0; i < count; i++) {
        const char *bytes = bytes_of(PyTuple_GET_ITEM(of, i), &len);
        memcpy(pieces->bytes + at, bytes, (size_t)len);
        pieces->ends[i] = at += (size_t)len;
        if ((size_t)len > pieces->longest)
            pieces->longest = (size_t)len;
    }
    return 0;
}

/* Whether all pieces are ASCII. */
static bool are_ascii(const Pieces *pieces) {
    uint8_t all = 0;
    for (size_t i = 0; i < pieces->len; i++)
        all |= pieces->bytes[i];
    return all < 0x80;
}

/* The kind of match that a searcher's array is prepared for: whole words are found by the longest. */
static uint32_t kind_for(const Prepared *self) {
    return self->whole_words ? LITERAL_LEFTMOST_LONGEST : (uint32_t)self->kind;
}

static int32_t prepare(const Prepared *self, const Pieces *pieces, bool for_all, void *words, size_t len,
                       size_t *needed) {
    int32_t status;
    PyThreadState *state = PyEval_SaveThread();
    if (for_all)
        status = literal_prepare_overlapping(self->ignore_case, pieces->bytes, pieces->len, pieces->ends, pieces->count,
                                             words, len, needed);
    else
        status = literal_prepare(kind_for(self), self->ignore_case, pieces->bytes, pieces->len, pieces->ends,
                                 pieces->count, words, len, needed);
    come_back(state);
    return status;
}

/* The likely number of entries in the array of a search for some pieces. A search for every occurrence has two more for
 * each piece. */
static size_t likely_len(const Pieces *pieces) {
    size_t len = literal_room(pieces->bytes, pieces->len, pieces->count) + 2 * pieces->count;
    return len < SCRATCH ? len : SCRATCH;
}

/* The array of a search for some pieces. How long it is turns out when it is written, so it is written where there is
 * likely room, and once more where that was too little. These bytes are written into, but Python shares only objects of
 * one byte or none, and this one has thousands. */
static PyObject *prepared_for(const Prepared *self, const Pieces *pieces, bool for_all) {
    size_t needed = likely_len(pieces);
    PyObject *prepared = NULL;
    int32_t status;
    do {
        size_t room = needed;
        Py_XDECREF(prepared);
        prepared = PyBytes_FromStringAndSize(NULL, (Py_ssize_t)(room * sizeof(uint32_t)));
        if (!prepared)
            return NULL;
        status = prepare(self, pieces, for_all, PyBytes_AS_STRING(prepared), room, &needed);
    } while (status == LITERAL_TOO_SHORT);
    if (status == LITERAL_OK) {
        resize_bytes(&prepared, (Py_ssize_t)(needed * sizeof(uint32_t)));
    } else {
        Py_CLEAR(prepared);
        refuse(status);
    }
    return prepared;
}

/* Makes the array for all that occurs, unless there is one: another thread may have made it in the meantime. */
static int prepare_for_all(Prepared *self) {
    if (self->whole_words) {
        PyErr_SetString(PyExc_ValueError,
                        "a searcher for whole words has no calls for overlapping or earliest occurrences: their search "
                        "does not look at the characters beside an occurrence");
        return -1;
    }
    PyObject *made = self->for_all ? NULL : prepared_for(self, &self->pieces, true);
    if (made && self->for_all)
        Py_DECREF(made);
    else if (made)
        self->for_all = made;
    return self->for_all ? 0 : -1;
}

static const uint32_t *words_of(PyObject *prepared, size_t *len) {
    *len = (size_t)PyBytes_GET_SIZE(prepared) / sizeof(uint32_t);
    return (const uint32_t *)(const void *)PyBytes_AS_STRING(prepared);
}

/* The array for matches that do not overlap. */
static const uint32_t *array_of(const Prepared *self, size_t *len) {
    if (!self->mapped.obj)
        return words_of(self->prepared, len);
    *len = (size_t)self->mapped.len / sizeof(uint32_t);
    return self->mapped.buf;
}

static void drop_prepared(Prepared *self) {
    if (self->mapped.obj)
        PyBuffer_Release(&self->mapped);
    Py_CLEAR(self->prepared);
}

/* Takes an array that was kept, if it is whole, and for the searcher's kind and as many patterns, of which the longest
 * has as many bytes. */
static void hold_kept(Prepared *self, PyObject *kept) {
    size_t len;
    literal_info info = {0};
    if (!PyBytes_Check(kept) && PyObject_GetBuffer(kept, &self->mapped, PyBUF_SIMPLE))
        return;
    self->prepared = Py_NewRef(kept);
    const uint32_t *words = array_of(self, &len);
    Py_ssize_t size = self->mapped.obj ? self->mapped.len : PyBytes_GET_SIZE(kept);
    bool is_cut = size % sizeof(uint32_t) != 0 || (uintptr_t)words % sizeof(uint32_t) != 0;
    int32_t status = is_cut ? LITERAL_DAMAGED : literal_check_prepared(words, len);
    if (status == LITERAL_OK)
        status = literal_prepared_info(words, len, &info);
    if (status != LITERAL_OK || info.kind != kind_for(self) || info.patterns != self->pieces.count ||
        info.longest != self->pieces.longest) {
        drop_prepared(self);
        refuse(LITERAL_DAMAGED);
    }
}

/* Returns 1 for a match of one of the searcher's patterns. Other matches are refused: they come only from an array that
 * was changed after it was checked, in a mapped file. */
static int is_found(const Prepared *self, const literal_match *found) {
    return found->pattern < self->pieces.count ? 1 : refuse(LITERAL_DAMAGED);
}

/* Whether no pattern can lead on: all are str or bytes, and of no subclass. */
static bool all_are_exact(PyObject *patterns) {
    for (Py_ssize_t i = 0; i < PyTuple_GET_SIZE(patterns); i++) {
        PyObject *it = PyTuple_GET_ITEM(patterns, i);
        if (!PyUnicode_CheckExact(it) && !PyBytes_CheckExact(it))
            return false;
    }
    return true;
}

#endif
