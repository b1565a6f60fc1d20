/* Texts in which matches are replaced, or at which they are split. Included once, by _native.c. */
#ifndef LITERAL_SEARCH_REPLACE_H
#define LITERAL_SEARCH_REPLACE_H

#include "_python.h"

#include "_text.h"
#include "_walk.h"

/* What is written of an answer: on the stack while it is short, and then into an object, which becomes the answer if
 * that is bytes, or a str of ASCII. The object is always long: Python shares those of one byte or none. */
typedef struct {
    uint8_t *bytes, first[512];
    size_t len, room, likely; /* (how long it is likely to become) */
    PyObject *of;             /* the object, or NULL */
    bool is_str, is_ascii;
} Out;

static void out_begin(Out *out, const Text *text) {
    out->bytes = out->first;
    out->len = 0;
    out->room = sizeof out->first;
    out->likely = text->len + text->len / 16;
    out->of = NULL;
    out->is_str = text->is_str;
    out->is_ascii = WRITES_STR && text->is_str && !text->is_wide;
}

static void out_end(Out *out) {
    Py_CLEAR(out->of);
}

/* Gives the object so much room, or makes it. */
static int out_resize(Out *out, size_t room) {
    if (room > PY_SSIZE_T_MAX) {
        PyErr_NoMemory();
        return -1;
    }
    Py_ssize_t size = (Py_ssize_t)room;
    if (!out->of)
        out->of = out->is_ascii ? new_ascii(size) : PyBytes_FromStringAndSize(NULL, size);
    else if (out->is_ascii ? PyUnicode_Resize(&out->of, size) : resize_bytes(&out->of, size))
        return -1;
    if (!out->of)
        return -1;
    uint8_t *bytes = out->is_ascii ? ascii_of(out->of) : (uint8_t *)PyBytes_AS_STRING(out->of);
    if (out->bytes == out->first)
        memcpy(bytes, out->first, out->len);
    out->bytes = bytes;
    out->room = room;
    return 0;
}

/* Makes room for so many bytes more. */
static int out_widen(Out *out, size_t more) {
    size_t room = 2 * (out->len + more);
    return out_resize(out, room < out->likely ? out->likely : room);
}

/* Goes on with bytes: what follows is not ASCII. */
static int out_leave_ascii(Out *out) {
    PyObject *ascii = out->of;
    out->is_ascii = false;
    if (!ascii)
        return 0;
    out->of = PyBytes_FromStringAndSize(NULL, (Py_ssize_t)out->room);
    if (out->of)
        out->bytes = memcpy(PyBytes_AS_STRING(out->of), ascii_of(ascii), out->len);
    Py_DECREF(ascii);
    return out->of ? 0 : -1;
}

static inline int out_add(Out *out, const void *bytes, size_t len) {
    if (len > out->room - out->len && out_widen(out, len))
        return -1;
    if (len == 1) /* (as often between or in place of letters, where a call takes longer) */
        out->bytes[out->len] = *(const uint8_t *)bytes;
    else
        memcpy(out->bytes + out->len, bytes, len);
    out->len += len;
    return 0;
}

/* Adds a str, as UTF-8. */
static int out_add_str(Out *out, PyObject *str) {
    Py_ssize_t len;
    PyObject *encoded = NULL;
    const char *bytes = utf8_of(str, &len, &encoded);
    int status = -1;
    if (bytes && !(out->is_ascii && len != PyUnicode_GET_LENGTH(str) && out_leave_ascii(out)))
        status = out_add(out, bytes, (size_t)len);
    Py_XDECREF(encoded);
    return status;
}

/* What was written, as str or bytes. */
static PyObject *written(Out *out) {
    const char *bytes = (const char *)out->bytes;
    Py_ssize_t len = (Py_ssize_t)out->len;
    PyObject *answer;
    if (out->is_str && !out->is_ascii)
        return PyUnicode_DecodeUTF8(bytes, len, "surrogatepass");
    if (!out->of)
        return out->is_str ? PyUnicode_DecodeASCII(bytes, len, NULL) : PyBytes_FromStringAndSize(bytes, len);
    if (out_resize(out, out->len))
        return NULL;
    answer = out->of;
    out->of = NULL;
    return answer;
}

/* The bytes of a pattern or a replacement, as bytes of no subclass. */
static PyObject *plain_bytes(PyObject *of, const char *name) {
    Py_buffer buffer;
    if (PyBytes_CheckExact(of))
        return Py_NewRef(of);
    if (PyObject_CheckBuffer(of)) {
        if (PyObject_GetBuffer(of, &buffer, PyBUF_FULL_RO))
            return NULL;
        PyObject *bytes = has_objects(buffer.format) ? NULL : PyBytes_FromObject(of);
        PyBuffer_Release(&buffer);
        if (bytes || PyErr_Occurred())
            return bytes;
    }
    refuse_type(of, "%s is a str or lends plain bytes, and %.200U does neither", name);
    return NULL;
}

/* A replacement, if it has the type of the text. */
static PyObject *of_type(PyObject *replacement, bool is_str) {
    if (PyUnicode_Check(replacement) == is_str)
        return is_str ? Py_NewRef(replacement) : plain_bytes(replacement, "a replacement");
    refuse_type(replacement, "a replacement is %s as the text is, not %.200U", is_str ? "str" : "bytes");
    return NULL;
}

/* What replaces matches: a function, a tuple of as many replacements as there are patterns, or one replacement. The
 * types of a mapping's values are checked only once if all are str or bytes, which never change; and so are those that a
 * stream was given. */
static PyObject *replacements(Prepared *self, PyObject *given, bool is_str) {
    bool are_values = given == self->values && PyTuple_CheckExact(given);
    if (PyCallable_Check(given) || given == self->patterns || given == self->checked ||
        (are_values && self->values_replace))
        return Py_NewRef(given);
    if (!PyList_Check(given) && !PyTuple_Check(given))
        return of_type(given, is_str);
    PyObject *many = PySequence_Tuple(given);
    Py_ssize_t count = many ? PyTuple_GET_SIZE(many) : 0, patterns = PyTuple_GET_SIZE(self->patterns);
    PyObject *taken = many ? PyTuple_New(count) : NULL;
    if (taken && count != patterns) {
        PyErr_Format(PyExc_ValueError, "there are %zd replacements for %zd patterns", count, patterns);
        Py_CLEAR(taken);
    }
    for (Py_ssize_t i = 0; taken && i < count; i++) {
        PyObject *one = of_type(PyTuple_GET_ITEM(many, i), is_str);
        if (one)
            PyTuple_SET_ITEM(taken, i, one);
        else
            Py_CLEAR(taken);
    }
    Py_XDECREF(many);
    if (taken && are_values)
        self->values_replace = all_are_exact(given);
    return taken;
}

/* The replacement of a match. */
static PyObject *replacement_of(Walk *walk, PyObject *by, const literal_match *found) {
    if (!PyCallable_Check(by))
        return Py_NewRef(PyTuple_CheckExact(by) ? PyTuple_GET_ITEM(by, (Py_ssize_t)found->pattern) : by);
    PyObject *match = walk_match(walk, found), *said = match ? PyObject_CallOneArg(by, match) : NULL;
    PyObject *replacement = said ? of_type(said, walk->text.is_str) : NULL;
    Py_XDECREF(match);
    Py_XDECREF(said);
    return replacement;
}

/* What replaces each match, if it is the same for all: its bytes. */
typedef struct {
    const char *bytes; /* or NULL */
    Py_ssize_t len;
    PyObject *encoded; /* which has the bytes, or NULL if the replacement has them */
} Same;

static int same_for_all(Same *same, PyObject *by, Out *out) {
    *same = (Same){NULL, 0, NULL};
    if (PyCallable_Check(by) || PyTuple_CheckExact(by))
        return 0;
    if (PyUnicode_Check(by)) {
        same->bytes = utf8_of(by, &same->len, &same->encoded);
        out->is_ascii = out->is_ascii && same->bytes && same->len == PyUnicode_GET_LENGTH(by);
        return same->bytes ? 0 : -1;
    }
    same->bytes = PyBytes_AS_STRING(by);
    same->len = PyBytes_GET_SIZE(by);
    return 0;
}

/* Writes the text from a byte up to a match, and what replaces it. */
static int replace_one(Out *out, Walk *walk, PyObject *by, const Same *same, size_t at, const literal_match *found) {
    if (out_add(out, walk->text.shown + at, found->start - at))
        return -1;
    if (same->bytes)
        return out_add(out, same->bytes, (size_t)same->len);
    PyObject *one = replacement_of(walk, by, found);
    if (!one)
        return -1;
    int status = walk->text.is_str ? out_add_str(out, one)
                                   : out_add(out, PyBytes_AS_STRING(one), (size_t)PyBytes_GET_SIZE(one));
    Py_DECREF(one);
    return status;
}

/* The whole text, of no subclass, and no copy where nobody can change it. */
static PyObject *whole_of(const Text *text) {
    Place end = {text->len, text->is_str ? (size_t)PyUnicode_GET_LENGTH(text->of) : text->len};
    return part_of(text, (Place){0, 0}, end);
}

/* The text of a walk with at most so many matches replaced, from the left. */
static PyObject *replaced(Walk *walk, PyObject *by, size_t most, size_t *done) {
    Out out;
    size_t at = 0;
    const literal_match *found = NULL;
    PyObject *answer = NULL;
    Same same;
    out_begin(&out, &walk->text);
    if (same_for_all(&same, by, &out))
        return NULL;
    for (*done = 0; *done < most && (found = walk_next(walk)); (*done)++) {
        if (replace_one(&out, walk, by, &same, at, found))
            break;
        at = found->end;
    }
    if (!PyErr_Occurred()) {
        if (*done == 0)
            answer = whole_of(&walk->text);
        else if (!out_add(&out, walk->text.shown + at, walk->text.len - at))
            answer = written(&out);
    }
    out_end(&out);
    Py_XDECREF(same.encoded);
    return answer;
}

/* What is searched of a part of a text, with all matches replaced. */
static PyObject *part_replaced(Walk *walk, PyObject *by) {
    Out out;
    size_t at = walk->start;
    const literal_match *found = NULL;
    PyObject *answer = NULL;
    Same same;
    out_begin(&out, &walk->text);
    if (same_for_all(&same, by, &out))
        return NULL;
    while ((found = walk_next(walk)) && !replace_one(&out, walk, by, &same, at, found))
        at = found->end;
    if (!PyErr_Occurred()) {
        searched_to(walk);
        if (!out_add(&out, walk->text.shown + at, walk->place.byte - at))
            answer = written(&out);
    }
    out_end(&out);
    Py_XDECREF(same.encoded);
    return answer;
}

/* The parts of the text of a walk before, between and behind at most so many matches. */
static PyObject *split_up(Walk *walk, size_t most) {
    PyObject *parts = PyList_New(0);
    Place at = {0, 0};
    const literal_match *found = NULL;
    for (size_t done = 0; parts && done < most && (found = walk_next(walk)); done++) {
        Place start = at;
        offset_of(&walk->text, &start, found->start);
        if (add_item(parts, part_of(&walk->text, at, start)))
            Py_CLEAR(parts);
        at = start;
        offset_of(&walk->text, &at, found->end);
    }
    Place end = at;
    offset_of(&walk->text, &end, walk->text.len);
    if (parts && (PyErr_Occurred() || add_item(parts, part_of(&walk->text, at, end))))
        Py_CLEAR(parts);
    return parts;
}

/* How many matches are wanted at most. By 0 all are. */
static int most_of(PyObject *given, const char *name, size_t *most) {
    Py_ssize_t count = given ? PyNumber_AsSsize_t(given, NULL) : 0;
    if (count == -1 && PyErr_Occurred())
        return -1;
    if (count < 0) {
        PyErr_Format(PyExc_ValueError, "%s is negative", name);
        return -1;
    }
    *most = count == 0 ? SIZE_MAX : (size_t)count;
    return 0;
}

#endif
