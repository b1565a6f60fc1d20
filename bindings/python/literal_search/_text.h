/* Texts of Python: how they are held, and how offsets in them are counted. Included once, by _native.c. */
#ifndef LITERAL_SEARCH_TEXT_H
#define LITERAL_SEARCH_TEXT_H

#include "_python.h"

#include "literal_search.h"

#define ONES UINT64_C(0x0101010101010101)

enum { SHORT = 1 << 12 /* bytes whose search takes less time than it takes to let another thread run */ };

/* Of which type the texts of a searcher are, as its patterns are. TAKES_FOLDED: they are str, and are folded. */
typedef enum { NOT_PREPARED, TAKES_EITHER, TAKES_BYTES, TAKES_STR, TAKES_FOLDED } Takes;

/* A place in a text: how many bytes, and how many of what its offsets count, stand before it. */
typedef struct {
    size_t byte;
    size_t offset;
} Place;

/* A text that is held, and its bytes. */
typedef struct {
    PyObject *of;     /* the text, or NULL once it is given back */
    Py_buffer buffer; /* its buffer, unless it is a str */
    PyObject *encoded; /* the bytes of a str with a lone surrogate, or NULL */
    uint8_t *folded;   /* the folded bytes of a str, or NULL */
    uint8_t *sides;    /* those that count next to a whole word, or NULL for those that are searched */
    Place made;        /* up to where the sides are made */
    const uint8_t *bytes, *shown; /* those that are searched, and those of the text itself: two arrays if it is folded */
    size_t len;
    bool is_str;
    bool is_wide; /* whether it is a str in which a character has more than one byte */
} Text;

/* Whether a buffer's items are, or hold, objects: their bytes are addresses. */
static bool has_objects(const char *format) {
    bool in_name = false; /* a field's name stands between colons */
    for (; format && *format; format++) {
        if (*format == ':')
            in_name = !in_name;
        else if (*format == 'O' && !in_name)
            return true;
    }
    return false;
}

static int hold_buffer(Text *text, PyObject *of) {
    if (!PyObject_CheckBuffer(of)) {
        refuse_type(of, "%s is a str or lends its bytes, and %.200U does neither", "a text");
        return -1;
    }
    if (PyObject_GetBuffer(of, &text->buffer, PyBUF_FULL_RO))
        return -1;
    if (!PyBuffer_IsContiguous(&text->buffer, 'C') || has_objects(text->buffer.format)) {
        PyBuffer_Release(&text->buffer);
        PyErr_SetString(PyExc_BufferError,
                        "a text lends plain bytes, one after another: no view with gaps, and no array of objects");
        return -1;
    }
    text->bytes = text->shown = text->buffer.buf;
    text->len = (size_t)text->buffer.len;
    text->of = Py_NewRef(of);
    return 0;
}

/* The bytes of a str as UTF-8, and those of each lone surrogate as of another character: names of files may have some.
 * Python keeps the bytes with the str, or else they are new, and `encoded` has them. */
static const char *utf8_of(PyObject *str, Py_ssize_t *len, PyObject **encoded) {
    const char *bytes = PyUnicode_AsUTF8AndSize(str, len);
    if (bytes || !PyErr_ExceptionMatches(PyExc_UnicodeEncodeError))
        return bytes;
    PyErr_Clear();
    *encoded = PyUnicode_AsEncodedString(str, "utf-8", "surrogatepass");
    if (!*encoded)
        return NULL;
    *len = PyBytes_GET_SIZE(*encoded);
    return PyBytes_AS_STRING(*encoded);
}

/* Lets other threads run during a search of so many bytes, if it is long. */
static PyThreadState *let_others_run(size_t len) {
    return len > SHORT ? PyEval_SaveThread() : NULL;
}

static void come_back(PyThreadState *state) {
    if (state)
        PyEval_RestoreThread(state);
}

/* Searches a folded copy of the text. Its memory is no object of Python: an object may be shared, as each of one byte
 * is. */
static int fold_copy(Text *text) {
    text->folded = PyMem_Malloc(text->len);
    if (!text->folded) {
        PyErr_NoMemory();
        return -1;
    }
    PyThreadState *state = let_others_run(text->len);
    memcpy(text->folded, text->shown, text->len);
    literal_fold(text->folded, text->len);
    come_back(state);
    text->bytes = text->folded;
    return 0;
}

static int hold_str(Text *text, PyObject *of, bool folds) {
    Py_ssize_t len;
    text->bytes = text->shown = ascii_of(of);
    if (text->bytes) {
        text->len = (size_t)PyUnicode_GET_LENGTH(of);
        text->of = Py_NewRef(of);
        return 0;
    }
    text->bytes = text->shown = (const uint8_t *)utf8_of(of, &len, &text->encoded);
    if (!text->bytes)
        return -1;
    text->len = (size_t)len;
    text->is_wide = len != PyUnicode_GET_LENGTH(of);
    if (folds && text->is_wide && fold_copy(text)) {
        Py_CLEAR(text->encoded);
        return -1;
    }
    text->of = Py_NewRef(of);
    return 0;
}

/* Whether a searcher has its patterns, or else an error is set. */
static bool is_ready(Takes takes) {
    if (takes == NOT_PREPARED)
        PyErr_SetString(PyExc_RuntimeError, "this searcher has no patterns yet: its __init__ was not called");
    return takes != NOT_PREPARED;
}

/* Makes a text that holds nothing yet. */
static void set_empty(Text *text, bool is_str) {
    text->of = text->buffer.obj = text->encoded = NULL;
    text->folded = text->sides = NULL;
    text->is_str = is_str;
    text->is_wide = false;
}

/* Holds a text, of the type that is taken. */
static int hold(Text *text, Takes takes, PyObject *of) {
    bool is_str = PyUnicode_Check(of);
    set_empty(text, is_str);
    if (!is_ready(takes))
        return -1;
    if (is_str && takes == TAKES_BYTES)
        PyErr_SetString(PyExc_TypeError, "the patterns are bytes, and the text is str: encode it, as by text.encode()");
    else if (!is_str && (takes == TAKES_STR || takes == TAKES_FOLDED) && PyObject_CheckBuffer(of))
        refuse_type(of, "the patterns are %s, and the text is %.200U: decode it, as by str(text, 'utf-8')", "str");
    else
        return is_str ? hold_str(text, of, takes == TAKES_FOLDED) : hold_buffer(text, of);
    return -1;
}

/* From Python 3.12 on the release of a buffer may run any code, which may give the same text back: so it comes last. */
static void give_back(Text *text) {
    Py_buffer buffer = text->buffer;
    text->buffer.obj = NULL;
    Py_CLEAR(text->encoded);
    PyMem_Free(text->folded);
    PyMem_Free(text->sides);
    text->folded = text->sides = NULL;
    Py_CLEAR(text->of);
    if (buffer.obj)
        PyBuffer_Release(&buffer);
}

/* How many characters begin in some bytes of UTF-8. */
static size_t characters(const uint8_t *bytes, size_t len) {
    size_t count = 0, i = 0;
    for (; len - i >= 8; i += 8) {
        uint64_t eight;
        memcpy(&eight, bytes + i, 8);
        count += 8 - (size_t)(((eight >> 7 & ~(eight >> 6) & ONES) * ONES) >> 56); /* (less those that go on) */
    }
    for (; i < len; i++)
        count += (bytes[i] & 0xC0) != 0x80;
    return count;
}

/* Moves a place on to a byte with which a character begins or the text ends. */
static size_t offset_of(const Text *text, Place *place, size_t byte) {
    size_t len = byte - place->byte;
    place->offset += text->is_wide ? characters(text->bytes + place->byte, len) : len;
    place->byte = byte;
    return place->offset;
}

/* Moves a place on to an offset. */
static size_t byte_of(const Text *text, Place *place, size_t offset) {
    enum { BLOCK = 64 };
    if (!text->is_wide)
        return place->byte = place->offset = offset;
    while (text->len - place->byte > BLOCK) {
        size_t count = characters(text->bytes + place->byte, BLOCK);
        if (count > offset - place->offset)
            break;
        place->offset += count;
        place->byte += BLOCK;
    }
    for (; place->byte < text->len; place->byte++) {
        bool begins = (text->bytes[place->byte] & 0xC0) != 0x80;
        if (begins && place->offset == offset)
            break;
        place->offset += begins;
    }
    return place->byte;
}

/* The character beyond ASCII that begins at some bytes of UTF-8. */
static uint32_t character_at(const uint8_t *bytes) {
    uint32_t second = (uint32_t)bytes[0] << 6 | (bytes[1] & 63);
    if (bytes[0] < 0xE0)
        return second & 0x7FF;
    uint32_t third = second << 6 | (bytes[2] & 63);
    return bytes[0] < 0xF0 ? third & 0xFFFF : (third << 6 | (bytes[3] & 63)) & 0x1FFFFF;
}

/* The byte for each byte of a character: it is one of `\w` exactly if the character is, as `re` takes it. */
static uint8_t side_of(const uint8_t *bytes) {
    return bytes[0] < 0x80 ? bytes[0] : is_alnum(character_at(bytes)) ? 'a' : ' ';
}

/* Makes room for the sides of a str with characters beyond ASCII, from the character before a place on: in a search that
 * begins there none before counts, so these are zeros. */
static int begin_sides(Text *text, Place at) {
    if (!text->is_wide)
        return 0;
    text->sides = PyMem_Malloc(text->len);
    if (!text->sides) {
        PyErr_NoMemory();
        return -1;
    }
    for (bool goes_on = at.offset > 0; goes_on; goes_on = (text->bytes[at.byte] & 0xC0) == 0x80)
        at.byte--;
    at.offset -= at.offset > 0;
    memset(text->sides, 0, at.byte);
    text->made = at;
    return 0;
}

/* Learns the characters up to byte `last` for make_sides, which cannot call Python, as other threads run meanwhile. */
static int learn_sides(const Text *text, size_t last) {
    if (!LEARNS_ALNUM || !text->sides)
        return 0;
    for (size_t at = text->made.byte; at <= last && at < text->len; at++)
        if (text->shown[at] >= 0xC0 && learn_alnum(character_at(text->shown + at)))
            return -1;
    return 0;
}

/* Makes the sides up to the one at byte `last`, if there are any: in a search that ends there none behind it counts. */
static void make_sides(Text *text, size_t last) {
    if (!text->sides)
        return;
    Place at = text->made;
    for (; at.byte <= last && at.byte < text->len; at.offset++) {
        uint8_t side = side_of(text->shown + at.byte);
        do
            text->sides[at.byte++] = side;
        while (at.byte < text->len && (text->bytes[at.byte] & 0xC0) == 0x80);
    }
    text->made = at;
}

/* How many bytes of the text, and of its sides, the library is handed: of the sides those that are made. */
static size_t handed_len(const Text *text) {
    return text->sides ? text->made.byte : text->len;
}

/* An offset as it stands in a slice. */
static int slice_offset(PyObject *given, Py_ssize_t otherwise, Py_ssize_t *offset) {
    *offset = otherwise;
    if (!given || given == Py_None)
        return 0;
    if (!PyIndex_Check(given)) {
        refuse_type(given, "%s is an int or None, not %.200U", "an offset");
        return -1;
    }
    *offset = PyNumber_AsSsize_t(given, NULL);
    return *offset == -1 && PyErr_Occurred() ? -1 : 0;
}

/* Adds an item to a list, which takes it over. Without an item it only fails. */
static inline int add_item(PyObject *list, PyObject *item) {
    if (!item)
        return -1;
    if (add_in_place(list, item))
        return 0;
    int status = PyList_Append(list, item);
    Py_DECREF(item);
    return status;
}

/* Whether what holds it may lead back to what it holds: such a thing the collector has to visit. */
static bool leads_on(const Text *text) {
    return !PyUnicode_CheckExact(text->of) && !PyBytes_CheckExact(text->of) && !PyByteArray_CheckExact(text->of);
}

/* A copy of the text from one byte to another, of which the offsets are known too. */
static PyObject *part_of(const Text *text, Place start, Place end) {
    if (text->is_str)
        return PyUnicode_Substring(text->of, (Py_ssize_t)start.offset, (Py_ssize_t)end.offset);
    if (PyBytes_CheckExact(text->of) && end.byte - start.byte == text->len)
        return Py_NewRef(text->of);
    return PyBytes_FromStringAndSize((const char *)text->bytes + start.byte, (Py_ssize_t)(end.byte - start.byte));
}

/* From which to which byte text[start:end] goes, and the place of the first. */
static int bounds(const Text *text, PyObject *start, PyObject *end, Place *first, size_t *last) {
    if (!start && !end) {
        *first = (Place){0, 0};
        *last = text->len;
        return 0;
    }
    Py_ssize_t len = text->is_str ? PyUnicode_GET_LENGTH(text->of) : (Py_ssize_t)text->len, low, high;
    if (slice_offset(start, 0, &low) || slice_offset(end, PY_SSIZE_T_MAX, &high))
        return -1;
    PySlice_AdjustIndices(len, &low, &high, 1);
    *first = (Place){0, 0};
    if (low > 0)
        byte_of(text, first, (size_t)low);
    if (high >= len) {
        *last = text->len;
    } else {
        Place place = *first;
        *last = high > low ? byte_of(text, &place, (size_t)high) : first->byte;
    }
    return 0;
}

#endif
