/* Columns of texts by Arrow's C data interface: bytes and the place of each text, without an object for each. A column
 * comes as one array, or as a stream of arrays. Included once, by _native.c. */
#ifndef LITERAL_SEARCH_ARROW_H
#define LITERAL_SEARCH_ARROW_H

#include "_python.h"

#include <errno.h>

/* The structs of the interface, as its specification has them. */
typedef struct ArrowSchema {
    const char *format, *name, *metadata;
    int64_t flags, n_children;
    struct ArrowSchema **children, *dictionary;
    void (*release)(struct ArrowSchema *);
    void *private_data;
} ArrowSchema;

typedef struct ArrowArray {
    int64_t length, null_count, offset, n_buffers, n_children;
    const void **buffers;
    struct ArrowArray **children, *dictionary;
    void (*release)(struct ArrowArray *);
    void *private_data;
} ArrowArray;

typedef struct ArrowArrayStream {
    int (*get_schema)(struct ArrowArrayStream *, ArrowSchema *);
    int (*get_next)(struct ArrowArrayStream *, ArrowArray *);
    const char *(*get_last_error)(struct ArrowArrayStream *);
    void (*release)(struct ArrowArrayStream *);
    void *private_data;
} ArrowArrayStream;

/* How the texts of an array lie: between offsets of 32 or of 64 bits, or each where a view of 16 bytes says. */
typedef enum { SMALL, LARGE, VIEWS } Layout;

/* An array of texts. */
typedef struct {
    bool is_str;
    Layout layout;
    const uint8_t *valid;     /* a bit for each text, or NULL if none is missing */
    const void *places;       /* the offsets or views */
    const void *const *bytes; /* the buffers of the texts: one, or those that views name by number */
    const void *lens;         /* the lengths of the buffers that views name */
    int64_t buffers;          /* and how many they are */
    size_t first, count;      /* the number of the first text, and how many they are */
} Column;

/* What lends a column: an array, or a stream, of which an array is held at a time. */
typedef struct {
    PyObject *lent;           /* the pair of capsules of an array, or the one of a stream: they own their structs */
    ArrowArrayStream *stream; /* or NULL */
    ArrowSchema schema;       /* of the stream */
    ArrowArray array;         /* the one of the stream that is held; without `release` there is none */
    size_t before;            /* how many texts the earlier arrays have */
    bool is_read;             /* whether an array was read */
    Column column;
} Source;

static int refuse_column(const char *why) {
    PyErr_Format(PyExc_ValueError, "the column is damaged%s", why);
    return -1;
}

/* The struct in one of the two capsules of an array, or NULL with an error. */
static void *struct_in(PyObject *lent, Py_ssize_t at, const char *name) {
    if (PyTuple_Check(lent) && PyTuple_GET_SIZE(lent) == 2)
        return PyCapsule_GetPointer(PyTuple_GET_ITEM(lent, at), name);
    PyErr_SetString(PyExc_TypeError, "__arrow_c_array__ returns a pair of capsules");
    return NULL;
}

/* Takes over of which type the texts are, and how they lie. */
static int read_schema(Column *column, const ArrowSchema *schema) {
    if (!schema->release) {
        PyErr_SetString(PyExc_ValueError, "the column is released");
        return -1;
    }
    const char *format = schema->format;
    bool has_views = format[0] == 'v';
    if (strlen(format) != (has_views ? 2 : 1) || !strchr(has_views ? "uz" : "uUzZ", format[has_views]) ||
        schema->dictionary) {
        PyErr_Format(PyExc_TypeError, "a column has texts or bytes, and this one %s%.200s",
                     schema->dictionary ? "a dictionary of " : "Arrow's format ", format);
        return -1;
    }
    column->is_str = format[has_views] == 'u' || format[0] == 'U';
    column->layout = has_views ? VIEWS : format[0] == 'U' || format[0] == 'Z' ? LARGE : SMALL;
    return 0;
}

/* Takes over where the texts are. */
static int read_array(Column *column, const ArrowArray *array) {
    bool has_views = column->layout == VIEWS;
    if ((has_views ? array->n_buffers < 3 : array->n_buffers != 3) || array->length < 0 || array->offset < 0 ||
        (array->length > 0 && !array->buffers[1]))
        return refuse_column("");
    column->valid = array->null_count == 0 ? NULL : array->buffers[0];
    column->places = array->buffers[1];
    column->bytes = array->buffers + 2;
    column->lens = has_views ? array->buffers[array->n_buffers - 1] : NULL;
    column->buffers = has_views && column->lens ? array->n_buffers - 3 : 0;
    column->first = (size_t)array->offset;
    column->count = (size_t)array->length;
    return 0;
}

/* Raises what a stream says of its failure. What it calls may have raised an exception already. */
static int refuse_stream(Source *source, int code) {
    source->array.release = NULL;
    const char *why = source->stream->get_last_error(source->stream);
    PyObject *said = PyErr_Occurred() ? NULL : Py_BuildValue("(is)", code, why ? why : strerror(code));
    if (said && code == ENOMEM)
        PyErr_NoMemory();
    else if (said)
        PyErr_SetObject(PyExc_OSError, said);
    Py_XDECREF(said);
    return -1;
}

/* Lets the array of a stream go. */
static void drop_array(Source *source) {
    if (source->array.release)
        source->array.release(&source->array);
    source->array.release = NULL;
}

/* Lets all go. What frees the structs may be any code, so an error is set aside meanwhile. */
static void give_back_source(Source *source) {
    PyObject *type, *value, *trace;
    PyErr_Fetch(&type, &value, &trace);
    drop_array(source);
    if (source->schema.release)
        source->schema.release(&source->schema);
    Py_CLEAR(source->lent);
    PyErr_Restore(type, value, trace);
}

/* Takes over the schema of what is lent. */
static int begin_source(Source *source, bool is_stream) {
    const ArrowSchema *schema = &source->schema;
    if (!is_stream)
        return (schema = struct_in(source->lent, 0, "arrow_schema")) ? read_schema(&source->column, schema) : -1;
    source->stream = PyCapsule_GetPointer(source->lent, "arrow_array_stream");
    if (!source->stream)
        return -1;
    int code = source->stream->release ? source->stream->get_schema(source->stream, &source->schema) : 0;
    if (code) {
        source->schema.release = NULL;
        return refuse_stream(source, code);
    }
    return read_schema(&source->column, schema);
}

/* Holds a column: an object that lends an array or, if it does not, a stream. */
static int hold_source(Source *source, PyObject *of) {
    PyObject *method = PyObject_GetAttrString(of, "__arrow_c_array__");
    bool is_stream = !method && PyErr_ExceptionMatches(PyExc_AttributeError);
    *source = (Source){0};
    if (is_stream) {
        PyErr_Clear();
        method = PyObject_GetAttrString(of, "__arrow_c_stream__");
    }
    source->lent = method ? PyObject_CallNoArgs(method) : NULL;
    Py_XDECREF(method);
    if (!source->lent)
        return -1;
    if (begin_source(source, is_stream)) {
        give_back_source(source);
        return -1;
    }
    return 0;
}

/* The next array of a stream, or NULL: at its end, or with an error. The stream may wait for another thread. Signals are
 * looked for here too, as an array may be too short for that. */
static const ArrowArray *next_of_stream(Source *source) {
    if (PyErr_CheckSignals())
        return NULL;
    drop_array(source);
    PyThreadState *state = PyEval_SaveThread();
    int code = source->stream->get_next(source->stream, &source->array);
    PyEval_RestoreThread(state);
    if (code)
        refuse_stream(source, code);
    return source->array.release ? &source->array : NULL;
}

/* Reads the next array of a column: 1, or 0 if there is none, or -1 with an error. */
static int next_column(Source *source) {
    const ArrowArray *array = NULL;
    source->before += source->is_read ? source->column.count : 0;
    if (source->stream)
        array = next_of_stream(source);
    else if (!source->is_read)
        array = struct_in(source->lent, 1, "arrow_array");
    source->is_read = true;
    if (!array)
        return PyErr_Occurred() ? -1 : 0;
    if (!array->release) {
        PyErr_SetString(PyExc_ValueError, "the column is released");
        return -1;
    }
    return read_array(&source->column, array) ? -1 : 1;
}

/* A number of 32 or of 64 bits in a buffer, which need not be aligned. */
static int64_t number_in(const void *buffer, size_t at, bool is_large) {
    int64_t large;
    int32_t small;
    if (is_large) {
        memcpy(&large, (const char *)buffer + at * sizeof large, sizeof large);
        return large;
    }
    memcpy(&small, (const char *)buffer + at * sizeof small, sizeof small);
    return small;
}

/* A text by its view: that has its length, and its bytes if these are few, or else the first ones, the number of their
 * buffer and their offset there. */
static int cell_by_view(const Column *column, size_t at, const uint8_t **bytes, size_t *len) {
    enum { VIEW = 16, FEW = 12 };
    const uint8_t *view = (const uint8_t *)column->places + at * VIEW;
    int32_t parts[VIEW / 4];
    memcpy(parts, view, VIEW);
    int64_t buffer = parts[2], start = parts[3];
    *len = (size_t)parts[0];
    *bytes = view + 4;
    if (parts[0] >= 0 && parts[0] <= FEW)
        return 1;
    if (parts[0] < 0 || buffer < 0 || buffer >= column->buffers || start < 0 || !column->bytes[buffer] ||
        number_in(column->lens, (size_t)buffer, true) - start < parts[0])
        return refuse_column(": a view is of bytes that are not there");
    *bytes = (const uint8_t *)column->bytes[buffer] + start;
    return 1;
}

/* Finds a text of the column: 1, or 0 if it is missing, or -1 with an error. */
static int cell_of(const Column *column, size_t number, const uint8_t **bytes, size_t *len) {
    size_t at = column->first + number;
    bool is_large = column->layout == LARGE;
    if (column->valid && !(column->valid[at / 8] >> at % 8 & 1))
        return 0;
    if (column->layout == VIEWS)
        return cell_by_view(column, at, bytes, len);
    int64_t start = number_in(column->places, at, is_large), end = number_in(column->places, at + 1, is_large);
    if (start < 0 || end < start)
        return refuse_column(": its offsets decrease");
    *bytes = column->bytes[0] ? (const uint8_t *)column->bytes[0] + start : (const uint8_t *)"";
    *len = (size_t)(end - start);
    return column->bytes[0] || *len == 0 ? 1 : refuse_column("");
}

/* A text of the column as an object. */
static PyObject *object_of(const Column *column, const uint8_t *bytes, size_t len) {
    return column->is_str ? PyUnicode_DecodeUTF8((const char *)bytes, (Py_ssize_t)len, NULL)
                          : PyBytes_FromStringAndSize((const char *)bytes, (Py_ssize_t)len);
}

#endif
