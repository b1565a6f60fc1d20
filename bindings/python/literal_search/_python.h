/* Python's calls, and what differs between the two builds of this extension. Included first by each file.
 *
 * A build from source uses all calls of one version of Python. The wheel in dist/ is built with Py_LIMITED_API: it uses
 * the calls that each version from 3.11 on has. Some of these are slower. */
#ifndef LITERAL_SEARCH_PYTHON_H
#define LITERAL_SEARCH_PYTHON_H

#define PY_SSIZE_T_CLEAN
#include <Python.h>
#include <structmember.h>

#include <stdbool.h>
#include <stddef.h>
#include <stdint.h>
#include <string.h>

#ifdef Py_LIMITED_API

#define PyTuple_GET_SIZE PyTuple_Size
#define PyTuple_GET_ITEM PyTuple_GetItem
#define PyTuple_SET_ITEM (void)PyTuple_SetItem
#define PyList_GET_SIZE PyList_Size
#define PyBytes_GET_SIZE PyBytes_Size
#define PyBytes_AS_STRING PyBytes_AsString
#define PyUnicode_GET_LENGTH PyUnicode_GetLength
#define PyObject_CallOneArg(FUNCTION, GIVEN) PyObject_CallFunctionObjArgs(FUNCTION, GIVEN, NULL)

/* The offset of a tuple's items in its memory. */
static size_t items_at;

/* Sets it to the size that the type tells of a tuple without items. The limited API does not promise that this is right,
 * so it is compared with a tuple of three. */
static int find_items(PyObject *tuple) {
    PyObject *size = PyObject_GetAttrString((PyObject *)&PyTuple_Type, "__basicsize__");
    items_at = size ? PyLong_AsSize_t(size) : 0;
    Py_XDECREF(size);
    PyObject **items = (PyObject **)(void *)((char *)tuple + items_at);
    for (Py_ssize_t i = 0; i < 3 && !PyErr_Occurred(); i++)
        if (items_at < sizeof(PyVarObject) || items[i] != PyTuple_GetItem(tuple, i))
            PyErr_SetString(PyExc_ImportError, "this wheel of literal-search does not work with this version of Python: "
                                               "install the package from source");
    return PyErr_Occurred() ? -1 : 0;
}

/* Whether is_alnum knows only the characters given to learn_alnum, and whether new_ascii makes a str. */
enum { LEARNS_ALNUM = true, WRITES_STR = false };

/* Changes the length of bytes that nobody else has. On an error they are gone. */
static int resize_bytes(PyObject **bytes, Py_ssize_t size) {
    PyObject *before = *bytes;
    Py_ssize_t kept = PyBytes_GET_SIZE(before) < size ? PyBytes_GET_SIZE(before) : size;
    *bytes = PyBytes_FromStringAndSize(NULL, size);
    if (*bytes)
        memcpy(PyBytes_AS_STRING(*bytes), PyBytes_AS_STRING(before), (size_t)kept);
    Py_DECREF(before);
    return *bytes ? 0 : -1;
}

/* Adds an item to a list, if that has memory for it already. */
static inline bool add_in_place(PyObject *list, PyObject *item) {
    (void)list;
    (void)item;
    return false;
}

/* A new str of so many characters of ASCII, whose bytes are to be written. */
static inline PyObject *new_ascii(Py_ssize_t size) {
    (void)size;
    return NULL;
}

/* The bytes of a str of ASCII, or NULL: then PyUnicode_AsUTF8AndSize has them. */
static inline uint8_t *ascii_of(PyObject *str) {
    (void)str;
    return NULL;
}

/* For each character whether `isalnum` of Python holds for it: YES, NO, or 0 if Python was not asked. */
enum { YES = 1, NO };
static uint8_t known_alnum[0x110000];

/* Asks Python about a character, for is_alnum. */
static int learn_alnum(uint32_t character) {
    if (known_alnum[character])
        return 0;
    PyObject *str = PyUnicode_FromOrdinal((int)character);
    PyObject *answer = str ? PyObject_CallMethod(str, "isalnum", NULL) : NULL;
    if (answer)
        known_alnum[character] = answer == Py_True ? YES : NO;
    Py_XDECREF(answer);
    Py_XDECREF(str);
    return answer ? 0 : -1;
}

static inline bool is_alnum(uint32_t character) {
    return known_alnum[character] == YES;
}

#else

enum { items_at = offsetof(PyTupleObject, ob_item), LEARNS_ALNUM = false, WRITES_STR = true };

static inline int find_items(PyObject *tuple) {
    (void)tuple;
    return 0;
}

static inline int resize_bytes(PyObject **bytes, Py_ssize_t size) {
    return _PyBytes_Resize(bytes, size);
}

static inline bool add_in_place(PyObject *list, PyObject *item) {
    Py_ssize_t len = PyList_GET_SIZE(list);
    if (len == ((PyListObject *)list)->allocated)
        return false;
    PyList_SET_ITEM(list, len, item);
    Py_SET_SIZE(list, len + 1);
    return true;
}

static inline PyObject *new_ascii(Py_ssize_t size) {
    return PyUnicode_New(size, 127);
}

static inline uint8_t *ascii_of(PyObject *str) {
    return PyUnicode_IS_COMPACT_ASCII(str) ? PyUnicode_1BYTE_DATA(str) : NULL;
}

static inline int learn_alnum(uint32_t character) {
    (void)character;
    return 0;
}

static inline bool is_alnum(uint32_t character) {
    return Py_UNICODE_ISALNUM(character);
}

#endif

/* Raises a TypeError about an object. The message has places for `about` and for the name of the object's type. */
static void refuse_type(PyObject *of, const char *message, const char *about) {
    PyObject *attribute = PyUnicode_InternFromString("__name__");
    PyObject *name = attribute ? PyObject_GetAttr((PyObject *)Py_TYPE(of), attribute) : NULL;
    if (name)
        PyErr_Format(PyExc_TypeError, message, about, name);
    Py_XDECREF(attribute);
    Py_XDECREF(name);
}

#endif
