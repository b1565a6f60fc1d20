/* What is found: a tuple with names, which knows the text it was found in. Included once, by _native.c.
 *
 * A Match shows three items, its pattern, start and end. Behind them lie two that no tuple shows: the text, and what
 * the searcher gives for each pattern. One that was made by hand, or from a pickle, has no text: then the last item is
 * the pair of what was matched and its value. */
#ifndef LITERAL_SEARCH_MATCH_H
#define LITERAL_SEARCH_MATCH_H

#include "_python.h"

#include "_text.h"

enum { PATTERN, START, END, SHOWN, WHOLE_TEXT = SHOWN, VALUES, ITEMS };

static PyTypeObject *match_type;

static PyObject **items_of(PyObject *tuple) {
    return (PyObject **)(void *)((char *)tuple + items_at);
}

/* The memory of some matches that are gone, for the next ones: an iteration needs one or two at a time. */
enum { MOST_FREED = 8 };
static PyObject *freed[MOST_FREED];
static size_t freed_count;

/* A match without its items. */
static PyObject *empty_match(void) {
    PyObject *match = freed_count > 0 ? freed[--freed_count] : NULL;
    if (match)
        PyObject_InitVar((PyVarObject *)match, match_type, ITEMS);
    else
        match = (PyObject *)PyObject_GC_NewVar(PyVarObject, match_type, ITEMS);
    if (!match)
        return NULL;
    memset(items_of(match), 0, ITEMS * sizeof(PyObject *));
    Py_SET_SIZE((PyVarObject *)match, SHOWN);
    if (items_at > sizeof(PyVarObject)) /* (from Python 3.14 on a hash is kept there, which is -1 before it is known) */
        memset((PyVarObject *)match + 1, 0xFF, items_at - sizeof(PyVarObject));
    return match;
}

/* The Match of what was found. The collector need not visit millions of them if what they hold leads nowhere. */
static PyObject *new_match(const size_t shown[SHOWN], PyObject *text, PyObject *values, bool leads_on) {
    PyObject *match = empty_match();
    for (int i = 0; match && i < SHOWN; i++) {
        items_of(match)[i] = PyLong_FromLong((long)shown[i]); /* (no offset is above LONG_MAX; FromSize_t is slower) */
        if (!items_of(match)[i])
            Py_CLEAR(match);
    }
    if (!match)
        return NULL;
    items_of(match)[WHOLE_TEXT] = Py_XNewRef(text);
    items_of(match)[VALUES] = Py_NewRef(values);
    if (leads_on)
        PyObject_GC_Track(match);
    return match;
}

/* A match that has what was matched and its value, and no text. */
static PyObject *match_of_its_own(const size_t shown[SHOWN], PyObject *group, PyObject *value, bool leads_on) {
    PyObject *pair = PyTuple_Pack(2, group, value);
    PyObject *match = pair ? new_match(shown, NULL, pair, leads_on) : NULL;
    if (pair && !leads_on)
        PyObject_GC_UnTrack(pair);
    Py_XDECREF(pair);
    return match;
}

static PyObject *match_new(PyTypeObject *type, PyObject *given, PyObject *named) {
    static char *names[] = {"pattern", "start", "end", "group", "value", NULL};
    PyObject *shown[SHOWN], *group = Py_None, *value = Py_None;
    if (!PyArg_ParseTupleAndKeywords(given, named, "OOO|OO:Match", names, &shown[0], &shown[1], &shown[2], &group,
                                     &value))
        return NULL;
    PyObject *match = empty_match();
    for (int i = 0; match && i < SHOWN; i++) {
        items_of(match)[i] = PyNumber_Index(shown[i]);
        if (!items_of(match)[i])
            Py_CLEAR(match);
    }
    if (match && !(items_of(match)[VALUES] = PyTuple_Pack(2, group, value)))
        Py_CLEAR(match);
    if (match)
        PyObject_GC_Track(match);
    (void)type; /* (it has no subclasses) */
    return match;
}

/* It lets go what it leads to, so nothing is cleared here. */
static int match_traverse(PyObject *of, visitproc visit, void *arg) {
    Py_VISIT(Py_TYPE(of));
    Py_VISIT(items_of(of)[WHOLE_TEXT]);
    Py_VISIT(items_of(of)[VALUES]);
    return 0;
}

static void match_dealloc(PyObject *of) {
    PyTypeObject *type = Py_TYPE(of);
    PyObject_GC_UnTrack(of);
    for (int i = 0; i < ITEMS; i++)
        Py_XDECREF(items_of(of)[i]);
    if (freed_count < MOST_FREED)
        freed[freed_count++] = of;
    else
        PyObject_GC_Del(of);
    Py_DECREF(type);
}

static PyObject *match_repr(PyObject *of) {
    PyObject **items = items_of(of);
    return PyUnicode_FromFormat("Match(pattern=%R, start=%R, end=%R)", items[PATTERN], items[START], items[END]);
}

static PyObject *match_shown(PyObject *of, void *at) {
    return Py_NewRef(items_of(of)[(uintptr_t)at]);
}

static PyObject *match_value(PyObject *of, void *unused) {
    PyObject **items = items_of(of);
    (void)unused;
    if (!items[WHOLE_TEXT])
        return Py_NewRef(PyTuple_GET_ITEM(items[VALUES], 1));
    return Py_NewRef(PyTuple_GET_ITEM(items[VALUES], PyLong_AsSsize_t(items[PATTERN])));
}

PyDoc_STRVAR(span_doc, "span($self, /)\n--\n\nBoth offsets.");

static PyObject *match_span(PyObject *of, PyObject *unused) {
    (void)unused;
    return PyTuple_Pack(2, items_of(of)[START], items_of(of)[END]);
}

/* The matched part. */
static PyObject *matched(PyObject *of) {
    PyObject **items = items_of(of), *text = items[WHOLE_TEXT], *group = NULL;
    Text held;
    if (!text)
        return Py_NewRef(PyTuple_GET_ITEM(items[VALUES], 0));
    Py_ssize_t start = PyLong_AsSsize_t(items[START]), end = PyLong_AsSsize_t(items[END]);
    if (PyUnicode_Check(text))
        return PyUnicode_Substring(text, start, end);
    if (hold(&held, TAKES_BYTES, text))
        return NULL;
    if ((size_t)end <= held.len)
        group = PyBytes_FromStringAndSize((const char *)held.bytes + start, end - start);
    else
        PyErr_SetString(PyExc_ValueError, "the text has become too short for this match");
    give_back(&held);
    return group;
}

PyDoc_STRVAR(group_doc, "group($self, number=0, /)\n--\n\n"
"The matched part, as str or bytes. From a mutable text it reads the bytes as they are now. The only group is 0.");

static PyObject *match_group(PyObject *of, PyObject *given) {
    Py_ssize_t number = 0;
    if (!PyArg_ParseTuple(given, "|n:group", &number))
        return NULL;
    if (number == 0)
        return matched(of);
    PyErr_SetString(PyExc_IndexError, "a match has no group but 0");
    return NULL;
}

/* A copy has what was matched, and not the whole text. */
static PyObject *match_reduce(PyObject *of, PyObject *unused) {
    PyObject **items = items_of(of), *group = matched(of), *value = match_value(of, NULL), *reduced = NULL;
    (void)unused;
    if (group && value)
        reduced = Py_BuildValue("O(OOOOO)", match_type, items[PATTERN], items[START], items[END], group, value);
    Py_XDECREF(group);
    Py_XDECREF(value);
    return reduced;
}

static PyMethodDef match_methods[] = {
    {"span", match_span, METH_NOARGS, span_doc},
    {"group", match_group, METH_VARARGS, group_doc},
    {"__reduce__", match_reduce, METH_NOARGS, NULL},
    {"__class_getitem__", Py_GenericAlias, METH_O | METH_CLASS, "Match[str] and Match[bytes], for annotations."},
    {0},
};

static PyGetSetDef match_members[] = {
    {"pattern", match_shown, NULL, "The number of its pattern.", (void *)PATTERN},
    {"start", match_shown, NULL, "The offset of its start.", (void *)START},
    {"end", match_shown, NULL, "The offset after its end.", (void *)END},
    {"value", match_value, NULL, "The mapping's value for its pattern, or without a mapping the pattern.", NULL},
    {0},
};

PyDoc_STRVAR(match_doc, "Match(pattern, start, end, group=None, value=None)\n--\n\n"
"A match: the number of its pattern, and the offsets of its start and after its end. In a str offsets count\n"
"characters, in other texts bytes. It equals the tuple of the three, and keeps its text alive.");

static PyType_Slot match_slots[] = {
    {Py_tp_doc, (void *)match_doc},
    {Py_tp_base, &PyTuple_Type},
    {Py_tp_new, match_new},
    {Py_tp_dealloc, match_dealloc},
    {Py_tp_traverse, match_traverse},
    {Py_tp_repr, match_repr},
    {Py_tp_methods, match_methods},
    {Py_tp_getset, match_members},
    {0},
};

static PyType_Spec match_spec = {
    .name = "literal_search.Match",
    .flags = Py_TPFLAGS_DEFAULT | Py_TPFLAGS_HAVE_GC,
    .slots = match_slots,
};

/* Makes the type, with the names of its items for `match` and for whoever asks a tuple with names. */
static int match_ready(void) {
    PyObject *names = Py_BuildValue("(sss)", "pattern", "start", "end");
    PyObject *type = names && !find_items(names) ? PyType_FromSpec(&match_spec) : NULL;
    int status = !type || PyObject_SetAttrString(type, "_fields", names) ||
                 PyObject_SetAttrString(type, "__match_args__", names) ? -1 : 0;
    Py_XDECREF(names);
    match_type = (PyTypeObject *)type;
    return status;
}

#endif
