/* The searches of literal_search.h, for Python: the calls of a searcher, and its iterator. The files that it includes have
 * texts and how they are held, matches, who runs meanwhile, and what replaces matches.
 *
 * What is searched lies in a buffer that Python lends, or in a str as UTF-8. It is held from the beginning of a call,
 * or of an iteration, to its end. A long text is searched in pieces: while the library is at work on one, Python's
 * other threads run, and behind each piece signals are looked for.
 *
 * Nothing here is proved. The library is; it is handed what the header asks for. */
#include "_python.h"

#include "_arrow.h"
#include "_column.h"
#include "_match.h"
#include "_patterns.h"
#include "_prepared.h"
#include "_replace.h"
#include "_rows.h"
#include "_text.h"
#include "_walk.h"
#include "literal_search.h"

typedef struct {
    PyObject_HEAD
    Walk walk;
    bool is_running;
} Matches;

/* ---- Methods ---- */

static const char *const OF_SEARCH[3] = {"text", "start", "end"};
static const char *const OF_SPLIT[3] = {"text", "maxsplit"};
static const char *const OF_SUB[3] = {"replacement", "text", "count"};

/* The argument of a call that has a name, or -1 with an error. */
static int named(const char *const names[3], PyObject *const found[3], PyObject *name) {
    for (int i = 0; i < 3 && names[i]; i++) {
        if (PyUnicode_CompareWithASCIIString(name, names[i]) == 0) {
            if (!found[i])
                return i;
            PyErr_Format(PyExc_TypeError, "the argument %R is given twice", name);
            return -1;
        }
    }
    PyErr_Format(PyExc_TypeError, "there is no argument %R", name);
    return -1;
}

/* The arguments of a call, by place or by name, of which the first ones are needed. */
static int arguments(const char *const names[3], int needed, PyObject *const *given, Py_ssize_t count, PyObject *kwnames,
                     PyObject *found[3]) {
    Py_ssize_t by_name = kwnames ? PyTuple_GET_SIZE(kwnames) : 0, most = names[2] ? 3 : 2;
    if (count > most) {
        PyErr_Format(PyExc_TypeError, "at most %zd arguments are taken, and %zd are given", most, count);
        return -1;
    }
    memset(found, 0, 3 * sizeof *found);
    memcpy(found, given, (size_t)count * sizeof *found);
    for (Py_ssize_t k = 0; k < by_name; k++) {
        int i = named(names, found, PyTuple_GET_ITEM(kwnames, k));
        if (i < 0)
            return -1;
        found[i] = given[count + k];
    }
    for (int i = 0; i < needed; i++) {
        if (!found[i]) {
            PyErr_Format(PyExc_TypeError, "the argument '%s' is missing", names[i]);
            return -1;
        }
    }
    return 0;
}

/* What a call answers that looks for one match. */
typedef enum { A_MATCH, WHETHER, THE_EARLIEST } Wanted;

/* The first match of a call, or None; or whether there is one. */
static PyObject *first_of(Prepared *self, PyObject *const *given, Py_ssize_t count, PyObject *names, Wanted wanted) {
    PyObject *asked[3], *answer = NULL;
    Text text;
    Place place;
    size_t end;
    literal_match found;
    if (arguments(OF_SEARCH, 1, given, count, names, asked) || hold(&text, self->takes, asked[0]))
        return NULL;
    if (!(wanted == THE_EARLIEST && prepare_for_all(self)) && !bounds(&text, asked[1], asked[2], &place, &end) &&
        !(self->whole_words && begin_sides(&text, place))) {
        int is_found = wanted == THE_EARLIEST ? find_earliest(self, &text, place.byte, end, &found)
                       : self->whole_words    ? find_first_word(self, &text, place.byte, end, &found)
                                              : find_first(self, &text, place.byte, end, &found);
        if (is_found >= 0 && wanted == WHETHER)
            answer = PyBool_FromLong(is_found);
        else if (is_found == 1)
            answer = match_at(self, &text, &place, &found);
        else if (is_found == 0)
            answer = Py_NewRef(Py_None);
    }
    give_back(&text);
    return answer;
}

PyDoc_STRVAR(find_doc, "find($self, /, text, start=0, end=None)\n--\n\n"
"The leftmost match in text[start:end], or None. Its offsets are in the whole text.");

static PyObject *search_find(PyObject *self, PyObject *const *given, Py_ssize_t count, PyObject *names) {
    return first_of((Prepared *)self, given, count, names, A_MATCH);
}

PyDoc_STRVAR(is_match_doc, "is_match($self, /, text, start=0, end=None)\n--\n\n"
"Whether a pattern occurs in text[start:end].");

static PyObject *search_is_match(PyObject *self, PyObject *const *given, Py_ssize_t count, PyObject *names) {
    return first_of((Prepared *)self, given, count, names, WHETHER);
}

PyDoc_STRVAR(find_earliest_doc, "find_earliest($self, /, text, start=0, end=None)\n--\n\n"
"The occurrence in text[start:end] that ends first, and of several patterns that end there the earliest in the list;\n"
"or None. The kind plays no part. The first call prepares a search, like `find_overlapping`.");

static PyObject *search_find_earliest(PyObject *self, PyObject *const *given, Py_ssize_t count, PyObject *names) {
    return first_of((Prepared *)self, given, count, names, THE_EARLIEST);
}

/* The list of what a walk finds: of all, or of so many and what is left of their page. */
static PyObject *listed(Walk *walk, Py_ssize_t most) {
    const literal_match *found;
    PyObject *all = PyList_New(0);
    while (all && (PyList_GET_SIZE(all) < most || walk->given < walk->written) && (found = walk_next(walk)))
        if (add_item(all, walk_match(walk, found)))
            Py_CLEAR(all);
    if (PyErr_Occurred())
        Py_CLEAR(all);
    return all;
}

/* The list of all that is found in a text. */
static PyObject *all_of(Prepared *self, PyObject *const *given, Py_ssize_t count, PyObject *names, bool for_all) {
    PyObject *asked[3];
    Walk walk;
    if (arguments(OF_SEARCH, 1, given, count, names, asked) || walk_begin(&walk, self, for_all, asked))
        return NULL;
    PyObject *all = listed(&walk, PY_SSIZE_T_MAX);
    walk_end(&walk);
    return all;
}

PyDoc_STRVAR(findall_doc, "findall($self, /, text, start=0, end=None)\n--\n\n"
"The list of all matches in text[start:end], from the left, without overlaps.");

static PyObject *search_findall(PyObject *self, PyObject *const *given, Py_ssize_t count, PyObject *names) {
    return all_of((Prepared *)self, given, count, names, false);
}

PyDoc_STRVAR(find_overlapping_doc, "find_overlapping($self, /, text, start=0, end=None)\n--\n\n"
"The list of every occurrence of every pattern in text[start:end], overlapping ones too, ordered by ends and then by\n"
"patterns. The kind plays no part. The first call prepares a search for it, which the searcher keeps.");

static PyObject *search_find_overlapping(PyObject *self, PyObject *const *given, Py_ssize_t count, PyObject *names) {
    return all_of((Prepared *)self, given, count, names, true);
}

/* The matched part alone: the pattern, or a copy. */
static PyObject *string_of(Walk *walk, const literal_match *found) {
    PyObject *pattern = pattern_as_matched(walk, found);
    if (pattern)
        return Py_NewRef(pattern);
    Place first = walk->place;
    offset_of(&walk->text, &first, found->start);
    walk->place = first;
    offset_of(&walk->text, &walk->place, found->end);
    return part_of(&walk->text, first, walk->place);
}

PyDoc_STRVAR(findall_strings_doc, "findall_strings($self, /, text, start=0, end=None)\n--\n\n"
"The list of the matched parts alone, as str or bytes: the `group` of each match that `findall` lists.");

static PyObject *search_findall_strings(PyObject *self, PyObject *const *given, Py_ssize_t count, PyObject *names) {
    PyObject *asked[3], *strings;
    const literal_match *found;
    Walk walk;
    if (arguments(OF_SEARCH, 1, given, count, names, asked) || walk_begin(&walk, (Prepared *)self, false, asked))
        return NULL;
    strings = PyList_New(0);
    while (strings && (found = walk_next(&walk)))
        if (add_item(strings, string_of(&walk, found)))
            Py_CLEAR(strings);
    if (PyErr_Occurred())
        Py_CLEAR(strings);
    walk_end(&walk);
    return strings;
}

PyDoc_STRVAR(find_columns_doc, "find_columns($self, /, text, start=0, end=None)\n--\n\n"
"The matches that `findall` lists, as three arrays of 64-bit integers: the patterns, the starts and the ends. An array\n"
"lends its buffer, so `numpy.asarray` copies nothing.");

static PyObject *search_find_columns(PyObject *self, PyObject *const *given, Py_ssize_t count, PyObject *names) {
    PyObject *asked[3];
    Walk walk;
    if (arguments(OF_SEARCH, 1, given, count, names, asked) || walk_begin(&walk, (Prepared *)self, false, asked))
        return NULL;
    PyObject *columns = columns_of(&walk);
    walk_end(&walk);
    return columns;
}

/* How many matches a walk finds. */
static PyObject *counted(Walk *walk) {
    size_t matches = 0;
    while (!walk->is_done) {
        if (is_countable(walk) ? count_matches(walk, &matches) : page_of_matches(walk))
            return NULL;
        matches += walk->written;
        walk->written = 0;
        if (!walk->is_done && (PyErr_CheckSignals() || (walk->room < walk->wanted && walk_widen(walk))))
            return NULL;
    }
    return PyLong_FromSize_t(matches);
}

/* How many occurrences there are on a walk, also those that overlap. */
static PyObject *counted_overlapping(Walk *walk) {
    size_t occurrences = 0;
    while (!walk->is_done)
        if (count_occurrences(walk, &occurrences) || (!walk->is_done && PyErr_CheckSignals()))
            return NULL;
    return PyLong_FromSize_t(occurrences);
}

/* How many are found in a text. */
static PyObject *count_of(Prepared *self, PyObject *const *given, Py_ssize_t count, PyObject *names, bool for_all) {
    PyObject *asked[3];
    Walk walk;
    if (arguments(OF_SEARCH, 1, given, count, names, asked) || walk_begin(&walk, self, for_all, asked))
        return NULL;
    PyObject *answer = for_all ? counted_overlapping(&walk) : counted(&walk);
    walk_end(&walk);
    return answer;
}

PyDoc_STRVAR(count_doc, "count($self, /, text, start=0, end=None)\n--\n\n"
"The number of matches that `findall` lists, without a list of them.");

static PyObject *search_count(PyObject *self, PyObject *const *given, Py_ssize_t count, PyObject *names) {
    return count_of((Prepared *)self, given, count, names, false);
}

PyDoc_STRVAR(count_overlapping_doc, "count_overlapping($self, /, text, start=0, end=None)\n--\n\n"
"The number of occurrences that `find_overlapping` lists, without a list of them.");

static PyObject *search_count_overlapping(PyObject *self, PyObject *const *given, Py_ssize_t count, PyObject *names) {
    return count_of((Prepared *)self, given, count, names, true);
}

static PyTypeObject *matches_type;

/* An iterator over all that a walk finds. */
static PyObject *iterator_of(Prepared *self, PyObject *const *given, Py_ssize_t count, PyObject *names, bool for_all) {
    PyObject *asked[3];
    if (arguments(OF_SEARCH, 1, given, count, names, asked))
        return NULL;
    Matches *matches = PyObject_GC_New(Matches, matches_type);
    if (!matches)
        return NULL;
    matches->is_running = false;
    if (walk_begin(&matches->walk, self, for_all, asked)) {
        PyObject_GC_Del(matches);
        Py_DECREF(matches_type);
        return NULL;
    }
    PyObject_GC_Track(matches);
    return (PyObject *)matches;
}

PyDoc_STRVAR(finditer_doc, "finditer($self, /, text, start=0, end=None)\n--\n\n"
"Yields the matches that `findall` lists. From this call on, even before the first match, until the iterator is at\n"
"its end or gone, the text can be neither resized nor closed. Up to some thousands of matches are found ahead: do not\n"
"write to the text in the meantime.");

static PyObject *search_finditer(PyObject *self, PyObject *const *given, Py_ssize_t count, PyObject *names) {
    return iterator_of((Prepared *)self, given, count, names, false);
}

PyDoc_STRVAR(finditer_overlapping_doc, "finditer_overlapping($self, /, text, start=0, end=None)\n--\n\n"
"Yields the occurrences that `find_overlapping` lists, and holds the text like `finditer`. It finds some ten thousands\n"
"ahead, or more with long patterns.");

static PyObject *search_finditer_overlapping(PyObject *self, PyObject *const *given, Py_ssize_t count, PyObject *names) {
    return iterator_of((Prepared *)self, given, count, names, true);
}

/* The text with matches replaced, and how many they are. What a function could change is copied first. */
static PyObject *text_replaced(Prepared *self, PyObject *const *given, Py_ssize_t count, PyObject *names, size_t *done) {
    PyObject *asked[3], *by, *answer = NULL, *copy = NULL;
    size_t most;
    Walk walk;
    if (arguments(OF_SUB, 2, given, count, names, asked) || most_of(asked[2], "count", &most) ||
        walk_begin(&walk, self, false, (PyObject *const[3]){asked[1]}))
        return NULL;
    if (PyCallable_Check(asked[0]) && !walk.text.is_str && !PyBytes_CheckExact(walk.text.of)) {
        copy = whole_of(&walk.text);
        walk_end(&walk);
        if (!copy || walk_begin(&walk, self, false, (PyObject *const[3]){copy})) {
            Py_XDECREF(copy);
            return NULL;
        }
    }
    by = replacements(self, asked[0], walk.text.is_str);
    if (by)
        answer = replaced(&walk, by, most, done);
    Py_XDECREF(by);
    walk_end(&walk);
    Py_XDECREF(copy);
    return answer;
}

PyDoc_STRVAR(sub_doc, "sub($self, /, replacement, text, count=0)\n--\n\n"
"The text with each match replaced: by the replacement, by the item of a list at the pattern's number, or by the\n"
"result of a function of the match. The searcher's `values` replace each match by its value. If `count` is not 0, at\n"
"most `count` matches are replaced, from the left. If a function changes the text meanwhile, the answer is the same.");

static PyObject *search_sub(PyObject *self, PyObject *const *given, Py_ssize_t count, PyObject *names) {
    size_t done;
    return text_replaced((Prepared *)self, given, count, names, &done);
}

PyDoc_STRVAR(subn_doc, "subn($self, /, replacement, text, count=0)\n--\n\n"
"The result of `sub`, and the number of replaced matches.");

static PyObject *search_subn(PyObject *self, PyObject *const *given, Py_ssize_t count, PyObject *names) {
    size_t done;
    PyObject *answer = text_replaced((Prepared *)self, given, count, names, &done);
    return answer ? Py_BuildValue("(Nn)", answer, (Py_ssize_t)done) : NULL;
}

PyDoc_STRVAR(split_doc, "split($self, /, text, maxsplit=0)\n--\n\n"
"The text before, between and after the matches. If `maxsplit` is not 0, the text is split at no more than `maxsplit`\n"
"matches, from the left.");

static PyObject *search_split(PyObject *self, PyObject *const *given, Py_ssize_t count, PyObject *names) {
    PyObject *asked[3], *parts;
    size_t most;
    Walk walk;
    if (arguments(OF_SPLIT, 1, given, count, names, asked) || most_of(asked[1], "maxsplit", &most) ||
        walk_begin(&walk, (Prepared *)self, false, (PyObject *const[3]){asked[0]}))
        return NULL;
    parts = split_up(&walk, most);
    walk_end(&walk);
    return parts;
}

/* What is wanted of a part of a text, as _stream.py says. */
enum { MATCHES, COUNT, REPLACED, OCCURRENCES };

static PyObject *wanted_of(Walk *walk, int wanted, PyObject *replacement) {
    if (wanted == MATCHES || wanted == OCCURRENCES)
        return listed(walk, LARGEST_PAGE);
    if (wanted == COUNT)
        return counted(walk);
    PyObject *by = replacements(walk->search, replacement, walk->text.is_str);
    PyObject *answer = by ? part_replaced(walk, by) : NULL;
    Py_XDECREF(by);
    return answer;
}

PyDoc_STRVAR(checked_doc, "_checked($self, replacement, /)\n--\n\n"
"The replacement of each part of a stream. Of a list it is a tuple, whose items `_so_far` does not check again.");

static PyObject *search_checked(PyObject *of, PyObject *given) {
    Prepared *self = (Prepared *)of;
    if (!is_ready(self->takes))
        return NULL;
    if (PyCallable_Check(given) || !(PyList_Check(given) || PyTuple_Check(given)))
        return Py_NewRef(given);
    PyObject *checked = replacements(self, given, self->takes == TAKES_STR || self->takes == TAKES_FOLDED);
    PyObject *before = self->checked;
    if (checked) {
        self->checked = Py_NewRef(checked);
        Py_XDECREF(before);
    }
    return checked;
}

PyDoc_STRVAR(so_far_doc, "_so_far($self, part, start, before, more, wanted, replacement, /)\n--\n\n"
"The known answer for part[start:], where `before` counts the text before the part, and more may follow: the wanted\n"
"answer, the offset in the part up to which it holds, and whether no more is known. It lists some thousands of\n"
"matches at once. Occurrences are known that end in the part; those of part[start:] end after its start.");

static PyObject *search_so_far(PyObject *of, PyObject *given) {
    PyObject *part, *start, *replacement, *answer;
    Py_ssize_t before;
    int more, wanted;
    Walk walk;
    if (!PyArg_ParseTuple(given, "OOnpiO:_so_far", &part, &start, &before, &more, &wanted, &replacement) ||
        walk_begin(&walk, (Prepared *)of, wanted == OCCURRENCES, (PyObject *const[3]){part, start}))
        return NULL;
    walk_in_part(&walk, (size_t)before, more);
    answer = wanted_of(&walk, wanted, replacement);
    if (answer)
        answer = Py_BuildValue("(NnO)", answer, (Py_ssize_t)searched_to(&walk), walk.is_done ? Py_True : Py_False);
    walk_end(&walk);
    return answer;
}

PyDoc_STRVAR(each_doc, "_each($self, column, skip_missing, counts, /)\n--\n\n"
"The first match of each text of a column of Arrow, or the numbers of matches.");

static PyObject *search_each(PyObject *of, PyObject *given) {
    Prepared *self = (Prepared *)of;
    PyObject *from, *answer = NULL;
    Source source;
    int skips, counts;
    if (!PyArg_ParseTuple(given, "Opp:_each", &from, &skips, &counts) || hold_source(&source, from))
        return NULL;
    if (!check_type(self, &source.column))
        answer = found_in_each(self, &source, skips, counts);
    give_back_source(&source);
    return answer;
}

PyDoc_STRVAR(columns_each_doc, "_columns_each($self, texts, is_column, skip_missing, missing, /)\n--\n\n"
"All matches of all texts, of an iterable or of a column of Arrow, as four arrays: the numbers of the texts, and what\n"
"`find_columns` returns. With `skip_missing`, `missing` is an object that is missing, as None and NaN are.");

static PyObject *search_columns_each(PyObject *of, PyObject *given) {
    Prepared *self = (Prepared *)of;
    PyObject *from, *missing;
    int is_column, skips;
    if (!PyArg_ParseTuple(given, "OppO:_columns_each", &from, &is_column, &skips, &missing) || !is_ready(self->takes))
        return NULL;
    return is_column ? columns_of_source(self, from, skips) : columns_of_texts(self, from, skips ? missing : NULL);
}

/* ---- The iterator ---- */

static PyObject *matches_next(PyObject *self) {
    Matches *matches = (Matches *)self;
    Walk *walk = &matches->walk;
    const literal_match *found;
    PyObject *match = NULL;
    if (matches->is_running) {
        PyErr_SetString(PyExc_ValueError, "another thread is at work on this iterator");
        return NULL;
    }
    matches->is_running = true;
    found = walk_next(walk);
    if (found)
        match = walk_match(walk, found);
    matches->is_running = false;
    if (!match)
        walk_end(walk);
    return match;
}

static int matches_traverse(PyObject *self, visitproc visit, void *arg) {
    Walk *walk = &((Matches *)self)->walk;
    Py_VISIT(Py_TYPE(self));
    Py_VISIT(walk->search);
    Py_VISIT(walk->text.of);
    Py_VISIT(walk->text.buffer.obj);
    return 0;
}

static int matches_clear(PyObject *self) {
    walk_end(&((Matches *)self)->walk);
    return 0;
}

static void matches_dealloc(PyObject *self) {
    PyTypeObject *type = Py_TYPE(self);
    PyObject_GC_UnTrack(self);
    walk_end(&((Matches *)self)->walk);
    PyObject_GC_Del(self);
    Py_DECREF(type);
}

static PyType_Slot matches_slots[] = {
    {Py_tp_doc, (void *)"What finditer and finditer_overlapping give."},
    {Py_tp_dealloc, matches_dealloc},
    {Py_tp_traverse, matches_traverse},
    {Py_tp_clear, matches_clear},
    {Py_tp_iter, PyObject_SelfIter},
    {Py_tp_iternext, matches_next},
    {0},
};

static PyType_Spec matches_spec = {
    .name = "literal_search._native.Matches",
    .basicsize = sizeof(Matches),
    .flags = Py_TPFLAGS_DEFAULT | Py_TPFLAGS_IMMUTABLETYPE | Py_TPFLAGS_DISALLOW_INSTANTIATION | Py_TPFLAGS_HAVE_GC,
    .slots = matches_slots,
};

/* ---- How a searcher begins ---- */

/* Gives a searcher what was made for it. */
static void take_over(Prepared *self, const Prepared *new, PyObject *values) {
    self->patterns = new->patterns;
    self->values = values == Py_None ? NULL : Py_NewRef(values);
    self->leads_on = self->values || !all_are_exact(new->patterns);
    self->pieces = new->pieces;
    self->prepared = new->prepared;
    self->mapped = new->mapped;
    self->kind = new->kind;
    self->ignore_case = new->ignore_case;
    self->ascii_case = new->ascii_case;
    self->whole_words = new->whole_words;
    self->takes = new->takes;
}

PyDoc_STRVAR(prepare_doc, "_prepare($self, patterns, kind, ignore_case, ascii_case, whole_words, kept, values, /)\n--\n"
"\nSets the patterns, str or what lends bytes. `kept` is `_prepared` of a searcher for the same patterns, or None.\n"
"`values` has a mapping's value for each pattern, or is None.");

static PyObject *search_prepare(PyObject *of, PyObject *given) {
    Prepared *self = (Prepared *)of, new = {.takes = TAKES_EITHER};
    PyObject *patterns, *kept, *values;
    int ignore_case, ascii_case, whole_words;
    if (!PyArg_ParseTuple(given, "OipppOO:_prepare", &patterns, &new.kind, &ignore_case, &ascii_case, &whole_words,
                          &kept, &values) ||
        !(new.patterns = patterns_of(patterns)))
        return NULL;
    if (values != Py_None && !has_one_each(values, (size_t)PyTuple_GET_SIZE(new.patterns)))
        PyErr_SetString(PyExc_ValueError, "there is not one value for each pattern");
    if (PyErr_Occurred() || join_pieces(&new.pieces, new.patterns)) {
        Py_DECREF(new.patterns);
        return NULL;
    }
    if (PyTuple_GET_SIZE(new.patterns) > 0)
        new.takes = PyUnicode_Check(PyTuple_GET_ITEM(new.patterns, 0)) ? TAKES_STR : TAKES_BYTES;
    new.ignore_case = (char)ignore_case;
    new.ascii_case = (char)(ascii_case && new.takes == TAKES_STR);
    new.whole_words = (char)whole_words;
    /* (with patterns of ASCII alone the text is not folded: no other character is folded to one of ASCII) */
    if (new.takes == TAKES_STR && ignore_case && !ascii_case && !are_ascii(&new.pieces)) {
        new.takes = TAKES_FOLDED;
        literal_fold(new.pieces.bytes, new.pieces.len);
    }
    if (kept == Py_None)
        new.prepared = prepared_for(&new, &new.pieces, false);
    else
        hold_kept(&new, kept);
    if (new.prepared && self->takes != NOT_PREPARED) {
        drop_prepared(&new);
        PyErr_SetString(PyExc_RuntimeError, "a searcher never changes: make another one");
    }
    if (!new.prepared) {
        free_pieces(&new.pieces);
        Py_DECREF(new.patterns);
        return NULL;
    }
    take_over(self, &new, values);
    Py_RETURN_NONE;
}

PyDoc_STRVAR(sizeof_doc, "__sizeof__($self, /)\n--\n\n"
"How many bytes the searcher has, with what it prepared, and without the objects that were given to it.");

static PyObject *search_sizeof(PyObject *of, PyObject *unused) {
    const Prepared *self = (Prepared *)of;
    PyObject *const parts[5] = {of, self->prepared, self->for_all, self->set, self->checked};
    size_t size = self->pieces.len + self->pieces.count * sizeof(size_t);
    (void)unused;
    for (int i = 0; i < 5 && !PyErr_Occurred(); i++) {
        PyObject *type = (PyObject *)&PyBaseObject_Type;
        PyObject *len = parts[i] ? PyObject_CallMethod(type, "__sizeof__", "O", parts[i]) : NULL;
        size += len ? PyLong_AsSize_t(len) : 0;
        Py_XDECREF(len);
    }
    return PyErr_Occurred() ? NULL : PyLong_FromSize_t(size);
}

PyDoc_STRVAR(plain_bytes_doc, "plain_bytes(of, name, /)\n--\n\n"
"The bytes of a pattern or a replacement, as `name` says.");

static PyObject *module_plain_bytes(PyObject *unused, PyObject *given) {
    PyObject *of;
    const char *name;
    (void)unused;
    return PyArg_ParseTuple(given, "Os:plain_bytes", &of, &name) ? plain_bytes(of, name) : NULL;
}

PyDoc_STRVAR(texts_of_doc, "texts_of(column, /)\n--\n\n"
"The texts of a column of Arrow, as a list of str or bytes, with None for each that is missing.");

static PyObject *module_texts_of(PyObject *unused, PyObject *from) {
    Source source;
    (void)unused;
    if (hold_source(&source, from))
        return NULL;
    PyObject *texts = texts_of_column(&source);
    give_back_source(&source);
    return texts;
}

/* A pattern of a subclass of str can lead to its searcher, and so can a value. They let go what they lead to, so nothing
 * is cleared here. */
static int search_traverse(PyObject *of, visitproc visit, void *arg) {
    Py_VISIT(Py_TYPE(of));
    Py_VISIT(((Prepared *)of)->patterns);
    Py_VISIT(((Prepared *)of)->values);
    Py_VISIT(((Prepared *)of)->set);
    Py_VISIT(((Prepared *)of)->checked);
    return 0;
}

static void search_dealloc(PyObject *of) {
    Prepared *self = (Prepared *)of;
    PyTypeObject *type = Py_TYPE(of);
    PyObject_GC_UnTrack(of);
    Py_XDECREF(self->patterns);
    Py_XDECREF(self->values);
    drop_prepared(self);
    Py_XDECREF(self->for_all);
    Py_XDECREF(self->set);
    Py_XDECREF(self->checked);
    free_pieces(&self->pieces);
    PyObject_GC_Del(of);
    Py_DECREF(type);
}

#define CALL(NAME) {#NAME, (PyCFunction)(void (*)(void))search_##NAME, METH_FASTCALL | METH_KEYWORDS, NAME##_doc}

static PyMethodDef search_methods[] = {
    CALL(find),
    CALL(is_match),
    CALL(find_earliest),
    CALL(findall),
    CALL(findall_strings),
    CALL(find_columns),
    CALL(find_overlapping),
    CALL(finditer),
    CALL(finditer_overlapping),
    CALL(count),
    CALL(count_overlapping),
    CALL(sub),
    CALL(subn),
    CALL(split),
    {"_prepare", search_prepare, METH_VARARGS, prepare_doc},
    {"_checked", search_checked, METH_O, checked_doc},
    {"_so_far", search_so_far, METH_VARARGS, so_far_doc},
    {"_each", search_each, METH_VARARGS, each_doc},
    {"_columns_each", search_columns_each, METH_VARARGS, columns_each_doc},
    {"__sizeof__", search_sizeof, METH_NOARGS, sizeof_doc},
    {"__class_getitem__", Py_GenericAlias, METH_O | METH_CLASS, "Search[str] and Search[bytes], for annotations."},
    {0},
};

static PyMemberDef search_members[] = {
    {"patterns", T_OBJECT_EX, offsetof(Prepared, patterns), READONLY, "The patterns, as str or as bytes."},
    {"_ignore_case", T_BOOL, offsetof(Prepared, ignore_case), READONLY, NULL},
    {"_ascii_case", T_BOOL, offsetof(Prepared, ascii_case), READONLY, NULL},
    {"whole_words", T_BOOL, offsetof(Prepared, whole_words), READONLY, "Whether it finds whole words alone."},
    {"_values", T_OBJECT, offsetof(Prepared, values), READONLY, NULL},
    {"_kind", T_INT, offsetof(Prepared, kind), READONLY, NULL},
    {"_prepared", T_OBJECT_EX, offsetof(Prepared, prepared), READONLY, NULL},
    {"_for_all", T_OBJECT, offsetof(Prepared, for_all), READONLY, NULL},
    {0},
};

static PyType_Slot search_slots[] = {
    {Py_tp_doc, (void *)"What a Search finds."},
    {Py_tp_new, PyType_GenericNew},
    {Py_tp_dealloc, search_dealloc},
    {Py_tp_traverse, search_traverse},
    {Py_tp_methods, search_methods},
    {Py_tp_members, search_members},
    {Py_tp_iter, search_iter},
    {Py_sq_length, search_length},
    {Py_sq_contains, search_contains},
    {0},
};

static PyType_Spec search_spec = {
    .name = "literal_search._native.Prepared",
    .basicsize = sizeof(Prepared),
    .flags = Py_TPFLAGS_DEFAULT | Py_TPFLAGS_IMMUTABLETYPE | Py_TPFLAGS_BASETYPE | Py_TPFLAGS_HAVE_GC,
    .slots = search_slots,
};

static PyMethodDef module_methods[] = {
    {"plain_bytes", module_plain_bytes, METH_VARARGS, plain_bytes_doc},
    {"texts_of", module_texts_of, METH_O, texts_of_doc},
    {0},
};

static struct PyModuleDef module = {
    PyModuleDef_HEAD_INIT,
    .m_name = "literal_search._native",
    .m_doc = "The searches of literal_search.h, for Python.",
    .m_size = -1,
    .m_methods = module_methods,
};

/* Whether the processor has what the library is compiled for. The loader looks, too, but not where lld linked this. */
static int has_instructions(void) {
#ifdef __x86_64__
    return __builtin_cpu_supports("sse4.2") && __builtin_cpu_supports("popcnt");
#else
    return 1;
#endif
}

/* Makes the types of the iterator and of the searcher. */
static int types_ready(PyObject *made) {
    PyObject *type = PyType_FromSpec(&search_spec);
    int status = type ? PyModule_AddType(made, (PyTypeObject *)type) : -1;
    Py_XDECREF(type);
    matches_type = (PyTypeObject *)PyType_FromSpec(&matches_spec);
    return matches_type ? status : -1;
}

PyMODINIT_FUNC PyInit__native(void) {
    if (!has_instructions()) {
        PyErr_SetString(PyExc_ImportError, "CPU ISA level is lower than required");
        return NULL;
    }
    PyObject *made = PyModule_Create(&module);
    if (!made || match_ready() || columns_ready() || PyModule_AddType(made, match_type) || types_ready(made) ||
        PyModule_AddStringConstant(made, "__version__", LITERAL_VERSION)) {
        Py_XDECREF(made);
        return NULL;
    }
    return made;
}
