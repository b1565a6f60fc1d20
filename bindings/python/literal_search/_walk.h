/* Searches on their way through a text, piece by piece: how far a call of the library goes, and what it found. Included
 * once, by _native.c. */
#ifndef LITERAL_SEARCH_WALK_H
#define LITERAL_SEARCH_WALK_H

#include "_python.h"

#include <time.h>

#include "_match.h"
#include "_prepared.h"
#include "_text.h"
#include "literal_search.h"

enum {
    PIECE = 1 << 20,      /* bytes of a piece, unless the longest pattern is much longer */
    FIRST_PAGE = 32,      /* room for so many matches at first */
    LARGEST_PAGE = 4096,  /* and for so many later, or for more with a long pattern */
    GROWTH = 8,           /* then for so many times as many as in the page before */
    WORDS_AHEAD = 1 << 27, /* bytes looked up for whole words, at most, in a call where they are frequent */
    MOMENT = 100000000,   /* nanoseconds: after a piece with whole words that takes longer the next one is shorter */
    TAIL = 1 << 9,        /* so many bytes in front of a piece tell whether a long pattern may have begun */
    MOST_ROOM = 1 << 15   /* room for so many occurrences, unless a page would go back further than it goes on */
};

/* A search on its way: for matches that do not overlap, or for all that occurs. What begins before `at` is found, or of
 * all that occurs what ends there or before. */
typedef struct {
    Prepared *search;
    Text text;
    bool for_all, is_done; /* (done: nothing is left to be searched) */
    bool is_part, more;    /* whether the text is a part of one that is read; whether more may follow it */
    size_t before;         /* how much came before this part, as offsets count */
    size_t len;            /* how many bytes the next piece has */
    size_t start, at, end;
    Place place; /* how far offsets are counted */
    literal_match *matches, first[FIRST_PAGE];
    size_t room, wanted, written, given; /* (the next page has the wanted room) */
} Walk;

/* ---- How far a call of the library goes ---- */

/* In how many bytes whole words are looked for in a moment, however many patterns begin at each: for one the library may
 * look up one byte more than the longest pattern has. */
static size_t word_len(const Prepared *search) {
    return WORDS_AHEAD / (search->pieces.longest + 1) + 1;
}

/* How many bytes a search goes on at once. After them a call reads as many as the longest pattern has, or before them
 * in a search for every occurrence: so at most five calls get each byte. With whole words it is less, but so much that
 * few bytes are read twice. */
static size_t piece_len(const Prepared *search) {
    size_t longest = search->pieces.longest, len = longest / 4 > PIECE ? longest / 4 : PIECE, least = 4 * longest;
    if (search->whole_words && least < len)
        len = word_len(search) < least ? least : word_len(search) < len ? word_len(search) : len;
    return len;
}

/* How few bytes a piece with whole words may have. Behind it as many are searched, too, as the longest pattern has, so
 * shorter pieces would hardly take less time. */
static size_t least_len(const Prepared *search) {
    return search->pieces.longest / 4 + 1;
}

/* How many bytes the first piece has: with whole words few, since the text decides how long each byte takes. */
static size_t first_len(const Prepared *search) {
    size_t most = piece_len(search);
    if (!search->whole_words)
        return most;
    size_t len = word_len(search), least = least_len(search);
    len = len < least ? least : len;
    return len < most ? len : most;
}

static int64_t nanoseconds(void) {
    struct timespec now;
    clock_gettime(CLOCK_MONOTONIC, &now);
    return now.tv_sec * INT64_C(1000000000) + now.tv_nsec;
}

/* When a piece begins, or 0 if the length of the next one does not depend on it, or there is no next one. */
static int64_t begin_piece(const Prepared *search, bool is_last) {
    return search->whole_words && !is_last ? nanoseconds() : 0;
}

/* How many bytes the next piece has, after one of `len` bytes that began at a time and ends now. */
static size_t next_len(const Prepared *search, size_t len, int64_t began) {
    if (began == 0)
        return len;
    size_t least = least_len(search), most = piece_len(search);
    int64_t took = nanoseconds() - began;
    if (took > MOMENT)
        return len / 2 > least ? len / 2 : least;
    return took > MOMENT / 4 ? len : len * 2 < most ? len * 2 : most;
}

/* Where the next piece of the bytes between `at` and `end` ends. What is found in it is what the whole text has, since
 * the library is told that more follows. */
static size_t end_of_piece(const Prepared *search, size_t at, size_t end) {
    size_t len = piece_len(search) + search->pieces.longest;
    return end - at > len ? at + len : end;
}

/* Cuts the next piece, of at most `len` bytes, from those between `at` and `end`. Every occurrence that begins before the
 * cut ends within the piece. So the matches of the piece that begin there are right; what follows is searched again from
 * the cut on. */
static size_t cut_piece(const Prepared *search, size_t len, size_t at, size_t end, size_t *piece_end) {
    size_t cut = end - at > len ? at + len : end;
    *piece_end = end - cut > search->pieces.longest ? cut + search->pieces.longest : end;
    return *piece_end == end ? end : cut;
}

/* How many matches to find at once, where there are many. Each page looks up at least twice as many bytes as the longest
 * pattern has. So with a long one it has more matches, and if it is full, it is at least a quarter as long as that
 * pattern. */
static size_t most_matches(const Walk *walk) {
    size_t longest = walk->search->pieces.longest;
    return longest / 4 > LARGEST_PAGE ? longest / 4 : LARGEST_PAGE;
}

/* Whether a search may keep so many bytes of a piece. None keeps as many as the longest pattern has, unless it is
 * damaged: then it might never come to an end. */
static bool may_keep(const Prepared *search, size_t kept) {
    return kept == 0 || kept < search->pieces.longest;
}

/* Whether matches lie one after another between two places, and are of the searcher's patterns. It is so, unless the
 * prepared search is damaged. */
static bool are_in_order(const Prepared *search, const literal_match *matches, size_t count, size_t at, size_t end) {
    for (size_t i = 0; i < count; i++) {
        if (matches[i].start < at || matches[i].end <= matches[i].start || matches[i].end > end ||
            matches[i].pattern >= search->pieces.count)
            return false;
        at = matches[i].end;
    }
    return true;
}

/* ---- One match ---- */

/* Finds the first match between two places: 1, or 0 if there is none, or -1 with an error. */
static int find_first(const Prepared *search, const Text *text, size_t at, size_t end, literal_match *found) {
    size_t words_len;
    const uint32_t *words = array_of(search, &words_len);
    for (;;) {
        size_t piece_end = end_of_piece(search, at, end);
        PyThreadState *state = let_others_run(piece_end - at);
        int32_t status = literal_find_so_far_in(words, words_len, text->bytes, piece_end, at, piece_end < end, found,
                                                &at);
        come_back(state);
        if (status == LITERAL_OK)
            return is_found(search, found);
        if (status != LITERAL_NONE || !may_keep(search, piece_end - at))
            return refuse(status == LITERAL_NONE ? LITERAL_DAMAGED : status);
        if (piece_end == end)
            return 0;
        if (PyErr_CheckSignals())
            return -1;
    }
}

/* Finds the first whole word between two places, as find_first does. The library is handed more than the piece, since
 * what is next to a word counts. If sides are to be made, the first pieces are short, so that few are. */
static int find_first_word(const Prepared *search, Text *text, size_t at, size_t end, literal_match *found) {
    size_t words_len, piece_end, len = first_len(search);
    const uint32_t *words = array_of(search, &words_len);
    if (text->sides && len > SHORT)
        len = SHORT > least_len(search) ? SHORT : least_len(search);
    while (at < end) {
        size_t cut = cut_piece(search, len, at, end, &piece_end);
        if (learn_sides(text, piece_end))
            return -1;
        PyThreadState *state = let_others_run(piece_end - at);
        int64_t began = begin_piece(search, cut == end);
        make_sides(text, piece_end);
        int32_t status = literal_find_word_by_sides_in((uint32_t)search->kind, words, words_len, text->bytes,
                                                       handed_len(text), text->sides, text->sides ? handed_len(text) : 0,
                                                       at, piece_end, found);
        len = next_len(search, len, began);
        come_back(state);
        if (status != LITERAL_OK && status != LITERAL_NONE)
            return refuse(status);
        if (status == LITERAL_OK && found->start < cut)
            return is_found(search, found);
        if (PyErr_CheckSignals())
            return -1;
        at = cut;
    }
    return 0;
}

/* Finds, of all that occurs between two places, what ends first. The library looks further, whether more is to come; so
 * the first pieces are short. */
static int find_earliest(const Prepared *search, const Text *text, size_t start, size_t end, literal_match *found) {
    size_t longest = search->pieces.longest, words_len, len = SHORT > longest ? SHORT : longest;
    const uint32_t *words = words_of(search->for_all, &words_len);
    literal_page page = {0, start, 0};
    for (size_t at = start; at < end; len *= 2) {
        size_t from = longest > 0 && at - start > longest - 1 ? at - (longest - 1) : start;
        len = len < piece_len(search) ? len : piece_len(search);
        at = end - at > len ? at + len : end;
        PyThreadState *state = let_others_run(at - from);
        int32_t status = literal_find_overlapping_in(words, words_len, text->bytes, text->len, from, at, found, 1,
                                                     &page);
        come_back(state);
        if (status != LITERAL_OK)
            return refuse(status);
        if (page.written > 0)
            return 1;
        if (PyErr_CheckSignals())
            return -1;
    }
    return 0;
}

/* ---- Pages of matches ---- */

static void walk_end(Walk *walk) {
    if (walk->matches != walk->first)
        PyMem_Free(walk->matches);
    walk->matches = walk->first;
    walk->is_done = true;
    walk->written = walk->given = 0;
    give_back(&walk->text);
    Py_CLEAR(walk->search);
}

/* Makes a walk that has no text yet. */
static void walk_for(Walk *walk, Prepared *search, bool for_all) {
    walk->search = (Prepared *)Py_NewRef((PyObject *)search);
    walk->for_all = for_all;
    walk->is_part = walk->more = false;
    walk->before = 0;
    walk->matches = walk->first;
    walk->room = walk->wanted = FIRST_PAGE;
}

/* Begins at a place of the text that is held, up to a byte of it. */
static int walk_from(Walk *walk, Place place, size_t end) {
    if (walk->search->whole_words && begin_sides(&walk->text, place))
        return -1;
    walk->place = place;
    walk->end = end;
    walk->len = first_len(walk->search);
    walk->start = walk->at = place.byte;
    walk->is_done = walk->at == end;
    walk->written = walk->given = 0;
    return 0;
}

/* Begins a walk through text[start:end]. */
static int walk_begin(Walk *walk, Prepared *search, bool for_all, PyObject *const asked[3]) {
    Place place;
    size_t end;
    if (hold(&walk->text, search->takes, asked[0]))
        return -1;
    walk_for(walk, search, for_all);
    if ((for_all && prepare_for_all(search)) || bounds(&walk->text, asked[1], asked[2], &place, &end) ||
        walk_from(walk, place, end)) {
        walk_end(walk);
        return -1;
    }
    return 0;
}

/* Says that the text is a part of one that is read: how much came before, and whether more may follow. Of all that
 * occurs in it what ends behind its start is searched for, wherever in the part that begins. */
static void walk_in_part(Walk *walk, size_t before, bool more) {
    walk->is_part = true;
    walk->start = 0;
    walk->before = before;
    walk->more = more;
}

/* Makes the room for matches that is wanted. None of them is kept. */
static int walk_widen(Walk *walk) {
    literal_match *wider = PyMem_New(literal_match, walk->wanted);
    if (!wider) {
        PyErr_NoMemory();
        return -1;
    }
    if (walk->matches != walk->first)
        PyMem_Free(walk->matches);
    walk->matches = wider;
    walk->room = walk->wanted;
    return 0;
}

/* Takes over so many matches, behind which the search goes on at a place. After a large page that is full the next one
 * is larger, if a pattern is long. */
static void take_matches(Walk *walk, size_t count, size_t at, bool is_done) {
    walk->at = at;
    walk->is_done = is_done;
    walk->written = count;
    walk->given = 0;
    if (count > 0) {
        size_t most = most_matches(walk), more = walk->room < LARGEST_PAGE ? LARGEST_PAGE : GROWTH * count;
        if (walk->room < more)
            walk->wanted = more < most ? more : most;
    }
}

/* Takes over what the library wrote of a piece, up to the cut. */
static int take_words(Walk *walk, const literal_page *page, size_t cut, size_t piece_end) {
    size_t count = page->written, at = walk->at, known;
    if (count > walk->room || (count == 0 && !page->is_last) ||
        !are_in_order(walk->search, walk->matches, count, at, piece_end))
        return refuse(LITERAL_DAMAGED);
    while (count > 0 && walk->matches[count - 1].start >= cut)
        count--;
    if (count > 0)
        at = walk->matches[count - 1].end;
    /* (behind these none begins before where the next one does, and of the last page none before the cut) */
    known = page->is_last || count < page->written || cut < page->next ? cut : page->next;
    if (at < known)
        at = known;
    take_matches(walk, count, at, page->is_last && cut == walk->end);
    return 0;
}

/* Finds the whole words of the next piece of a text, as many as there is room for, in one call. */
static int words_of_piece(Walk *walk) {
    size_t words_len, piece_end;
    size_t cut = cut_piece(walk->search, walk->len, walk->at, walk->end, &piece_end);
    const uint32_t *words = array_of(walk->search, &words_len);
    Text *text = &walk->text;
    literal_page page;
    if (learn_sides(text, piece_end))
        return -1;
    PyThreadState *state = let_others_run(piece_end - walk->at);
    int64_t began = begin_piece(walk->search, cut == walk->end);
    make_sides(text, piece_end);
    int32_t status = literal_find_all_words_by_sides_in((uint32_t)walk->search->kind, words, words_len, text->bytes,
                                                        handed_len(text), text->sides,
                                                        text->sides ? handed_len(text) : 0, walk->at, piece_end,
                                                        walk->matches, walk->room, &page);
    walk->len = next_len(walk->search, walk->len, began);
    come_back(state);
    return status == LITERAL_OK ? take_words(walk, &page, cut, piece_end) : refuse(status);
}

/* Finds the matches of the next piece that stand whatever follows it, as many as there is room for, in one call. If
 * nothing follows, the call for a whole text takes less time. */
static int matches_of_piece(Walk *walk) {
    size_t words_len, piece_end = end_of_piece(walk->search, walk->at, walk->end);
    const uint32_t *words = array_of(walk->search, &words_len);
    bool more = walk->more || piece_end < walk->end;
    literal_page page;
    int32_t status;
    PyThreadState *state = let_others_run(piece_end - walk->at);
    if (more)
        status = literal_find_all_so_far_in(words, words_len, walk->text.bytes, piece_end, walk->at, true,
                                            walk->matches, walk->room, &page);
    else
        status = literal_find_all_in(words, words_len, walk->text.bytes, piece_end, walk->at, piece_end, walk->matches,
                                     walk->room, &page);
    come_back(state);
    if (status != LITERAL_OK)
        return refuse(status);
    if (page.next > piece_end || !are_in_order(walk->search, walk->matches, page.written, walk->at, page.next) ||
        (more && page.is_last && !may_keep(walk->search, piece_end - page.next)))
        return refuse(LITERAL_DAMAGED);
    take_matches(walk, page.written, page.is_last && !more ? piece_end : page.next,
                 page.is_last && piece_end == walk->end);
    return 0;
}

/* Finds the matches of the next piece. */
static int page_of_matches(Walk *walk) {
    return walk->search->whole_words ? words_of_piece(walk) : matches_of_piece(walk);
}

/* Whether the next piece can be counted alone: it is the last one, or no match reaches over its end. */
static bool is_countable(const Walk *walk) {
    const Prepared *search = walk->search;
    bool is_last = end_of_piece(search, walk->at, walk->end) == walk->end;
    return !walk->is_part && (is_last || search->pieces.longest <= 1);
}

/* Counts the matches of the next piece. */
static int count_matches(Walk *walk, size_t *count) {
    size_t words_len, found = 0, end = end_of_piece(walk->search, walk->at, walk->end);
    const uint32_t *words = array_of(walk->search, &words_len);
    Text *text = &walk->text;
    int32_t status;
    if (learn_sides(text, end))
        return -1;
    PyThreadState *state = let_others_run(end - walk->at);
    make_sides(text, end);
    if (walk->search->whole_words)
        status = literal_count_words_by_sides_in((uint32_t)walk->search->kind, words, words_len, text->bytes,
                                                 handed_len(text), text->sides,
                                                 text->sides ? handed_len(text) : 0, walk->at, end,
                                                 &found);
    else
        status = literal_count_in(words, words_len, text->bytes, text->len, walk->at, end, &found);
    come_back(state);
    if (status != LITERAL_OK)
        return refuse(status);
    *count += found;
    walk->at = end;
    walk->is_done = end == walk->end;
    return 0;
}

/* Takes over what ends behind `at`, and is whole: where there was not room for all, what ends with the last that was
 * written may not be. The next page lists again what ends there, and what lies in as many bytes before as the longest
 * pattern has: so it gets more room, if this one did not go on a quarter as far as it went back. */
static void take_occurrences(Walk *walk, const literal_page *page, size_t from, size_t to) {
    size_t next = page->is_last ? to : page->next - 1;
    walk->given = 0;
    walk->written = page->written;
    while (walk->given < walk->written && walk->matches[walk->given].end <= walk->at)
        walk->given++;
    while (walk->written > walk->given && walk->matches[walk->written - 1].end > next)
        walk->written--;
    bool is_slow = next <= walk->at || next - walk->at < (walk->at - from) / 4;
    if (!page->is_last && (walk->room < MOST_ROOM || is_slow))
        walk->wanted = walk->room < MOST_ROOM ? walk->room * 4 : walk->room * 2;
    if (next > walk->at)
        walk->at = next;
    walk->is_done = walk->at == walk->end;
}

/* How many bytes in front of `at` something may begin that ends behind it: fewer than the longest pattern has. And fewer
 * than TAIL, if what stands in so many bytes in front of `at` stands in no pattern. To look for that is worth it where a
 * pattern is much longer, and makes up a good part of all. */
static size_t reach_back(const Walk *walk) {
    const Pieces *pieces = &walk->search->pieces;
    size_t reach = pieces->longest > 0 ? pieces->longest - 1 : 0, before = walk->at - walk->start;
    if (reach / 16 > TAIL && before >= TAIL && pieces->len / 4 <= pieces->longest && !walk->search->ignore_case &&
        !memmem(pieces->bytes, pieces->len, walk->text.bytes + walk->at - TAIL, TAIL))
        reach = TAIL - 1;
    return reach < before ? reach : before;
}

/* Finds all that occurs in the next piece, from where something may begin that ends behind `at`. */
static int page_of_occurrences(Walk *walk) {
    size_t len = piece_len(walk->search), to = walk->end - walk->at > len ? walk->at + len : walk->end, words_len;
    const uint32_t *words = words_of(walk->search->for_all, &words_len);
    literal_page page;
    PyThreadState *state = let_others_run(to - walk->at + walk->search->pieces.longest);
    size_t from = walk->at - reach_back(walk);
    int32_t status = literal_find_overlapping_in(words, words_len, walk->text.bytes, walk->text.len, from, to,
                                                 walk->matches, walk->room, &page);
    come_back(state);
    if (status != LITERAL_OK)
        return refuse(status);
    take_occurrences(walk, &page, from, to);
    return 0;
}

/* Counts what occurs in the next piece and ends behind `at`: all, without what ends at `at` or before. */
static int count_occurrences(Walk *walk, size_t *count) {
    size_t len = piece_len(walk->search), to = walk->end - walk->at > len ? walk->at + len : walk->end;
    size_t words_len, all, before;
    const uint32_t *words = words_of(walk->search->for_all, &words_len);
    const Text *text = &walk->text;
    PyThreadState *state = let_others_run(to - walk->at + walk->search->pieces.longest);
    size_t from = walk->at - reach_back(walk);
    int32_t status = literal_count_overlapping_in(words, words_len, text->bytes, text->len, from, to, &all);
    if (status == LITERAL_OK)
        status = literal_count_overlapping_in(words, words_len, text->bytes, text->len, from, walk->at, &before);
    come_back(state);
    if (status != LITERAL_OK)
        return refuse(status);
    *count += all - before;
    walk->at = to;
    walk->is_done = to == walk->end;
    return 0;
}

/* Searches on, until there are matches or the walk is done. */
static int walk_on(Walk *walk) {
    while (walk->given == walk->written && !walk->is_done) {
        if (walk->room < walk->wanted && walk_widen(walk))
            return -1;
        if (walk->for_all ? page_of_occurrences(walk) : page_of_matches(walk))
            return -1;
        if (!walk->is_done && PyErr_CheckSignals())
            return -1;
    }
    return 0;
}

/* The next match, or NULL: with an error, or with none where the walk is done. */
static const literal_match *walk_next(Walk *walk) {
    if (walk->given == walk->written && walk_on(walk))
        return NULL;
    return walk->given < walk->written ? &walk->matches[walk->given++] : NULL;
}

/* ---- What is answered ---- */

/* The items of a match of what was found. The place moves on to its end. */
static void show(const Text *text, Place *place, const literal_match *found, size_t shown[SHOWN]) {
    bool is_ahead = found->start >= place->byte;
    shown[PATTERN] = found->pattern;
    shown[START] = is_ahead ? offset_of(text, place, found->start) : 0;
    shown[END] = offset_of(text, place, found->end);
    if (!is_ahead) {
        size_t len = found->end - found->start;
        shown[START] = shown[END] - (text->is_wide ? characters(text->bytes + found->start, len) : len);
    }
}

/* The Match of what was found. The place moves on to its end. */
static PyObject *match_at(const Prepared *search, const Text *text, Place *place, const literal_match *found) {
    size_t shown[SHOWN];
    show(text, place, found, shown);
    return new_match(shown, text->of, search->values ? search->values : search->patterns,
                     search->leads_on || leads_on(text));
}

/* The pattern of what was found, if it has the same bytes, and is a str or bytes of no subclass; or NULL. Of a folded
 * text this is not known, since the pieces are folded. */
static PyObject *pattern_as_matched(const Walk *walk, const literal_match *found) {
    const Pieces *pieces = &walk->search->pieces;
    PyObject *pattern = PyTuple_GET_ITEM(walk->search->patterns, (Py_ssize_t)found->pattern);
    size_t start = found->pattern > 0 ? pieces->ends[found->pattern - 1] : 0, len = found->end - found->start;
    const uint8_t *bytes = pieces->bytes + start, *matched = walk->text.bytes + found->start;
    bool is_same = walk->search->takes != TAKES_FOLDED && pieces->ends[found->pattern] - start == len &&
                   (PyUnicode_CheckExact(pattern) || PyBytes_CheckExact(pattern)) && bytes[0] == matched[0] &&
                   (len == 1 || memcmp(bytes, matched, len) == 0);
    return is_same ? pattern : NULL;
}

/* The same of a part of a text. It is not held, so the match has what was matched: the pattern, or a copy. */
static PyObject *match_of_part(Walk *walk, const literal_match *found) {
    const Prepared *search = walk->search;
    PyObject *of = search->values ? search->values : search->patterns, *group = pattern_as_matched(walk, found);
    size_t shown[SHOWN];
    show(&walk->text, &walk->place, found, shown);
    if (group)
        Py_INCREF(group);
    else
        group = part_of(&walk->text, (Place){found->start, shown[START]}, (Place){found->end, shown[END]});
    shown[START] += walk->before;
    shown[END] += walk->before;
    PyObject *value = PyTuple_GET_ITEM(of, (Py_ssize_t)found->pattern);
    PyObject *match = group ? match_of_its_own(shown, group, value, search->leads_on) : NULL;
    Py_XDECREF(group);
    return match;
}

static PyObject *walk_match(Walk *walk, const literal_match *found) {
    return walk->is_part ? match_of_part(walk, found) : match_at(walk->search, &walk->text, &walk->place, found);
}

/* Up to where a part is searched, as offsets count: where a character begins. */
static size_t searched_to(Walk *walk) {
    size_t at = walk->at;
    while (walk->text.is_wide && at > walk->place.byte && at < walk->text.len && (walk->text.bytes[at] & 0xC0) == 0x80)
        at--;
    return offset_of(&walk->text, &walk->place, at);
}

#endif
