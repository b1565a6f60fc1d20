/* Calls each function of the header, with lists of length 0 by NULL too, and ends with 1 where an answer is wrong, as
 * it then says, with the name of its own function. With the word `stack` it does so on a thread with a stack of 32
 * KiB. */
#include <pthread.h>
#include <stdint.h>
#include <stdio.h>
#include <stdlib.h>

/* The functions of the header get no block that is larger than this. */
static size_t most = SIZE_MAX;
/* The largest block that they got by realloc. */
static size_t grown;

static inline void *limited(size_t size) {
    return size > most ? NULL : malloc(size);
}

static inline void *limited_growth(void *block, size_t size) {
    if (size > most)
        return NULL;
    if (size > grown)
        grown = size;
    return realloc(block, size);
}

#define malloc limited
#define realloc limited_growth
#include "literal_search.h"

enum { STACK = 32 * 1024, PLACES = 4096 };

static const char *const WORDS[] = {"apple", "maple", "Snapple"};
static const char TEXT[] = "Nobody likes maple in their apple flavored Snapple.";
static uint8_t patterns[32];
static size_t ends[3];
static uint32_t prepared[PLACES], for_all[PLACES];
static int wrong;

#define CHECK(CLAIM) \
    do { \
        if (!(CLAIM)) { \
            wrong = 1; \
            fprintf(stderr, "%s, line %d: not %s\n", __func__, __LINE__, #CLAIM); \
        } \
    } while (0)

static int is(const literal_match *found, size_t pattern, size_t start, size_t end) {
    return found->pattern == pattern && found->start == start && found->end == end;
}

static void join(void) {
    static const char *const NONE[] = {"", ""};
    CHECK(literal_join(WORDS, 3, NULL, 0, NULL) == 17);
    CHECK(literal_join(WORDS, 3, patterns, 16, ends) == 17 && patterns[0] == 0 && ends[2] == 0);
    CHECK(literal_join(NONE, 2, NULL, 0, ends) == 0 && ends[0] == 0 && ends[1] == 0);
    CHECK(literal_join(NULL, 0, NULL, 0, NULL) == 0);
    CHECK(literal_join(WORDS, 3, patterns, sizeof patterns, ends) == 17);
    CHECK(ends[0] == 5 && ends[1] == 10 && ends[2] == 17);
    CHECK(memcmp(patterns, "applemapleSnapple", 17) == 0);
}

static void by_patterns(const uint8_t *text, size_t len) {
    literal_match found[3] = {{0, 0, 0}};
    literal_page page = {0, 0, 0};
    literal_answer answers[2];
    size_t lines[2] = {len, len}, count = 0;
    uint8_t word[] = "\xC3\x89T\xC3\x89\xFF";
    CHECK(literal_version() == LITERAL_VERSION_NUMBER);
    CHECK(literal_fold(word, 6) == LITERAL_OK && memcmp(word, "\xC3\xA9t\xC3\xA9\xFF", 6) == 0);
    CHECK(literal_fold(NULL, 0) == LITERAL_OK);
    CHECK(literal_can_search(patterns, 17, ends, 3) == LITERAL_OK);
    CHECK(literal_find(0, false, patterns, 17, ends, 3, text, len, 14, len, found) == LITERAL_OK);
    CHECK(is(found, 0, 28, 33));
    CHECK(literal_find_all(0, false, patterns, 17, ends, 3, text, len, 0, found, 3, &page) == LITERAL_OK);
    CHECK(page.written == 3 && page.is_last == 1 && is(&found[2], 2, 43, 50));
    CHECK(literal_find_all(0, false, patterns, 17, ends, 3, text, 20, 0, found, 3, &page) == LITERAL_OK);
    CHECK(page.written == 1 && page.is_last == 1); /* a shorter length is an earlier end */
    CHECK(literal_find_overlapping(false, patterns, 17, ends, 3, text, len, 14, len, found, 3, &page) == LITERAL_OK);
    CHECK(page.written == 3 && page.is_last == 1 && page.next == 50 && is(&found[0], 0, 28, 33));
    CHECK(is(&found[1], 0, 45, 50) && is(&found[2], 2, 43, 50));
    CHECK(literal_count_overlapping(false, patterns, 17, ends, 3, text, len, 14, len, &count) == LITERAL_OK);
    CHECK(count == 3);
    CHECK(literal_count_overlapping(false, patterns, 17, ends, 3, text, len, 14, 13, &count) == LITERAL_BAD_ARGUMENTS);
    CHECK(literal_find_each(0, false, patterns, 17, ends, 3, text, len, lines, 2, answers, 2) == LITERAL_OK);
    CHECK(answers[0].status == LITERAL_OK && is(&answers[0].found, 1, 13, 18));
    CHECK(answers[1].status == LITERAL_NONE && is(&answers[1].found, 0, 0, 0));
}

static void prepare(void) {
    size_t needed = 0, again = 0;
    literal_info info = {7, 7, 7, 7, 7};
    CHECK(literal_prepared_info(prepared, PLACES, &info) == LITERAL_DAMAGED && info.patterns == 7);
    CHECK(literal_prepare(0, false, patterns, 17, ends, 3, NULL, 0, &needed) == LITERAL_TOO_SHORT && needed > 0);
    CHECK(needed < PLACES);
    CHECK(literal_prepare(0, false, patterns, 17, ends, 3, prepared, needed - 1, &again) == LITERAL_TOO_SHORT);
    CHECK(again == needed && prepared[0] == 0);
    CHECK(literal_prepare(0, false, patterns, 17, ends, 3, prepared, PLACES, &again) == LITERAL_OK && again == needed);
    CHECK(literal_check_prepared(prepared, needed) == LITERAL_OK);
    CHECK(literal_check_prepared(prepared, needed - 1) == LITERAL_DAMAGED);
    CHECK(literal_prepare_overlapping(false, patterns, 17, ends, 3, NULL, 0, &needed) == LITERAL_TOO_SHORT);
    CHECK(needed < PLACES && for_all[0] == 0);
    CHECK(literal_prepare_overlapping(false, patterns, 17, ends, 3, for_all, PLACES, &again) == LITERAL_OK);
    CHECK(again == needed && literal_check_prepared(for_all, needed) == LITERAL_DAMAGED);
    CHECK(literal_check_overlapping(for_all, needed) == LITERAL_OK);
    CHECK(literal_check_overlapping(for_all, needed - 1) == LITERAL_DAMAGED);
    CHECK(literal_prepared_info(prepared, PLACES, &info) == LITERAL_OK && info.is_overlapping == 0 && info.kind == 0);
    CHECK(info.patterns == 3 && info.shortest == 5 && info.longest == 7);
    CHECK(literal_prepared_info(for_all, PLACES, &info) == LITERAL_OK && info.is_overlapping == 1 && info.kind == 0);
    CHECK(info.patterns == 3 && info.shortest == 5 && info.longest == 7);
}

static void by_states(const uint8_t *text, size_t len) {
    size_t found[2] = {7, 7}, at = 0, total = 7;
    uint32_t state = LITERAL_START_STATE, other = 7;
    CHECK(literal_walk_in(for_all, PLACES, state, text, len, 30, len, &state, &at) == LITERAL_OK && at == 50);
    CHECK(literal_is_match(state));
    CHECK(literal_patterns_at_in(for_all, PLACES, state, 0, found, 2, &total) == LITERAL_OK && total == 2);
    CHECK(found[0] == 0 && found[1] == 2);
    CHECK(literal_patterns_at_in(for_all, PLACES, state, 1, NULL, 0, &total) == LITERAL_OK && total == 2);
    CHECK(literal_walk_in(for_all, PLACES, state, text, len, at, len, &state, &at) == LITERAL_NONE && at == len);
    CHECK(state == LITERAL_START_STATE && !literal_is_match(state));
    CHECK(literal_next_state_in(for_all, PLACES, state, 'm', &other) == LITERAL_OK && other != state);
    CHECK(literal_next_state_in(prepared, PLACES, state, 'm', &other) == LITERAL_DAMAGED);
    CHECK(literal_walk_in(for_all, PLACES, other, NULL, 0, 0, 0, &state, &at) == LITERAL_NONE && state == other);
}

static void by_prepared(const uint8_t *text, size_t len) {
    literal_match found[3] = {{0, 0, 0}};
    literal_page page = {0, 0, 0};
    literal_answer answers[2];
    size_t lines[2] = {len, len}, count = 0;
    CHECK(literal_find_in(prepared, PLACES, text, len, 14, len, found) == LITERAL_OK && is(found, 0, 28, 33));
    CHECK(literal_find_in(prepared, PLACES, text, len, 14, len + 1, found) == LITERAL_BAD_ARGUMENTS);
    CHECK(literal_find_so_far_in(prepared, PLACES, text, 19, 0, true, found, &count) == LITERAL_NONE && count == 13);
    CHECK(literal_find_so_far_in(prepared, PLACES, text, 20, 13, true, found, &count) == LITERAL_OK && count == 18);
    CHECK(is(found, 1, 13, 18));
    CHECK(literal_find_so_far_in(prepared, PLACES, text, len, 34, false, found, &count) == LITERAL_OK && count == 50);
    CHECK(literal_find_so_far_in(prepared, PLACES, text, 20, 21, true, found, &count) == LITERAL_BAD_ARGUMENTS);
    CHECK(is(found, 2, 43, 50) && count == 50);
    CHECK(literal_find_all_so_far_in(prepared, PLACES, text, 34, 0, true, found, 3, &page) == LITERAL_OK);
    CHECK(page.written == 1 && page.is_last == 1 && page.next == 28 && is(found, 1, 13, 18));
    CHECK(literal_find_all_so_far_in(prepared, PLACES, text, len, 18, false, found, 1, &page) == LITERAL_OK);
    CHECK(page.written == 1 && page.is_last == 0 && page.next == 33 && is(found, 0, 28, 33));
    CHECK(literal_find_all_so_far_in(prepared, PLACES, text, 20, 21, true, found, 3, &page) == LITERAL_BAD_ARGUMENTS);
    CHECK(literal_find_all_in(prepared, PLACES, text, len, 14, 50, found, 3, &page) == LITERAL_OK);
    CHECK(page.written == 2 && page.is_last == 1 && is(&found[0], 0, 28, 33) && is(&found[1], 2, 43, 50));
    CHECK(literal_find_overlapping_in(for_all, PLACES, text, len, 14, len, found, 3, &page) == LITERAL_OK);
    CHECK(page.written == 3 && page.is_last == 1 && page.next == 50 && is(&found[0], 0, 28, 33));
    CHECK(is(&found[1], 0, 45, 50) && is(&found[2], 2, 43, 50));
    CHECK(literal_find_overlapping_in(prepared, PLACES, text, len, 14, len, found, 3, &page) == LITERAL_DAMAGED);
    CHECK(literal_find_overlapping_from_in(for_all, PLACES, text, len, 14, len, 50, 1, found, 3, &page) == LITERAL_OK);
    CHECK(page.written == 1 && page.is_last == 1 && page.next == 50 && is(&found[0], 2, 43, 50));
    CHECK(literal_find_overlapping_from_in(for_all, PLACES, text, len, 14, len, 13, 0, found, 3, &page) ==
          LITERAL_BAD_ARGUMENTS);
    CHECK(literal_count_overlapping_in(for_all, PLACES, text, len, 14, len, &count) == LITERAL_OK && count == 3);
    CHECK(literal_count_overlapping_in(prepared, PLACES, text, len, 14, len, &count) == LITERAL_DAMAGED);
    CHECK(literal_find_each_in(prepared, PLACES, text, len, lines, 2, answers, 2) == LITERAL_OK);
    CHECK(is(&answers[0].found, 1, 13, 18) && answers[1].status == LITERAL_NONE);
    CHECK(literal_count_in(prepared, PLACES, text, len, 0, len, &count) == LITERAL_OK && count == 3);
    CHECK(literal_count_in(prepared, PLACES, text, len, 0, 49, &count) == LITERAL_OK && count == 2);
    CHECK(literal_count_in(prepared, PLACES, text, len, 1, 0, &count) == LITERAL_BAD_ARGUMENTS && count == 2);
}

/* Where a length is 0 the pointer may be NULL. */
static void by_null(const uint8_t *text, size_t len) {
    static uint32_t empty[PLACES];
    literal_match found = {7, 8, 9};
    literal_page page = {7, 8, 9};
    literal_info info = {7, 7, 7, 7, 7};
    size_t needed = 0, count = 7;
    CHECK(literal_can_search(NULL, 0, NULL, 0) == LITERAL_OK);
    CHECK(literal_find(0, false, NULL, 0, NULL, 0, text, len, 0, len, &found) == LITERAL_NONE);
    CHECK(literal_find(1, true, patterns, 17, ends, 3, NULL, 0, 0, 0, &found) == LITERAL_NONE && is(&found, 7, 8, 9));
    CHECK(literal_find_all(0, false, patterns, 17, ends, 3, text, len, 0, NULL, 0, &page) == LITERAL_BAD_ARGUMENTS);
    CHECK(literal_find_overlapping(false, patterns, 17, ends, 3, text, len, 0, len, NULL, 0, &page) ==
          LITERAL_BAD_ARGUMENTS);
    CHECK(page.written == 7 && page.next == 8 && page.is_last == 9);
    CHECK(literal_find_overlapping(false, NULL, 0, NULL, 0, NULL, 0, 0, 0, &found, 1, &page) == LITERAL_OK);
    CHECK(page.written == 0 && page.next == 0 && page.is_last == 1);
    CHECK(literal_find_each(0, false, patterns, 17, ends, 3, NULL, 0, NULL, 0, NULL, 0) == LITERAL_OK);
    CHECK(literal_check_prepared(NULL, 0) == LITERAL_DAMAGED);
    CHECK(literal_check_overlapping(NULL, 0) == LITERAL_DAMAGED);
    CHECK(literal_prepared_info(NULL, 0, &info) == LITERAL_DAMAGED);
    CHECK(literal_find_in(NULL, 0, text, len, 0, len, &found) == LITERAL_DAMAGED);
    CHECK(literal_find_in(prepared, PLACES, NULL, 0, 0, 0, &found) == LITERAL_NONE && is(&found, 7, 8, 9));
    CHECK(literal_find_so_far_in(NULL, 0, text, len, 0, true, &found, &needed) == LITERAL_DAMAGED && needed == 0);
    CHECK(literal_find_so_far_in(prepared, PLACES, NULL, 0, 0, false, &found, &needed) == LITERAL_NONE);
    CHECK(literal_find_all_in(prepared, PLACES, NULL, 0, 0, 0, &found, 1, &page) == LITERAL_OK && page.is_last == 1);
    CHECK(literal_find_all_so_far_in(prepared, PLACES, NULL, 0, 0, true, &found, 1, &page) == LITERAL_OK);
    page = (literal_page){7, 8, 9};
    CHECK(literal_find_all_so_far_in(prepared, PLACES, text, len, 0, true, NULL, 0, &page) == LITERAL_BAD_ARGUMENTS);
    CHECK(literal_find_all_so_far_in(NULL, 0, text, len, 0, true, &found, 1, &page) == LITERAL_DAMAGED);
    CHECK(literal_find_all_in(prepared, PLACES, text, len, 0, len, NULL, 0, &page) == LITERAL_BAD_ARGUMENTS);
    CHECK(literal_find_all_words_in(0, prepared, PLACES, text, len, 0, len, NULL, 0, &page) == LITERAL_BAD_ARGUMENTS);
    CHECK(literal_find_overlapping_in(for_all, PLACES, text, len, 0, len, NULL, 0, &page) == LITERAL_BAD_ARGUMENTS);
    CHECK(page.written == 7 && page.next == 8 && page.is_last == 9);
    CHECK(literal_find_overlapping_in(for_all, PLACES, NULL, 0, 0, 0, &found, 1, &page) == LITERAL_OK);
    CHECK(page.written == 0 && page.next == 0 && page.is_last == 1);
    CHECK(literal_find_overlapping_in(NULL, 0, text, len, 0, len, &found, 1, &page) == LITERAL_DAMAGED);
    CHECK(literal_find_overlapping_from_in(NULL, 0, NULL, 0, 0, 0, 0, 0, &found, 1, &page) == LITERAL_DAMAGED);
    CHECK(literal_find_overlapping_from_in(for_all, PLACES, NULL, 0, 0, 0, 0, 0, &found, 1, &page) == LITERAL_OK);
    CHECK(literal_find_overlapping_from_in(for_all, PLACES, text, len, 0, len, 0, 0, NULL, 0, &page) ==
          LITERAL_BAD_ARGUMENTS);
    CHECK(literal_count_overlapping(false, NULL, 0, NULL, 0, NULL, 0, 0, 0, &count) == LITERAL_OK && count == 0);
    CHECK(literal_count_overlapping_in(for_all, PLACES, NULL, 0, 0, 0, &count) == LITERAL_OK && count == 0);
    CHECK(literal_find_each_in(prepared, PLACES, NULL, 0, NULL, 0, NULL, 0) == LITERAL_OK);
    CHECK(literal_count_in(prepared, PLACES, NULL, 0, 0, 0, &count) == LITERAL_OK && count == 0);
    CHECK(literal_count_in(NULL, 0, text, len, 0, len, &count) == LITERAL_DAMAGED && count == 0);
    CHECK(literal_prepare_overlapping(true, NULL, 0, NULL, 0, empty, PLACES, &needed) == LITERAL_OK);
    CHECK(literal_find_overlapping_in(empty, needed, text, len, 0, len, &found, 1, &page) == LITERAL_OK);
    CHECK(literal_prepare(1, true, NULL, 0, NULL, 0, empty, PLACES, &needed) == LITERAL_OK);
    CHECK(literal_prepared_info(empty, needed, &info) == LITERAL_OK && info.shortest == 0 && info.longest == 0);
    CHECK(literal_find_in(empty, needed, text, len, 0, len, &found) == LITERAL_NONE && is(&found, 7, 8, 9));
}

/* The estimated length of an array is never too short. */
static void room(void) {
    uint8_t bytes[64];
    const size_t pieces[] = {1, 16, 33, 64};
    size_t needed = 0;
    uint32_t random = 1;
    for (unsigned i = 0; i < 500; i++) {
        for (size_t k = 0; k < sizeof bytes; k++)
            bytes[k] = (uint8_t)((random = random * 1664525u + 1013904223u) >> (i % 2 ? 24 : 30));
        CHECK(literal_prepare(i / 2 % 2, false, bytes, 64, pieces, 4, NULL, 0, &needed) == LITERAL_TOO_SHORT);
        CHECK(needed <= literal_room(bytes, 64, 4));
    }
}

/* Counts the matches that it is given, and ends with the second, or with one too many. */
static int second(void *context, literal_match found) {
    int given = ++*(int *)context;
    return given == 2 ? (int)found.start : given > 1002 ? -1 : 0;
}

static void by_a_search_of_its_own(const uint8_t *text, size_t len) {
    static const char *const EMPTY[] = {"apple", ""};
    static uint8_t many[1000];
    int32_t status = 7;
    int given = 0;
    literal_match found = {7, 8, 9};
    literal_search *search = literal_new_of_words(LITERAL_LEFTMOST_LONGEST, true, WORDS, 3, &status);
    CHECK(search != NULL && status == LITERAL_OK);
    if (search == NULL)
        return;
    CHECK(literal_check_prepared(search->prepared, search->prepared_len) == LITERAL_OK);
    CHECK(literal_check_prepared(search->prepared, search->prepared_len - 1) == LITERAL_DAMAGED);
    CHECK(literal_next(search, text, len, 14, &found) && is(&found, 0, 28, 33));
    CHECK(literal_next(search, "xAPPLE", 6, 0, &found) && is(&found, 0, 1, 6));
    CHECK(!literal_next(search, text, len, len + 1, &found) && !literal_next(search, NULL, 0, 0, &found));
    CHECK(literal_count(search, text, len) == 3 && literal_count(search, NULL, 0) == 0);
    CHECK(literal_each(search, text, len, second, &given) == 28 && given == 2);
    literal_free(search);
    search = literal_new(LITERAL_LEFTMOST_FIRST, false, (const uint8_t *)"a", 1, &(size_t){1}, 1, &status);
    CHECK(search != NULL && status == LITERAL_OK);
    memset(many, 'a', sizeof many);
    given = 2;
    CHECK(literal_each(search, many, sizeof many, second, &given) == 0 && given == 1002);
    literal_free(search);
    CHECK(literal_new_of_words(0, false, EMPTY, 2, &status) == NULL && status == LITERAL_NO_SEARCHER);
    CHECK(literal_new_of_words(0, false, &EMPTY[1], 1, &status) == NULL && status == LITERAL_NO_SEARCHER);
    CHECK(literal_new(2, false, NULL, 0, NULL, 0, &status) == NULL && status == LITERAL_BAD_ARGUMENTS);
    search = literal_new_of_words(0, false, NULL, 0, &status);
    CHECK(search != NULL && !literal_next(search, text, len, 0, &found));
    literal_free(search);
    literal_free(NULL);
}

/* By a search of its own: of many words `a`, of which each ends at each byte, so that pages end between them. */
static void every_occurrence(void) {
    static uint8_t many[100];
    size_t one[100], count = 0;
    int32_t status;
    int given = 2;
    literal_match found;
    literal_search *search;
    memset(many, 'a', sizeof many);
    for (size_t i = 0; i < sizeof many; i++)
        one[i] = i + 1;
    search = literal_new_overlapping(true, many, sizeof many, one, sizeof many, &status);
    CHECK(search != NULL && status == LITERAL_OK);
    if (search == NULL)
        return;
    CHECK(literal_check_overlapping(search->prepared, search->prepared_len) == LITERAL_OK);
    CHECK(literal_each_overlapping(search, "AxAaa aaaaaa", 12, second, &given) == 0 && given == 1002);
    CHECK(literal_count_overlapping_in(search->prepared, search->prepared_len, (const uint8_t *)"AxAaa aaaaaa", 12, 0,
                                       12, &count) == LITERAL_OK && count == 1000);
    given = 0;
    CHECK(literal_each_overlapping(search, "xa", 2, second, &given) == 1 && given == 2);
    CHECK(literal_each_overlapping(search, NULL, 0, second, &given) == 0 && given == 2);
    CHECK(!literal_next(search, "xa", 2, 0, &found) && literal_count(search, "xa", 2) == 0);
    CHECK(literal_each(search, "xa", 2, second, &given) == 0 && given == 2);
    literal_free(search);
    CHECK(literal_new_overlapping(false, many, 1, &(size_t){0}, 1, &status) == NULL && status == LITERAL_NO_SEARCHER);
}

/* Counts the matches that it is given, and ends unless they are three patterns at each byte from the first on. */
static int three_each(void *context, literal_match found) {
    size_t given = (*(size_t *)context)++;
    return !is(&found, given % 3, given / 3, given / 3 + 1);
}

/* Every occurrence of `a`, three times in the list, and of a longer pattern: the largest allocated page has room for so
 * many. */
static void pages(size_t longest, size_t most_room, size_t room) {
    static uint8_t bytes[2003], text[1000];
    const size_t pieces[] = {1, 2, 3, 3 + longest};
    size_t given = 0;
    int32_t status;
    literal_search *search;
    memset(bytes, 'a', 3);
    memset(bytes + 3, 'b', longest);
    memset(text, 'a', sizeof text);
    search = literal_new_overlapping(false, bytes, pieces[3], pieces, 4, &status);
    CHECK(search != NULL);
    if (search == NULL)
        return;
    most = most_room * sizeof(literal_match);
    grown = 0;
    CHECK(literal_each_overlapping(search, text, sizeof text, three_each, &given) == 0 && given == 3000);
    CHECK(grown == room * sizeof(literal_match));
    most = SIZE_MAX;
    given = 0;
    text[100] = 'x';
    CHECK(literal_each_overlapping(search, text, sizeof text, three_each, &given) == 1 && given == 301);
    literal_free(search);
}

/* If memory for the estimated length is refused, the exact length is tried. */
static void with_little_memory(void) {
    int32_t status;
    literal_search *search = literal_new_of_words(0, false, WORDS, 3, &status), *again;
    if (search == NULL)
        return;
    most = search->prepared_len * sizeof *search->prepared;
    CHECK(most < literal_room(patterns, 17, 3) * sizeof *search->prepared);
    again = literal_new_of_words(0, false, WORDS, 3, &status);
    CHECK(again != NULL && status == LITERAL_OK && again->prepared_len == search->prepared_len);
    literal_free(again);
    most -= 1;
    CHECK(literal_new_of_words(0, false, WORDS, 3, &status) == NULL && status == LITERAL_OUT_OF_MEMORY);
    most = SIZE_MAX;
    literal_free(search);
}

static void statuses(void) {
    CHECK(strcmp(literal_status_text(LITERAL_OK), "done") == 0);
    CHECK(strcmp(literal_status_text(LITERAL_OUT_OF_MEMORY), "out of memory") == 0);
    CHECK(strcmp(literal_status_text(LITERAL_DAMAGED), "the array is damaged, or of another version") == 0);
    CHECK(strcmp(literal_status_text(LITERAL_DAMAGED + 1), literal_status_text(-1)) == 0);
}

static void *calls(void *none) {
    const uint8_t *text = (const uint8_t *)TEXT;
    size_t len = sizeof TEXT - 1;
    join();
    by_patterns(text, len);
    prepare();
    by_prepared(text, len);
    by_states(text, len);
    by_null(text, len);
    by_a_search_of_its_own(text, len);
    every_occurrence();
    pages(42, 4000, 0); /* (a page of 128 goes on by 42 or 43 bytes) */
    pages(43, 4000, 256);
    pages(2000, 4000, 2048);
    pages(2000, 256, 256);
    pages(2000, 0, 0);
    with_little_memory();
    statuses();
    room();
    return none;
}

int main(int count, char **words) {
    pthread_attr_t attributes;
    pthread_t thread;
    if (count < 2 || strcmp(words[1], "stack") != 0) {
        calls(NULL);
        return wrong;
    }
    if (pthread_attr_init(&attributes) || pthread_attr_setstacksize(&attributes, STACK) ||
        pthread_create(&thread, &attributes, calls, NULL) || pthread_join(thread, NULL)) {
        fputs("no thread\n", stderr);
        return 2;
    }
    return wrong;
}
