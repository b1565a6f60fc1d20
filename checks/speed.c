/* Times one engine for checks/speed: speed ENGINE TEXT PATTERNS RUNS
 *
 * ENGINE is search, hyperscan or memmem, TEXT a file, and each line of the file PATTERNS a pattern. Prints a line for
 * each task: its name, the least thread time in nanoseconds of RUNS runs, or of more that take 10 milliseconds, and the
 * answer, in which all engines agree:
 *
 *   build  prepares the search                       0
 *   count  counts all matches that do not overlap    their number
 *   list   lists them                                a sum of their patterns, starts and ends
 *   every  counts every occurrence                   their number
 *   first  asks for a match in each 80 bytes         how many have one
 */
#define _GNU_SOURCE
#undef NDEBUG
#include "literal_search.h"
#include <assert.h>
#include <stdio.h>
#include <stdlib.h>
#include <time.h>

enum { LINE = 80, PAGE = 4096, TEXT = 1 << 24, WORDS = 1 << 17, PLACES = 1 << 26, SHORT = 10000000, SAMPLE = 1000000 };

static uint8_t text[TEXT], patterns[TEXT];
static size_t text_len, patterns_len, ends[WORDS], ends_len;
static uint32_t prepared[PLACES], overlapping[PLACES];
static size_t prepared_len, overlapping_len;
static literal_match found[PAGE];

static size_t search_build(void) {
    assert(literal_prepare(LITERAL_LEFTMOST_FIRST, false, patterns, patterns_len, ends, ends_len, prepared, PLACES,
                           &prepared_len) == LITERAL_OK);
    return 0;
}

static size_t search_count(void) {
    size_t count;
    assert(literal_count_in(prepared, prepared_len, text, text_len, 0, text_len, &count) == LITERAL_OK);
    return count;
}

static size_t search_list(void) {
    size_t sum = 0;
    for (literal_page page = {0, 0, 0}; !page.is_last;) {
        assert(literal_find_all_in(prepared, prepared_len, text, text_len, page.next, text_len, found, PAGE, &page) ==
               LITERAL_OK);
        for (size_t i = 0; i < page.written; i++)
            sum += found[i].pattern + 3 * found[i].start + 5 * found[i].end;
    }
    return sum;
}

static size_t search_every(void) {
    size_t count;
    if (!overlapping_len)
        assert(literal_prepare_overlapping(false, patterns, patterns_len, ends, ends_len, overlapping, PLACES,
                                           &overlapping_len) == LITERAL_OK);
    assert(literal_count_overlapping_in(overlapping, overlapping_len, text, text_len, 0, text_len, &count) ==
           LITERAL_OK);
    return count;
}

static bool search_has(const uint8_t *line) {
    return literal_find_in(prepared, prepared_len, line, LINE, 0, LINE, found) == LITERAL_OK;
}

static size_t memmem_count(void) {
    size_t count = 0;
    for (uint8_t *at = text; (at = memmem(at, text_len - (size_t)(at - text), patterns, patterns_len)); count++)
        at += patterns_len;
    return count;
}

static bool memmem_has(const uint8_t *line) { return memmem(line, LINE, patterns, patterns_len); }

#ifdef HYPERSCAN
#include <hs.h>

static hs_database_t *database;
static hs_scratch_t *scratch;

static size_t hyperscan_build(void) {
    static const char *starts[WORDS];
    static unsigned flags[WORDS], numbers[WORDS];
    static size_t lens[WORDS];
    hs_compile_error_t *error;
    for (size_t i = 0, start = 0; i < ends_len; start = ends[i++]) {
        starts[i] = (const char *)patterns + start;
        lens[i] = ends[i] - start;
        numbers[i] = (unsigned)i;
    }
    hs_free_database(database);
    return (size_t)hs_compile_lit_multi(starts, flags, numbers, lens, (unsigned)ends_len, HS_MODE_BLOCK, NULL,
                                        &database, &error);
}

/* Counts an occurrence, or ends the scan if there is no number to count in. */
static int on_match(unsigned number, unsigned long long start, unsigned long long end, unsigned flags, void *count) {
    (void)number, (void)start, (void)end, (void)flags;
    return count ? (++*(size_t *)count, 0) : 1;
}

static size_t hyperscan_every(void) {
    size_t count = 0;
    assert(scratch || hs_alloc_scratch(database, &scratch) == HS_SUCCESS);
    assert(hs_scan(database, (char *)text, (unsigned)text_len, 0, scratch, on_match, &count) == HS_SUCCESS);
    return count;
}

static bool hyperscan_has(const uint8_t *line) {
    return hs_scan(database, (const char *)line, LINE, 0, scratch, on_match, NULL) == HS_SCAN_TERMINATED;
}
#endif

/* A task is a call that answers, or one that is made for each line. */
static const struct {
    const char *engine, *name;
    size_t (*run)(void);
    bool (*has)(const uint8_t *line);
} TASKS[] = {
    {"search", "build", search_build, NULL},       {"search", "count", search_count, NULL},
    {"search", "list", search_list, NULL},         {"search", "every", search_every, NULL},
    {"search", "first", NULL, search_has},         {"memmem", "count", memmem_count, NULL},
    {"memmem", "first", NULL, memmem_has},
#ifdef HYPERSCAN
    {"hyperscan", "build", hyperscan_build, NULL}, {"hyperscan", "every", hyperscan_every, NULL},
    {"hyperscan", "first", NULL, hyperscan_has},
#endif
};

static size_t lines_with(bool (*has)(const uint8_t *line)) {
    size_t lines = 0;
    for (size_t at = 0; at + LINE <= text_len; at += LINE)
        lines += has(text + at);
    return lines;
}

static double now(void) {
    struct timespec time;
    clock_gettime(CLOCK_THREAD_CPUTIME_ID, &time);
    return 1e9 * (double)time.tv_sec + (double)time.tv_nsec;
}

static size_t read_file(const char *path, uint8_t *bytes) {
    FILE *file = fopen(path, "rb");
    assert(file);
    size_t len = fread(bytes, 1, TEXT, file);
    fclose(file);
    return len;
}

static void read_patterns(const char *path) {
    for (size_t at = 0, len = read_file(path, patterns); at < len; at++) {
        if (patterns[at] == '\n')
            ends[ends_len++] = patterns_len;
        else
            patterns[patterns_len++] = patterns[at];
    }
}

/* Shorter times than a millisecond are of several runs together, since the clock may stand still for a moment. */
static void time_task(size_t task, int samples) {
    double least = 1e18, all = 0;
    size_t answer = 0, batch = 1;
    while (samples > 0 || all < SHORT) {
        double start = now();
        for (size_t run = 0; run < batch; run++)
            answer = TASKS[task].run ? TASKS[task].run() : lines_with(TASKS[task].has);
        double took = now() - start;
        if (took < SAMPLE) {
            batch *= 2;
            continue;
        }
        least = took / (double)batch < least ? took / (double)batch : least;
        all += took;
        samples--;
    }
    printf("%s %.0f %zu\n", TASKS[task].name, least, answer);
}

int main(int words, char **word) {
    assert(words == 5);
    text_len = read_file(word[2], text);
    read_patterns(word[3]);
    for (size_t task = 0; task < sizeof TASKS / sizeof *TASKS; task++)
        if (strcmp(TASKS[task].engine, word[1]) == 0)
            time_task(task, atoi(word[4]));
    return 0;
}
