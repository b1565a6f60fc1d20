/* Runs statements of the extension with each request for memory refused in turn: the program's own functions stand
 * before those of the C library. Each answer has to be right, or an error, and all memory is freed at the end.
 *
 *   refused EXTENSION */
#include <sqlite3.h>
#include <stdbool.h>
#include <stdio.h>
#include <stdlib.h>
#include <string.h>

extern void *__libc_malloc(size_t);
extern void *__libc_calloc(size_t, size_t);
extern void *__libc_realloc(void *, size_t);
extern void __libc_free(void *);

static long left, held; /* requests up to the one that is refused, if any; blocks that are not freed */

static bool refuses(void) {
    return left > 0 && --left == 0;
}

static void *counted(void *block) {
    held += block != NULL;
    return block;
}

void *malloc(size_t size) {
    return refuses() ? NULL : counted(__libc_malloc(size));
}

void *calloc(size_t count, size_t size) {
    return refuses() ? NULL : counted(__libc_calloc(count, size));
}

void *realloc(void *block, size_t size) {
    void *wider = refuses() ? NULL : __libc_realloc(block, size);
    if (block == NULL)
        counted(wider);
    return wider;
}

void free(void *block) {
    held -= block != NULL;
    __libc_free(block);
}

/* What a statement has to answer, its values with bars between them. */
static const struct {
    const char *sql, *answer;
} CASES[] = {
    {"SELECT lit_has('a pie', '[\"cake\", \"pie\"]')", "1|"},
    {"SELECT lit_count('pie pie', '[\"cake\", \"pie\"]'), lit_first('a pie', '[\"cake\", \"pie\"]')", "2|pie|"},
    {"SELECT lit_count(x'70', '[\"p\"]')", "1|"},
    {"SELECT word, start, length, text, words FROM lit_matches('a pie', '[\"pie\"]')", "pie|3|3|a pie|[\"pie\"]|"},
    {"SELECT sum(lit_has('a', value)) FROM json_each('[\"[\\\"a\\\"]\", \"[\\\"b\\\"]\", \"[\\\"c\\\"]\"]')", "1|"},
    {"SELECT lit_has('a pie', lit_list('x', 1, '[\"pie\"]')), lit_first('a pie', lit_list('x', 2, '[\"a\"]'))", "1|a|"},
    {"SELECT count(lit_list(value, 1, '[\"a\"]')), lit_list('y', '1', '') FROM json_each('[1, 2, 3]')",
     "error: the version is no integer"},
    {"SELECT lit_list('x', 1, '[5]')", "error: the word at index 0 is no text"},
    {"SELECT lit_has('a', '[\"a\", 5]')", "error: the word at index 1 is no text"},
    {"SELECT * FROM lit_matches('a', '[')", "error: malformed JSON"},
};

static char answer[1 << 10];

static int add(void *unused, int count, char **values, char **names) {
    (void)unused, (void)names;
    for (int i = 0; i < count; i++) {
        strcat(answer, values[i] == NULL ? "NULL" : values[i]);
        strcat(answer, "|");
    }
    return 0;
}

/* Runs a statement with one request refused: 1 if it was, 0 if there are not so many, or -1 if the answer is wrong. */
static int run(sqlite3 *db, int at, long request) {
    char *why = NULL;
    answer[0] = 0;
    left = request;
    int status = sqlite3_exec(db, CASES[at].sql, add, NULL, &why);
    bool is_refused = left == 0 && request > 0;
    left = 0;
    if (status != SQLITE_OK)
        snprintf(answer, sizeof answer, "error: %s", why == NULL ? sqlite3_errmsg(db) : why);
    sqlite3_free(why);
    /* (the code of an error is then SQLITE_NOMEM, or another one without a message) */
    if ((is_refused && status != SQLITE_OK) || strcmp(answer, CASES[at].answer) == 0)
        return is_refused;
    printf("%s with request %ld refused: %s\n", CASES[at].sql, request, answer);
    return -1;
}

/* Opens a connection and loads the extension, of which a request may be refused. */
static int open_with(const char *extension, long request, sqlite3 **db) {
    if (sqlite3_open(":memory:", db) != SQLITE_OK)
        return -1;
    sqlite3_db_config(*db, SQLITE_DBCONFIG_LOOKASIDE, NULL, 0, 0);
    sqlite3_db_config(*db, SQLITE_DBCONFIG_ENABLE_LOAD_EXTENSION, 1, NULL);
    left = request;
    int status = sqlite3_load_extension(*db, extension, NULL, NULL);
    bool is_refused = left == 0 && request > 0;
    left = 0;
    return status == SQLITE_OK ? 0 : is_refused ? 1 : -1;
}

/* Runs a case in new connections, with one request more refused each time, and then again in each. */
static int check(const char *extension, int at) {
    sqlite3 *db;
    for (long request = 0;; request++) {
        if (open_with(extension, 0, &db) != 0)
            return -1;
        int refused = run(db, at, request);
        if (refused < 0 || run(db, at, 0) != 0 || sqlite3_close(db) != SQLITE_OK)
            return -1;
        if (request > 0 && refused == 0)
            return request > 20 ? 0 : -1;
    }
}

int main(int count, char **given) {
    sqlite3 *db;
    long request;
    int cases = sizeof CASES / sizeof *CASES;
    if (count != 2 || open_with(given[1], 0, &db) != 0 || sqlite3_close(db) != SQLITE_OK)
        return printf("the extension cannot be loaded\n"), 1;
    long before = 0;
    for (int turn = 0; turn < 2; turn++) {
        before = held; /* (in the first turn the C library keeps a message) */
        request = 1;
        for (int status = 1; status == 1; request++) {
            status = open_with(given[1], request, &db);
            if (status < 0 || sqlite3_close(db) != SQLITE_OK)
                return printf("loading it with request %ld refused\n", request), 1;
        }
    }
    for (int at = 0; at < cases; at++)
        if (check(given[1], at) != 0)
            return printf("%s\n", CASES[at].sql), 1;
    if (held != before)
        return printf("%ld blocks are not freed\n", held - before), 1;
    return printf("ok\n") < 0;
}
