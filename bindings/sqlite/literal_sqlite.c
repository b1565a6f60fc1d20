/* Searches of literal_search.h in SQLite: lit_has(text, words), lit_count(text, words), lit_first(text, words), and a
 * table lit_matches(text, words). The words are a JSON array of texts, or the handle of a list of
 * lit_list(name, version, words).
 *
 * A connection keeps the searches for the arrays that it used last, so that a list is prepared once, and not for each
 * row; and one version of each list of lit_list. Each search is freed when nobody holds it any more: the connection, a
 * statement, or a cursor.
 *
 * Nothing here is proved. The library is; it is handed what the header asks for. */
#include <sqlite3ext.h>

#include "literal_search.h"

SQLITE_EXTENSION_INIT1

enum {
    KEPT = 8,   /* arrays that a connection keeps */
    PAGE = 128, /* matches that a cursor finds at once */
};

/* A list of words, ready to be searched for. */
typedef struct {
    size_t holders; /* how many hold it */
    char *given;    /* the JSON array, or the handle of lit_list, and where the name begins in that */
    size_t given_len, name;
    uint8_t *bytes; /* the words, one after another, and where each ends */
    size_t *ends;
    size_t len, count, bytes_room, ends_room;
    literal_search *search;
} Words;

/* The arrays that a connection used last, the latest first, and its lists of lit_list, ordered by their names. */
typedef struct {
    size_t holders;
    Words *kept[KEPT];
    Words **named;
    size_t named_len, named_room;
} Recent;

/* What is searched: a text, or a blob. */
typedef struct {
    const uint8_t *bytes;
    size_t len;
    bool is_blob;
} Text;

/* ---- Lists of words ---- */

static void release_words(void *of) {
    Words *words = of;
    if (words == NULL || --words->holders > 0)
        return;
    literal_free(words->search);
    sqlite3_free(words->given);
    sqlite3_free(words->bytes);
    sqlite3_free(words->ends);
    sqlite3_free(words);
}

static void release_recent(void *of) {
    Recent *recent = of;
    if (--recent->holders > 0)
        return;
    for (int i = 0; i < KEPT; i++)
        release_words(recent->kept[i]);
    for (size_t i = 0; i < recent->named_len; i++)
        release_words(recent->named[i]);
    sqlite3_free(recent->named);
    sqlite3_free(recent);
}

/* Says what is wrong, unless memory for that is refused. */
static int explain(char **why, char *said) {
    *why = said;
    return said == NULL ? SQLITE_NOMEM : SQLITE_ERROR;
}

/* A copy of some bytes, or NULL if memory is refused. */
static void *copy_of(const void *bytes, size_t len) {
    void *copy = sqlite3_malloc64(len + 1);
    return copy == NULL || len == 0 ? copy : memcpy(copy, bytes, len);
}

/* Makes room for more items in an array, which has room for some power of two of them, or none. */
static int widen(void *at, size_t *room, size_t needed, size_t size) {
    size_t wanted = *room == 0 ? 64 : *room;
    void *held, *wider;
    while (wanted < needed)
        wanted *= 2;
    if (wanted == *room)
        return SQLITE_OK;
    memcpy(&held, at, sizeof held);
    wider = sqlite3_realloc64(held, wanted * size);
    if (wider == NULL)
        return SQLITE_NOMEM;
    memcpy(at, &wider, sizeof wider);
    *room = wanted;
    return SQLITE_OK;
}

/* Adds the word in a row of json_each. */
static int add_word(Words *words, sqlite3_stmt *row, char **why) {
    const void *bytes = sqlite3_column_text(row, 0);
    size_t len = (size_t)sqlite3_column_bytes(row, 0);
    if (sqlite3_column_int(row, 1) == 0 || len == 0)
        return explain(why, sqlite3_mprintf("the word at index %lld is %s", (sqlite3_int64)words->count,
                                            sqlite3_column_int(row, 1) == 0 ? "no text" : "empty"));
    if (bytes == NULL || widen(&words->bytes, &words->bytes_room, words->len + len, 1) != SQLITE_OK ||
        widen(&words->ends, &words->ends_room, words->count + 1, sizeof *words->ends) != SQLITE_OK)
        return SQLITE_NOMEM;
    memcpy(words->bytes + words->len, bytes, len);
    words->len += len;
    words->ends[words->count++] = words->len;
    return SQLITE_OK;
}

/* Reads the words of a JSON array. The function of SQLite is named as one of `temp`, so that no table of this name in a
 * database takes its place. */
static int read_words(Words *words, sqlite3 *db, char **why) {
    sqlite3_stmt *rows = NULL;
    int status = sqlite3_prepare_v2(db, "SELECT value, type = 'text' FROM temp.json_each(?1)", -1, &rows, NULL);
    if (status == SQLITE_OK)
        status = sqlite3_bind_text64(rows, 1, words->given, words->given_len, SQLITE_STATIC, SQLITE_UTF8);
    while (status == SQLITE_OK && (status = sqlite3_step(rows)) == SQLITE_ROW)
        status = add_word(words, rows, why);
    if (status != SQLITE_DONE && status != SQLITE_NOMEM && *why == NULL &&
        explain(why, sqlite3_mprintf("%s", sqlite3_errmsg(db))) == SQLITE_NOMEM)
        status = SQLITE_NOMEM;
    sqlite3_finalize(rows);
    return status == SQLITE_DONE ? SQLITE_OK : status;
}

/* Whether a text begins as a JSON array does. */
static bool is_array(const char *given, size_t len) {
    size_t at = 0;
    while (at < len && strchr(" \t\n\r", given[at]) != NULL && given[at] != 0)
        at++;
    return at < len && given[at] == '[';
}

/* Whether a JSON text has the character of number 0, at which some versions of SQLite cut a text. */
static bool has_zero(const char *given, size_t len) {
    static const char zero[] = "u0000";
    bool is_escaped = false;
    for (size_t at = 0; at < len; at++) {
        bool is_named = is_escaped && len - at >= sizeof zero - 1 && memcmp(given + at, zero, sizeof zero - 1) == 0;
        if (is_named || given[at] == 0)
            return true;
        is_escaped = !is_escaped && given[at] == '\\';
    }
    return false;
}

/* Makes the search for a JSON array, which one holds. */
static int make_words(sqlite3 *db, const char *given, size_t len, Words **made, char **why) {
    int32_t said = LITERAL_OUT_OF_MEMORY;
    if (!is_array(given, len))
        return explain(why, sqlite3_mprintf("the words are not a JSON array of texts, nor a list that is kept"));
    if (has_zero(given, len))
        return explain(why, sqlite3_mprintf("the words have the character \\u0000"));
    Words *words = sqlite3_malloc64(sizeof *words);
    if (words == NULL)
        return SQLITE_NOMEM;
    *words = (Words){.holders = 1, .given = copy_of(given, len), .given_len = len};
    int status = words->given == NULL ? SQLITE_NOMEM : read_words(words, db, why);
    if (status == SQLITE_OK)
        words->search = literal_new(LITERAL_LEFTMOST_FIRST, false, words->bytes, words->len, words->ends, words->count,
                                    &said);
    if (status == SQLITE_OK && words->search == NULL)
        status = said == LITERAL_OUT_OF_MEMORY
                     ? SQLITE_NOMEM
                     : explain(why, sqlite3_mprintf("no search for these words: %s", literal_status_text(said)));
    if (status == SQLITE_OK)
        *made = words;
    else
        release_words(words);
    return status;
}

static bool is_same(const Words *words, const char *given, size_t len) {
    return words->given_len == len && memcmp(words->given, given, len) == 0;
}

/* Where the name begins in the handle of lit_list, such as "version 3 of fruit"; or the length of what is no handle. */
static size_t name_in(const char *given, size_t len) {
    static const char before[] = "version ", between[] = " of ";
    size_t at = sizeof before - 1;
    if (len < at || memcmp(given, before, at) != 0)
        return len;
    while (at < len && (given[at] == '-' || (given[at] >= '0' && given[at] <= '9')))
        at++;
    return len - at >= sizeof between - 1 && memcmp(given + at, between, sizeof between - 1) == 0
               ? at + sizeof between - 1
               : len;
}

/* How the name of a list is ordered to another one: by their lengths, and then by their bytes. */
static int compare_name(const Words *words, const char *name, size_t len) {
    size_t own = words->given_len - words->name;
    if (own != len)
        return own < len ? -1 : 1;
    return len == 0 ? 0 : memcmp(words->given + words->name, name, len);
}

/* Where a list with this name is kept, or would be. */
static size_t place_of(const Recent *recent, const char *name, size_t len) {
    size_t low = 0, high = recent->named_len;
    while (low < high) {
        size_t middle = low + (high - low) / 2;
        if (compare_name(recent->named[middle], name, len) < 0)
            low = middle + 1;
        else
            high = middle;
    }
    return low;
}

/* The list of lit_list with this handle, or NULL. */
static Words *named(const Recent *recent, const char *given, size_t len) {
    size_t name = name_in(given, len), at = place_of(recent, given + name, len - name);
    return at < recent->named_len && is_same(recent->named[at], given, len) ? recent->named[at] : NULL;
}

/* The search for a JSON array, kept or new. The connection holds it until it has used KEPT other ones. */
static int words_for_array(Recent *recent, sqlite3 *db, const char *given, size_t len, Words **words, char **why) {
    int at = 0;
    *words = NULL;
    while (at < KEPT - 1 && recent->kept[at] != NULL && !is_same(recent->kept[at], given, len))
        at++;
    *words = recent->kept[at];
    if (*words == NULL || !is_same(*words, given, len)) {
        int status = make_words(db, given, len, words, why);
        if (status != SQLITE_OK)
            return status;
        release_words(recent->kept[at]);
    }
    memmove(recent->kept + 1, recent->kept, (size_t)at * sizeof *recent->kept);
    recent->kept[0] = *words;
    return SQLITE_OK;
}

/* The search for a handle or a JSON array. */
static int words_for(Recent *recent, sqlite3 *db, const char *given, size_t len, Words **words, char **why) {
    *words = is_array(given, len) ? NULL : named(recent, given, len);
    return *words == NULL ? words_for_array(recent, db, given, len, words, why) : SQLITE_OK;
}

/* ---- Arguments ---- */

static bool is_null(sqlite3_value **given) {
    return sqlite3_value_type(given[0]) == SQLITE_NULL || sqlite3_value_type(given[1]) == SQLITE_NULL;
}

/* Takes the text of a value that is not NULL. SQLite owns it until the call returns. */
static int text_of(sqlite3_value *of, Text *text) {
    text->is_blob = sqlite3_value_type(of) == SQLITE_BLOB;
    text->bytes = text->is_blob ? sqlite3_value_blob(of) : sqlite3_value_text(of);
    text->len = (size_t)sqlite3_value_bytes(of);
    return text->bytes == NULL && (text->len > 0 || !text->is_blob) ? SQLITE_NOMEM : SQLITE_OK;
}

/* Takes the words of a value that is not NULL: nothing of numbers and blobs, which are no JSON array. */
static int array_of(sqlite3_value *of, Text *array) {
    int status = text_of(of, array);
    if (status == SQLITE_OK && sqlite3_value_type(of) != SQLITE_TEXT)
        array->len = 0;
    return status;
}

/* The search for the words of a value that is not NULL. */
static int words_of(Recent *recent, sqlite3 *db, sqlite3_value *of, Words **words, char **why) {
    Text given;
    int status = array_of(of, &given);
    return status ? status : words_for(recent, db, (const char *)given.bytes, given.len, words, why);
}

/* ---- Functions ---- */

static void refuse(sqlite3_context *context, int status, char *why) {
    if (status == SQLITE_NOMEM) {
        sqlite3_result_error_nomem(context);
    } else {
        sqlite3_result_error(context, why, -1);
        sqlite3_result_error_code(context, status);
    }
    sqlite3_free(why);
}

/* The search and the text of a call, or NULL if the answer is NULL or an error. A statement holds the search if its
 * list is the same for each row. */
static const Words *asked(sqlite3_context *context, sqlite3_value **given, Text *text) {
    char *why = NULL;
    if (is_null(given))
        return NULL;
    Words *words = sqlite3_get_auxdata(context, 1);
    int status = text_of(given[0], text);
    if (status == SQLITE_OK && words == NULL) {
        status = words_of(sqlite3_user_data(context), sqlite3_context_db_handle(context), given[1], &words, &why);
        if (status == SQLITE_OK) {
            words->holders++;
            sqlite3_set_auxdata(context, 1, words, release_words);
        }
    }
    if (status != SQLITE_OK)
        refuse(context, status, why);
    return status == SQLITE_OK ? words : NULL;
}

static void lit_has(sqlite3_context *context, int count, sqlite3_value **given) {
    Text text;
    literal_match found;
    const Words *words = asked(context, given, &text);
    (void)count;
    if (words != NULL)
        sqlite3_result_int(context, literal_next(words->search, text.bytes, text.len, 0, &found));
}

static void lit_count(sqlite3_context *context, int count, sqlite3_value **given) {
    Text text;
    const Words *words = asked(context, given, &text);
    (void)count;
    if (words != NULL)
        sqlite3_result_int64(context, (sqlite3_int64)literal_count(words->search, text.bytes, text.len));
}

/* Answers a word of a list. */
static void result_word(sqlite3_context *context, const Words *words, size_t pattern) {
    size_t start = pattern == 0 ? 0 : words->ends[pattern - 1];
    sqlite3_result_text64(context, (const char *)words->bytes + start, words->ends[pattern] - start, SQLITE_TRANSIENT,
                          SQLITE_UTF8);
}

static void lit_first(sqlite3_context *context, int count, sqlite3_value **given) {
    Text text;
    literal_match found;
    const Words *words = asked(context, given, &text);
    (void)count;
    if (words != NULL && literal_next(words->search, text.bytes, text.len, 0, &found))
        result_word(context, words, found.pattern);
}

/* ---- Lists with a name ---- */

/* Makes the handle of a list, such as "version 3 of fruit", which is no JSON array. */
static int make_handle(sqlite3 *db, sqlite3_value **given, char **handle, size_t *len, char **why) {
    Text text;
    if (sqlite3_value_type(given[1]) != SQLITE_INTEGER)
        return explain(why, sqlite3_mprintf("the version is no integer"));
    if (text_of(given[0], &text) != SQLITE_OK)
        return SQLITE_NOMEM;
    sqlite3_str *made = sqlite3_str_new(db);
    sqlite3_str_appendf(made, "version %lld of ", sqlite3_value_int64(given[1]));
    sqlite3_str_append(made, (const char *)text.bytes, (int)text.len);
    *len = (size_t)sqlite3_str_length(made);
    *handle = sqlite3_str_finish(made);
    return *handle == NULL ? SQLITE_NOMEM : SQLITE_OK;
}

/* Keeps a list, instead of one of the same name. There is room for one more. */
static void put_list(Recent *recent, Words *words) {
    const char *name = words->given + words->name;
    size_t len = words->given_len - words->name, at = place_of(recent, name, len);
    Words **place = recent->named + at;
    if (at < recent->named_len && compare_name(*place, name, len) == 0) {
        release_words(*place);
    } else {
        memmove(place + 1, place, (recent->named_len - at) * sizeof *place);
        recent->named_len++;
    }
    *place = words;
}

/* Makes a list with a handle, and keeps it instead of the version of this name that was kept. */
static int add_list(Recent *recent, sqlite3 *db, sqlite3_value *of, const char *handle, size_t len, char **why) {
    Text array;
    Words *words;
    char *given = copy_of(handle, len);
    int status = given == NULL ? SQLITE_NOMEM : array_of(of, &array);
    if (status == SQLITE_OK)
        status = widen(&recent->named, &recent->named_room, recent->named_len + 1, sizeof *recent->named);
    if (status == SQLITE_OK)
        status = make_words(db, (const char *)array.bytes, array.len, &words, why);
    if (status != SQLITE_OK) {
        sqlite3_free(given);
        return status;
    }
    sqlite3_free(words->given);
    words->given = given;
    words->given_len = len;
    words->name = name_in(handle, len);
    put_list(recent, words);
    return SQLITE_OK;
}

/* Answers the handle of a list. The words are read only if this version is not kept. */
static void lit_list(sqlite3_context *context, int count, sqlite3_value **given) {
    Recent *recent = sqlite3_user_data(context);
    sqlite3 *db = sqlite3_context_db_handle(context);
    char *handle = NULL, *why = NULL;
    size_t len = 0;
    (void)count;
    if (is_null(given) || sqlite3_value_type(given[2]) == SQLITE_NULL)
        return;
    int status = make_handle(db, given, &handle, &len, &why);
    if (status == SQLITE_OK && named(recent, handle, len) == NULL)
        status = add_list(recent, db, given[2], handle, len, &why);
    if (status == SQLITE_OK) {
        sqlite3_result_text64(context, handle, len, sqlite3_free, SQLITE_UTF8);
    } else {
        sqlite3_free(handle);
        refuse(context, status, why);
    }
}

/* ---- The table of matches ---- */

enum { WORD, PATTERN, START, LENGTH, TEXT, WORDS };

static const char COLUMNS[] = "CREATE TABLE x(word, pattern, start, length, text HIDDEN, words HIDDEN)";

typedef struct {
    sqlite3_vtab base;
    sqlite3 *db;
    Recent *recent;
} Table;

typedef struct {
    sqlite3_vtab_cursor base;
    Words *words;
    Text text; /* a copy */
    literal_match found[PAGE];
    literal_page page;
    size_t at;            /* the match in the page */
    size_t bytes, offset; /* its start in bytes, and as its text counts */
    sqlite3_int64 row;
} Cursor;

static int connect_table(sqlite3 *db, void *recent, int count, const char *const *names, sqlite3_vtab **made,
                         char **why) {
    (void)count, (void)names, (void)why;
    Table *table = sqlite3_malloc64(sizeof *table);
    if (table == NULL)
        return SQLITE_NOMEM;
    int status = sqlite3_declare_vtab(db, COLUMNS);
    if (status != SQLITE_OK) {
        sqlite3_free(table);
        return status;
    }
    sqlite3_vtab_config(db, SQLITE_VTAB_INNOCUOUS);
    *table = (Table){.db = db, .recent = recent};
    table->recent->holders++;
    *made = &table->base;
    return SQLITE_OK;
}

static int disconnect_table(sqlite3_vtab *of) {
    release_recent(((Table *)of)->recent);
    sqlite3_free(of);
    return SQLITE_OK;
}

/* Both arguments have to be known. */
static int best_index(sqlite3_vtab *of, sqlite3_index_info *info) {
    int at[2] = {-1, -1};
    (void)of;
    for (int i = 0; i < info->nConstraint; i++) {
        int column = info->aConstraint[i].iColumn - TEXT;
        if (column < 0 || info->aConstraint[i].op != SQLITE_INDEX_CONSTRAINT_EQ)
            continue;
        if (!info->aConstraint[i].usable)
            return SQLITE_CONSTRAINT;
        at[column] = i;
    }
    for (int i = 0; i < 2; i++) {
        if (at[i] < 0)
            return SQLITE_CONSTRAINT;
        info->aConstraintUsage[at[i]].argvIndex = i + 1;
        info->aConstraintUsage[at[i]].omit = 1;
    }
    info->estimatedCost = 100;
    info->estimatedRows = 10;
    return SQLITE_OK;
}

static int open_cursor(sqlite3_vtab *of, sqlite3_vtab_cursor **made) {
    Cursor *cursor = sqlite3_malloc64(sizeof *cursor);
    (void)of;
    if (cursor == NULL)
        return SQLITE_NOMEM;
    memset(cursor, 0, sizeof *cursor);
    *made = &cursor->base;
    return SQLITE_OK;
}

/* Lets the search and the text go. The cursor is then at its end. */
static void empty_cursor(Cursor *cursor) {
    release_words(cursor->words);
    sqlite3_free((void *)cursor->text.bytes);
    cursor->words = NULL;
    cursor->text.bytes = NULL;
    cursor->page = (literal_page){0, 0, 1};
    cursor->at = cursor->bytes = cursor->offset = 0;
    cursor->row = 0;
}

static int close_cursor(sqlite3_vtab_cursor *of) {
    empty_cursor((Cursor *)of);
    sqlite3_free(of);
    return SQLITE_OK;
}

/* How many characters begin in some bytes of a text, as `length` of SQLite counts them; or how many bytes of a blob. */
static size_t units(const Cursor *cursor, size_t start, size_t end) {
    size_t count = 0;
    if (cursor->text.is_blob)
        return end - start;
    for (size_t at = start; at < end; at++)
        count += (cursor->text.bytes[at] & 0xC0) != 0x80;
    return count;
}

static bool is_at_end(const Cursor *cursor) {
    return cursor->at == cursor->page.written;
}

/* Finds the next page, if the matches of this one are given, and where the match starts. */
static void settle(Cursor *cursor) {
    const literal_search *search = cursor->words->search;
    if (is_at_end(cursor) && !cursor->page.is_last) {
        literal_find_all_in(search->prepared, search->prepared_len, cursor->text.bytes, cursor->text.len,
                            cursor->page.next, cursor->text.len, cursor->found, PAGE, &cursor->page);
        cursor->at = 0;
    }
    if (is_at_end(cursor))
        return;
    size_t start = cursor->found[cursor->at].start;
    cursor->offset += units(cursor, cursor->bytes, start);
    cursor->bytes = start;
}

static int next_match(sqlite3_vtab_cursor *of) {
    Cursor *cursor = (Cursor *)of;
    cursor->at++;
    cursor->row++;
    settle(cursor);
    return SQLITE_OK;
}

/* Begins with the matches of a text. */
static int filter(sqlite3_vtab_cursor *of, int number, const char *name, int count, sqlite3_value **given) {
    Cursor *cursor = (Cursor *)of;
    Table *table = (Table *)of->pVtab;
    Words *words;
    char *why = NULL;
    (void)number, (void)name, (void)count;
    empty_cursor(cursor);
    if (is_null(given))
        return SQLITE_OK;
    int status = words_of(table->recent, table->db, given[1], &words, &why);
    if (status == SQLITE_OK)
        status = text_of(given[0], &cursor->text);
    if (status == SQLITE_OK) {
        words->holders++;
        cursor->words = words;
        cursor->text.bytes = copy_of(cursor->text.bytes, cursor->text.len);
        status = cursor->text.bytes == NULL ? SQLITE_NOMEM : SQLITE_OK;
    } else {
        cursor->text.bytes = NULL;
    }
    if (status == SQLITE_OK) {
        cursor->page.is_last = 0;
        settle(cursor);
    }
    sqlite3_free(table->base.zErrMsg);
    table->base.zErrMsg = why;
    return status;
}

static int is_end(sqlite3_vtab_cursor *of) {
    return is_at_end((Cursor *)of);
}

/* Answers the text or the words that were given. */
static void result_given(sqlite3_context *context, const Cursor *cursor, int column) {
    const char *text = (const char *)cursor->text.bytes;
    if (column == WORDS)
        sqlite3_result_text64(context, cursor->words->given, cursor->words->given_len, SQLITE_TRANSIENT, SQLITE_UTF8);
    else if (cursor->text.is_blob)
        sqlite3_result_blob64(context, text, cursor->text.len, SQLITE_TRANSIENT);
    else
        sqlite3_result_text64(context, text, cursor->text.len, SQLITE_TRANSIENT, SQLITE_UTF8);
}

static int column_of(sqlite3_vtab_cursor *of, sqlite3_context *context, int column) {
    const Cursor *cursor = (const Cursor *)of;
    const literal_match *found = &cursor->found[cursor->at];
    if (column == WORD)
        result_word(context, cursor->words, found->pattern);
    else if (column == PATTERN)
        sqlite3_result_int64(context, (sqlite3_int64)found->pattern);
    else if (column == START)
        sqlite3_result_int64(context, (sqlite3_int64)cursor->offset + 1);
    else if (column == LENGTH)
        sqlite3_result_int64(context, (sqlite3_int64)units(cursor, found->start, found->end));
    else
        result_given(context, cursor, column);
    return SQLITE_OK;
}

static int row_id(sqlite3_vtab_cursor *of, sqlite3_int64 *row) {
    *row = ((Cursor *)of)->row;
    return SQLITE_OK;
}

static sqlite3_module module = {
    .xConnect = connect_table,
    .xBestIndex = best_index,
    .xDisconnect = disconnect_table,
    .xOpen = open_cursor,
    .xClose = close_cursor,
    .xFilter = filter,
    .xNext = next_match,
    .xEof = is_end,
    .xColumn = column_of,
    .xRowid = row_id,
};

/* ---- The extension ---- */

/* Adds a function, which holds the lists. */
static int add_function(sqlite3 *db, Recent *recent, const char *name, int count, int flags,
                        void (*function)(sqlite3_context *, int, sqlite3_value **)) {
    recent->holders++;
    return sqlite3_create_function_v2(db, name, count, SQLITE_UTF8 | flags, recent, function, NULL, NULL,
                                      release_recent);
}

__attribute__((visibility("default")))
int sqlite3_literalsqlite_init(sqlite3 *db, char **why, const sqlite3_api_routines *api) {
    SQLITE_EXTENSION_INIT2(api);
    (void)why;
    Recent *recent = sqlite3_malloc64(sizeof *recent);
    if (recent == NULL)
        return SQLITE_NOMEM;
    *recent = (Recent){.holders = 1};
    int plain = SQLITE_DETERMINISTIC | SQLITE_INNOCUOUS;
    int status = add_function(db, recent, "lit_has", 2, plain, lit_has);
    if (status == SQLITE_OK)
        status = add_function(db, recent, "lit_count", 2, plain, lit_count);
    if (status == SQLITE_OK)
        status = add_function(db, recent, "lit_first", 2, plain, lit_first);
    if (status == SQLITE_OK) /* (a view of another's database should not choose the words of a name) */
        status = add_function(db, recent, "lit_list", 3, SQLITE_DIRECTONLY, lit_list);
    if (status == SQLITE_OK) {
        recent->holders++;
        status = sqlite3_create_module_v2(db, "lit_matches", &module, recent, release_recent);
    }
    release_recent(recent);
    return status;
}
