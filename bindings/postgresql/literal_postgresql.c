/* Searches of literal_search.h in PostgreSQL: lit_has(text, words), lit_count(text, words), and the set of rows
 * lit_matches(text, words). The words are a text[].
 *
 * Each call site of a query keeps its search in fn_extra, for as long as the array is the same from row to row. All
 * memory is PostgreSQL's, except what the library frees before it returns.
 *
 * Nothing here is proved. The library is; it is handed what the header asks for. */
#include "postgres.h"

#include "catalog/pg_type.h"
#include "fmgr.h"
#include "funcapi.h"
#include "mb/pg_wchar.h"
#include "miscadmin.h"
#include "nodes/primnodes.h"
#include "utils/array.h"
#include "utils/builtins.h"

#include "literal_search.h"

PG_MODULE_MAGIC;

enum { PAGE = 128 }; /* matches that are found at once */

/* A search that is kept, with its words. */
typedef struct {
    ArrayType *words;
    uint32_t *prepared;
    size_t len;
} Kept;

/* The words of an array, one after another, and where each ends. */
typedef struct {
    uint8_t *bytes;
    size_t *ends;
    size_t len, count;
} Words;

/* Raises an error, unless the library found an answer. */
static void expect(int32_t status, bool is_answer) {
    if (!is_answer)
        ereport(ERROR, errcode(status == LITERAL_OUT_OF_MEMORY ? ERRCODE_OUT_OF_MEMORY
                               : status == LITERAL_TOO_LARGE   ? ERRCODE_PROGRAM_LIMIT_EXCEEDED
                                                               : ERRCODE_INTERNAL_ERROR),
                errmsg("no search for these words: %s", literal_status_text(status)));
}

/* The words of an array, of which none may be NULL or empty. */
static Words words_in(ArrayType *array) {
    Words words = {palloc(VARSIZE(array)), NULL, 0, 0};
    Datum *items;
    bool *nulls;
    int count;
    if (ARR_NDIM(array) > 1)
        ereport(ERROR, errcode(ERRCODE_ARRAY_SUBSCRIPT_ERROR), errmsg("the array of words has several dimensions"));
    deconstruct_array(array, TEXTOID, -1, false, TYPALIGN_INT, &items, &nulls, &count);
    words.ends = palloc(((size_t)count + 1) * sizeof *words.ends);
    for (int i = 0; i < count; i++) {
        text *word = nulls[i] ? NULL : DatumGetTextPP(items[i]);
        size_t len = nulls[i] ? 0 : VARSIZE_ANY_EXHDR(word);
        if (len == 0)
            ereport(ERROR, errcode(nulls[i] ? ERRCODE_NULL_VALUE_NOT_ALLOWED : ERRCODE_INVALID_PARAMETER_VALUE),
                    errmsg("word %d is %s", i + 1, nulls[i] ? "NULL" : "empty"));
        memcpy(words.bytes + words.len, VARDATA_ANY(word), len);
        words.len += len;
        words.ends[words.count++] = words.len;
    }
    return words;
}

/* The search for an array, in memory of the function. */
static Kept *made(MemoryContext context, ArrayType *array) {
    Words words = words_in(array);
    size_t room = literal_room(words.bytes, words.len, words.count), needed = 0;
    int32_t status = LITERAL_TOO_SHORT;
    uint32_t *prepared = NULL;
    Kept *kept;
    /* (once more with the exact length, if memory for more is refused) */
    for (int i = 0; i < 2 && status == LITERAL_TOO_SHORT; i++) {
        int flags = MCXT_ALLOC_HUGE | (i == 0 ? MCXT_ALLOC_NO_OOM : 0);
        prepared = palloc_extended(room * sizeof *prepared, flags);
        status = literal_prepare(LITERAL_LEFTMOST_FIRST, false, words.bytes, words.len, words.ends, words.count,
                                 prepared, prepared == NULL ? 0 : room, &needed);
        room = needed;
    }
    expect(status, status == LITERAL_OK);
    kept = MemoryContextAlloc(context, sizeof *kept);
    kept->words = MemoryContextAllocHuge(context, VARSIZE(array));
    kept->prepared = MemoryContextAllocHuge(context, needed * sizeof *prepared);
    kept->len = needed;
    memcpy(kept->words, array, VARSIZE(array));
    memcpy(kept->prepared, prepared, needed * sizeof *prepared);
    pfree(prepared);
    return kept;
}

/* Whether the words are a constant of the query. */
static bool is_constant(const FmgrInfo *function) {
    Node *call = function->fn_expr;
    return call != NULL && IsA(call, FuncExpr) && IsA(lsecond(((FuncExpr *)call)->args), Const);
}

/* The search of a call, kept or new. */
static const Kept *search_of(PG_FUNCTION_ARGS) {
    Kept *kept = fcinfo->flinfo->fn_extra;
    if (kept != NULL && is_constant(fcinfo->flinfo))
        return kept;
    ArrayType *array = PG_GETARG_ARRAYTYPE_P(1);
    if (kept != NULL && VARSIZE(kept->words) == VARSIZE(array) && memcmp(kept->words, array, VARSIZE(array)) == 0)
        return kept;
    if (GetDatabaseEncoding() != PG_UTF8 && pg_database_encoding_max_length() > 1)
        ereport(ERROR, errcode(ERRCODE_FEATURE_NOT_SUPPORTED),
                errmsg("the encoding is %s, in which a match may begin within a character", GetDatabaseEncodingName()));
    Kept *latest = made(fcinfo->flinfo->fn_mcxt, array);
    fcinfo->flinfo->fn_extra = latest;
    if (kept != NULL) {
        pfree(kept->words);
        pfree(kept->prepared);
        pfree(kept);
    }
    return latest;
}

PG_FUNCTION_INFO_V1(lit_has);
Datum lit_has(PG_FUNCTION_ARGS) {
    const Kept *kept = search_of(fcinfo);
    text *given = PG_GETARG_TEXT_PP(0);
    size_t len = VARSIZE_ANY_EXHDR(given);
    literal_match found;
    int32_t status =
        literal_find_in(kept->prepared, kept->len, (const uint8_t *)VARDATA_ANY(given), len, 0, len, &found);
    expect(status, status == LITERAL_OK || status == LITERAL_NONE);
    PG_RETURN_BOOL(status == LITERAL_OK);
}

PG_FUNCTION_INFO_V1(lit_count);
Datum lit_count(PG_FUNCTION_ARGS) {
    const Kept *kept = search_of(fcinfo);
    text *given = PG_GETARG_TEXT_PP(0);
    size_t len = VARSIZE_ANY_EXHDR(given), count = 0;
    int32_t status =
        literal_count_in(kept->prepared, kept->len, (const uint8_t *)VARDATA_ANY(given), len, 0, len, &count);
    expect(status, status == LITERAL_OK);
    PG_RETURN_INT64((int64)count);
}

/* Adds the row of a match, whose start is the number of characters before it. */
static void put(ReturnSetInfo *rows, const char *text, literal_match found, int start) {
    int len = (int)(found.end - found.start);
    bool nulls[4] = {false, false, false, false};
    struct varlena *word = cstring_to_text_with_len(text + found.start, len);
    Datum values[4] = {
        PointerGetDatum(word),
        Int32GetDatum((int32)found.pattern + 1),
        Int32GetDatum(start + 1),
        Int32GetDatum(pg_mbstrlen_with_len(text + found.start, len)),
    };
    tuplestore_putvalues(rows->setResult, rows->setDesc, values, nulls);
    pfree(word);
}

PG_FUNCTION_INFO_V1(lit_matches);
Datum lit_matches(PG_FUNCTION_ARGS) {
    const Kept *kept = search_of(fcinfo);
    text *given = PG_GETARG_TEXT_PP(0);
    const char *text = VARDATA_ANY(given);
    size_t len = VARSIZE_ANY_EXHDR(given), at = 0;
    literal_match found[PAGE];
    literal_page page = {0, 0, 0};
    int start = 0; /* the characters up to `at` */
    InitMaterializedSRF(fcinfo, 0);
    while (page.is_last == 0) {
        int32_t status = literal_find_all_in(kept->prepared, kept->len, (const uint8_t *)text, len, page.next, len,
                                             found, PAGE, &page);
        expect(status, status == LITERAL_OK);
        for (size_t i = 0; i < page.written; i++) {
            start += pg_mbstrlen_with_len(text + at, (int)(found[i].start - at));
            at = found[i].start;
            put((ReturnSetInfo *)fcinfo->resultinfo, text, found[i], start);
        }
        CHECK_FOR_INTERRUPTS();
    }
    return (Datum)0;
}
