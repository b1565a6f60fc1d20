/* Multi-pattern string search, formally verified: the leftmost match, all matches that do not overlap, or every
 * occurrence.
 *
 *   const char *words[] = {"apple", "maple"}, *text = "maple in their apple";
 *   int32_t status;
 *   literal_search *search = literal_new_of_words(LITERAL_LEFTMOST_FIRST, false, words, 2, &status);
 *   literal_match found;
 *   if (search == NULL)
 *       fprintf(stderr, "%s\n", literal_status_text(status));
 *   else
 *       for (size_t at = 0; literal_next(search, text, strlen(text), at, &found); at = found.end)
 *           printf("%zu %zu %zu\n", found.pattern, found.start, found.end);
 *   literal_free(search);
 *
 * Patterns and haystacks are bytes, and every offset counts bytes from 0. A list is passed as one buffer and the ends
 * of its pieces: piece i is the bytes from ends[i - 1] (for the first, from 0) up to and not including ends[i]. The
 * ends must not decrease, and the last must not exceed the buffer. Bytes after the last end belong to no piece.
 * literal_join, below, makes both from an array of words.
 *
 * A list of patterns can be searched for if none of them is empty and there are fewer than 2^31; without patterns
 * nothing is found. Patterns are numbered from 0. If several patterns match at one position, the kind decides:
 *
 *   LITERAL_LEFTMOST_FIRST     the earliest in the list wins
 *   LITERAL_LEFTMOST_LONGEST   the longest wins, and of several equally long ones the earliest in the list
 *
 * With ignore_case A to Z equal a to z, in patterns and haystacks; all other bytes are compared as they are. To ignore
 * Unicode's case, see literal_fold.
 *
 * The flags ignore_case and more are numbers, so that callers in other languages can pass integers of 32 bits: 0 is
 * false, and every other number is true.
 *
 * There are three ways to search:
 *
 *   1. literal_find, literal_find_all, literal_find_overlapping, literal_count_overlapping and literal_find_each take
 *      the patterns, and each call builds the search.
 *   2. To search more than once, let literal_prepare write the search into an array, and pass this array to the
 *      functions whose names end in _in. Those that have overlapping in their names need an array from
 *      literal_prepare_overlapping. They build nothing, and allocate nothing.
 *   3. literal_new and literal_new_overlapping allocate the array. These and the functions for it are defined at the
 *      end, in C; the shared library exports them too.
 *
 * Arrays may be copied, or kept in a file for machines of the same byte order. If the format differs between two
 * versions of the library, an array of the other version is LITERAL_DAMAGED: its first number is the format. Then
 * prepare the search again.
 *
 * A call looks up at most three times the bytes to search. A call for all matches, or their count, may look up 19 bytes
 * more, and each byte once more for each whole 262,000 bytes of the longest pattern. A call for the leftmost match that
 * finds one has a second bound: at most eleven times the bytes before the match, and 576 more, or 18 times the length
 * of the longest pattern and 108 more, whichever is more.
 *
 * For each offset at which a pattern begins, a call for whole words looks up more bytes: at most one more than the
 * longest pattern has. These bounds are proved of the searches that the calls make, and not of the calls themselves.
 *
 * Each call checks its arguments and returns one of the statuses below. It checks in this order: LITERAL_BAD_ARGUMENTS,
 * LITERAL_NO_SEARCHER, then, while the search is built, LITERAL_OUT_OF_MEMORY and LITERAL_TOO_LARGE, then
 * LITERAL_TOO_SHORT. Each call that builds a search may return LITERAL_NO_SEARCHER, LITERAL_OUT_OF_MEMORY and
 * LITERAL_TOO_LARGE; and LITERAL_BAD_ARGUMENTS, if the ends decrease or exceed the buffer, or the kind is none of the
 * two. Each call whose name ends in _in may return LITERAL_DAMAGED. The comments of these functions list the other
 * statuses.
 *
 * A call writes only if it returns LITERAL_OK; after any other status the lent memory is unchanged. There are
 * exceptions: with LITERAL_TOO_SHORT, calls that prepare an array report the length that it needs; with LITERAL_NONE,
 * literal_find_so_far_in reports where to go on, and literal_walk_in writes as with LITERAL_OK; with LITERAL_DAMAGED,
 * some of the entries for matches, answers or numbers of patterns may be written.
 *
 * The table of a search has a row for each different suffix of a pattern (for every occurrence: each different prefix).
 * A row has an entry for each different byte of the patterns, and two more (one, if all 256 occur). So
 * LITERAL_TOO_LARGE depends on the patterns, not on memory: a pattern of 8.4 million bytes is too large with all 256
 * different bytes, one of 77 million with 26. A pattern that alone is too large is refused by its length. If only
 * several together are, the rows are made first, and LITERAL_OUT_OF_MEMORY may come instead. An entry needs 4 bytes in
 * a prepared array, and two to four times as much besides while that is written. With LITERAL_LEFTMOST_FIRST a pattern
 * that begins with an earlier one never matches: it adds no rows to a prepared array, but counts for LITERAL_TOO_LARGE.
 *
 * No call keeps anything after it returns, and only a search of literal_new is to be freed. Any thread may call at any
 * time. A call needs less than 32 KiB of stack.
 *
 * The caller must ensure what no call can check:
 *   - Each pointer is aligned for its type and points to at least as many elements as its length says. With a length of
 *     0 it may be NULL, and is not followed. A pointer without a length is never NULL.
 *   - Nobody writes to the memory during a call, and memory that a call may write to overlaps no other argument. A
 *     haystack that another thread still fills can be searched up to its complete part: pass the shorter length.
 *   - No call is made from a signal handler, or from the forked child of a process with threads.
 *   - malloc, realloc and free are from one allocator. malloc and realloc align a block to each power of two up to 16
 *     that divides its size.
 *
 * The library runs on Linux with glibc 2.34 or newer, on aarch64 and on x86-64-v2 processors (SSE4.2 and POPCNT), and
 * on Windows, on these x86-64 processors, in programs of mingw-w64. On an older x86 processor glibc refuses to start a
 * program, or to load the shared library, except a static program or one linked by lld: there the first search ends
 * with an illegal instruction (SIGILL). On x86-64-v3 processors (AVX2) the library uses wider vectors.
 */
#ifndef LITERAL_SEARCH_H
#define LITERAL_SEARCH_H

#include <stdbool.h>
#include <stddef.h>
#include <stdint.h>
#include <stdlib.h>
#include <string.h>

#ifdef __cplusplus
extern "C" {
#endif

/* The version of this header, as text and as a number: 1,000,000 * major + 1,000 * minor + patch. */
#define LITERAL_VERSION "0.1.0"
#define LITERAL_VERSION_NUMBER 1000

/* Statuses. */
#define LITERAL_OK 0             /* done: found, or the answer is written, or the list can be searched for */
#define LITERAL_NONE 1           /* no pattern occurs */
#define LITERAL_NO_SEARCHER 2    /* the patterns can't be searched for: one is empty, or there are 2^31 or more */
#define LITERAL_OUT_OF_MEMORY 3  /* malloc or realloc refused a request; there are patterns that can be searched for */
#define LITERAL_BAD_ARGUMENTS 4  /* the arguments contradict each other, as said above and by each function */
#define LITERAL_TOO_LARGE 5      /* only where the table of the search would have 2^31 entries or more */
#define LITERAL_TOO_SHORT 6      /* the lent array is too short */
#define LITERAL_DAMAGED 7        /* the array is not as it was written for such a call */

/* Kinds of match. */
#define LITERAL_LEFTMOST_FIRST 0
#define LITERAL_LEFTMOST_LONGEST 1

/* A match: the number of its pattern, the offset of its first byte, and the offset after its last byte. In languages
 * where `end` is a keyword, such as Lua and Ruby, declare the last field as `end_`: only the order and the types of
 * fields matter. */
typedef struct literal_match {
    size_t pattern;
    size_t start;
    size_t end;
} literal_match;

/* The result of a call that finds all: how many matches it wrote, the offset where the search goes on, and 1 if no
 * match is left from there on, else 0. If is_last is 1, next is the end of the last match, or the start of the page if
 * it has no match. If is_last is 0, the next match begins at next. In a page of every occurrence, next is always the
 * end of the last one. literal_find_all_so_far_in says what they are in a text that comes in pieces. */
typedef struct literal_page {
    size_t written;
    size_t next;
    uint32_t is_last;
} literal_page;

/* What an array was prepared for: the number of patterns, the lengths of the shortest and of the longest one (0 without
 * patterns), whether (1) or not (0) literal_prepare_overlapping wrote it, and the kind of match if literal_prepare did,
 * else 0. An array does not tell whether case is ignored. */
typedef struct literal_info {
    size_t patterns;
    size_t shortest;
    size_t longest;
    uint32_t is_overlapping;
    uint32_t kind;
} literal_info;

/* The answer for one haystack: LITERAL_OK and its leftmost match, or LITERAL_NONE and a match of zeros. */
typedef struct literal_answer {
    int32_t status;
    literal_match found;
} literal_answer;

/* Joins words that end in a zero byte into a buffer of patterns and its ends, both memory of the caller: `ends` has
 * room for words_len ends, and `patterns` for patterns_len bytes. Returns the length of all words together. If that is
 * more than patterns_len, nothing is written: call again with more room. If all words are empty, the ends are written
 * even with patterns_len 0. */
static inline size_t literal_join(const char *const *words, size_t words_len, uint8_t *patterns, size_t patterns_len,
                                  size_t *ends) {
    size_t at = 0;
    for (size_t i = 0; i < words_len; i++)
        at += strlen(words[i]);
    if (at > patterns_len)
        return at;
    at = 0;
    for (size_t i = 0; i < words_len; i++) {
        size_t len = strlen(words[i]);
        if (len > 0)
            memcpy(patterns + at, words[i], len);
        ends[i] = at += len;
    }
    return at;
}

/* The version of the linked or loaded library, as a number like LITERAL_VERSION_NUMBER. If the two differ, the program
 * was compiled with the header of another version. */
uint32_t literal_version(void);

/* Replaces each whole character of a text in UTF-8 by its simple case folding (CaseFolding.txt of Unicode 15.0.0,
 * statuses C and S), if that has as many bytes. It has in all cases but some thirty, such as the Kelvin sign. All other
 * bytes, and so all offsets, stay the same. To ignore Unicode's case, search for folded patterns in a folded text.
 *
 * LITERAL_OK  the text is folded */
int32_t literal_fold(uint8_t *text, size_t text_len);

/* Whether the patterns can be searched for, by either kind, with case kept or ignored. It allocates nothing.
 *
 * LITERAL_OK             they can
 * LITERAL_NO_SEARCHER    they can't
 * LITERAL_BAD_ARGUMENTS  the ends decrease or exceed the buffer */
int32_t literal_can_search(const uint8_t *patterns, size_t patterns_len, const size_t *ends, size_t ends_len);

/* The leftmost match in the bytes of the haystack from start up to and not including end. The whole match lies in these
 * bytes; its offsets are in the whole haystack.
 *
 * LITERAL_OK             found holds the match
 * LITERAL_NONE           no pattern occurs there
 * LITERAL_BAD_ARGUMENTS  start is above end, or end above haystack_len */
int32_t literal_find(uint32_t kind, uint32_t ignore_case, const uint8_t *patterns, size_t patterns_len,
                     const size_t *ends, size_t ends_len, const uint8_t *haystack, size_t haystack_len,
                     size_t start, size_t end, literal_match *found);

/* All matches in the haystack from an offset on, up to found_len: first the leftmost match of the bytes from that
 * offset on, and then the leftmost match after each match. To go on after a full page, call again with page->next as
 * the offset, until page->is_last is 1: the pages together are the same matches as one long page. found[0] up to
 * found[page->written - 1] are written; the rest of found is unchanged. To end before the end of the haystack, pass a
 * shorter haystack_len.
 *
 * After its last match a page looks for the next one: page->next is its start, so that the next page reads no bytes
 * before it again. A page may also look up bytes after that offset, which the next page looks up again: some 2,000, or,
 * if a pattern has more than 252 bytes, some 3,000 and up to twice the length of the page and of that pattern together.
 * So provide room for hundreds of matches if there are many; for a single match literal_find is faster.
 *
 * LITERAL_OK             found and page are written, also if no pattern occurs (then page->written is 0)
 * LITERAL_BAD_ARGUMENTS  from is above haystack_len, or found_len is 0: a loop over such pages would never end */
int32_t literal_find_all(uint32_t kind, uint32_t ignore_case, const uint8_t *patterns, size_t patterns_len,
                         const size_t *ends, size_t ends_len, const uint8_t *haystack, size_t haystack_len,
                         size_t from, literal_match *found, size_t found_len, literal_page *page);

/* Every occurrence of every pattern in the bytes of the haystack from start up to and not including end, overlapping
 * ones too, ordered by ends and then by numbers of patterns, up to found_len. The rest of found is unchanged.
 * page->next is the end of the last occurrence written, or start if there is none: all occurrences that end before it
 * are written. page->is_last is 1 if there are no more, else 0: then call again with more room, from the same start, or
 * go on by literal_find_overlapping_from_in.
 *
 * LITERAL_OK             found and page are written, also if no pattern occurs (then page->written is 0)
 * LITERAL_BAD_ARGUMENTS  start is above end, end above haystack_len, or found_len is 0 */
int32_t literal_find_overlapping(uint32_t ignore_case, const uint8_t *patterns, size_t patterns_len, const size_t *ends,
                                 size_t ends_len, const uint8_t *haystack, size_t haystack_len, size_t start,
                                 size_t end, literal_match *found, size_t found_len, literal_page *page);

/* How many occurrences literal_find_overlapping would write in all, without an array for them.
 *
 * LITERAL_OK             count holds the number, or SIZE_MAX if there are as many or more
 * LITERAL_BAD_ARGUMENTS  start is above end, or end above haystack_len */
int32_t literal_count_overlapping(uint32_t ignore_case, const uint8_t *patterns, size_t patterns_len,
                                  const size_t *ends, size_t ends_len, const uint8_t *haystack, size_t haystack_len,
                                  size_t start, size_t end, size_t *count);

/* The leftmost match of each of many haystacks, passed in one buffer like patterns. The search is built once for all of
 * them. answers[i] is the answer for haystack i, with offsets from the beginning of that haystack.
 *
 * LITERAL_OK             every answer is written
 * LITERAL_BAD_ARGUMENTS  the ends of the haystacks decrease or exceed their buffer, or answers_len is not the number of
 *                        haystacks */
int32_t literal_find_each(uint32_t kind, uint32_t ignore_case, const uint8_t *patterns, size_t patterns_len,
                          const size_t *ends, size_t ends_len, const uint8_t *haystacks, size_t haystacks_len,
                          const size_t *haystack_ends, size_t haystack_ends_len, literal_answer *answers,
                          size_t answers_len);

/* Writes a search for the patterns into the first *needed entries of an array. *needed is also written if the array is
 * too short: a first call with prepared_len 0 asks for it. The functions below accept an array that begins with these
 * entries.
 *
 * LITERAL_OK             prepared and needed are written
 * LITERAL_TOO_SHORT      the array has fewer than *needed entries, and is unchanged */
int32_t literal_prepare(uint32_t kind, uint32_t ignore_case, const uint8_t *patterns, size_t patterns_len,
                        const size_t *ends, size_t ends_len, uint32_t *prepared, size_t prepared_len, size_t *needed);

/* The same for every occurrence. The array also lists, for each pattern, the patterns that are a suffix of it.
 *
 * LITERAL_OK             prepared and needed are written
 * LITERAL_TOO_SHORT      the array has fewer than *needed entries, and is unchanged
 * LITERAL_OUT_OF_MEMORY  also if the lists would have 2^32 numbers or more */
int32_t literal_prepare_overlapping(uint32_t ignore_case, const uint8_t *patterns, size_t patterns_len,
                                    const size_t *ends, size_t ends_len, uint32_t *prepared, size_t prepared_len,
                                    size_t *needed);

/* Whether an array of literal_prepare is intact, for instance after it was kept in a file: by its version, its lengths,
 * and a check over all of it. It finds accidental damage, and is no defence against a forger.
 *
 * LITERAL_OK       the array is intact
 * LITERAL_DAMAGED  it is not */
int32_t literal_check_prepared(const uint32_t *prepared, size_t prepared_len);

/* The same for an array of literal_prepare_overlapping. */
int32_t literal_check_overlapping(const uint32_t *prepared, size_t prepared_len);

/* What an array of literal_prepare or literal_prepare_overlapping was prepared for. It checks the version and the
 * lengths, not all of the array; if other numbers were changed, the lengths of patterns may be wrong.
 *
 * LITERAL_OK       info is written
 * LITERAL_DAMAGED  the array is of neither function, of another version, or too short; info is unchanged */
int32_t literal_prepared_info(const uint32_t *prepared, size_t prepared_len, literal_info *info);

/* The functions below search by an array of literal_prepare, and those that have overlapping in their names by an array
 * of literal_prepare_overlapping. They check its version and its lengths, not all of it: if these do not fit such a
 * search, as in an array that is too short or of the other kind, the answer is always LITERAL_DAMAGED, if the other
 * arguments are right. If other numbers of the array were changed, each function still returns, and writes only to the
 * lent memory. A match lies in the bytes that were searched, and its pattern is below prepared[3], the array's number
 * of patterns. A page is the last, or fills found; page->next of literal_find_all_in and literal_find_all_so_far_in is at
 * least page->written bytes after start, so a loop over pages ends. But the answer may be wrong, with LITERAL_DAMAGED or
 * without, and with LITERAL_DAMAGED some entries for matches or answers may be written. */

/* Like literal_find.
 *
 * LITERAL_OK             found holds the match
 * LITERAL_NONE           no pattern occurs there
 * LITERAL_BAD_ARGUMENTS  start is above end, or end above haystack_len */
int32_t literal_find_in(const uint32_t *prepared, size_t prepared_len, const uint8_t *haystack, size_t haystack_len,
                        size_t start, size_t end, literal_match *found);

/* The leftmost match from start on in a text that comes in pieces. The haystack is the part of the text that is held;
 * more says whether anything may follow it. A match is reported once nothing that follows can change it: once the
 * longest pattern would fit between its start and the end of the haystack. Then next is its end, for the next call.
 * Otherwise next is the first offset where a match may still begin: all but the last bytes, one less than the longest
 * pattern, are no longer needed. Keep the bytes from next on, append the next piece, and call again, with start where
 * the kept bytes are now. If pieces are short, append at least as many bytes as are kept before the next call, or all
 * up to the end: then each byte is in at most two calls, except that a call also looks up bytes after its match, within
 * the bound above. If there are many matches, literal_find_all_so_far_in looks up far fewer bytes. With more false the
 * answer is the leftmost match of the bytes from start on, as of literal_find_in, or next is haystack_len.
 *
 * LITERAL_OK             found holds the match, and next its end
 * LITERAL_NONE           whatever follows, no match begins before next; found is unchanged
 * LITERAL_BAD_ARGUMENTS  start is above haystack_len */
int32_t literal_find_so_far_in(const uint32_t *prepared, size_t prepared_len, const uint8_t *haystack,
                               size_t haystack_len, size_t start, uint32_t more, literal_match *found, size_t *next);

/* All matches from start on in a text that comes in pieces, as far as they are known, up to found_len. The haystack,
 * start and more are as for literal_find_so_far_in, and the matches are those that its calls report one after another.
 * If found is full, page->is_last is 0, and page->next is the end of the last match: call again, with page->next as
 * start. Otherwise page->is_last is 1, and page->next is the first offset, not before the end of the last match, where a
 * match may still begin: keep the bytes from there on, append the next piece, and call again. With more false, that
 * offset is haystack_len, and no match is left.
 *
 * A page is one search: it looks up at most three times the bytes from start on, and once more for each whole 262,000
 * bytes of the longest pattern. A full page may also look up bytes after its last match that the next page looks up
 * again, as of literal_find_all. So provide room for hundreds of matches if there are many.
 *
 * LITERAL_OK             found and page are written, also if no match is known (then page->written is 0)
 * LITERAL_BAD_ARGUMENTS  start is above haystack_len, or found_len is 0 */
int32_t literal_find_all_so_far_in(const uint32_t *prepared, size_t prepared_len, const uint8_t *haystack,
                                   size_t haystack_len, size_t start, uint32_t more, literal_match *found,
                                   size_t found_len, literal_page *page);

/* Like literal_find_all, in the bytes of the haystack from start up to and not including end. To go on, call again with
 * page->next as start. The bound holds for any array, by the length of the longest pattern that it gives.
 *
 * LITERAL_OK             found and page are written, also if no pattern occurs (then page->written is 0)
 * LITERAL_BAD_ARGUMENTS  start is above end, end above haystack_len, or found_len is 0 */
int32_t literal_find_all_in(const uint32_t *prepared, size_t prepared_len, const uint8_t *haystack, size_t haystack_len,
                            size_t start, size_t end, literal_match *found, size_t found_len, literal_page *page);

/* Like literal_find_overlapping, by an array of literal_prepare_overlapping.
 *
 * LITERAL_OK             found and page are written, also if no pattern occurs (then page->written is 0)
 * LITERAL_BAD_ARGUMENTS  start is above end, end above haystack_len, or found_len is 0 */
int32_t literal_find_overlapping_in(const uint32_t *prepared, size_t prepared_len, const uint8_t *haystack,
                                    size_t haystack_len, size_t start, size_t end, literal_match *found,
                                    size_t found_len, literal_page *page);

/* Like literal_find_overlapping_in, but only the occurrences that end after next, or end at next and have at least this
 * pattern number. Begin with next = start and pattern = 0. To go on after a page, pass the end of its last match as
 * next, and one more than the pattern number of that match as pattern: the pages together have the same occurrences as
 * one long page. With any array no match comes before what was passed, so a loop over pages ends. Without a match
 * page->next is next. A page reads again as many bytes before next as the longest pattern has. So provide more room if
 * patterns are long.
 *
 * LITERAL_OK             found and page are written, also if no pattern occurs (then page->written is 0)
 * LITERAL_BAD_ARGUMENTS  start is above next, next above end, end above haystack_len, or found_len is 0 */
int32_t literal_find_overlapping_from_in(const uint32_t *prepared, size_t prepared_len, const uint8_t *haystack,
                                         size_t haystack_len, size_t start, size_t end, size_t next, size_t pattern,
                                         literal_match *found, size_t found_len, literal_page *page);

/* Like literal_count_overlapping.
 *
 * LITERAL_OK             count holds the number, or SIZE_MAX if there are as many or more
 * LITERAL_BAD_ARGUMENTS  start is above end, or end above haystack_len */
int32_t literal_count_overlapping_in(const uint32_t *prepared, size_t prepared_len, const uint8_t *haystack,
                                     size_t haystack_len, size_t start, size_t end, size_t *count);

/* Like literal_find_each.
 *
 * LITERAL_OK             every answer is written
 * LITERAL_BAD_ARGUMENTS  the ends of the haystacks decrease or exceed their buffer, or answers_len is not the number of
 *                        haystacks */
int32_t literal_find_each_in(const uint32_t *prepared, size_t prepared_len, const uint8_t *haystacks,
                             size_t haystacks_len, const size_t *haystack_ends, size_t haystack_ends_len,
                             literal_answer *answers, size_t answers_len);

/* How many matches literal_find_all_in would write in all, without an array for them, with as few look-ups.
 *
 * LITERAL_OK             count holds the number
 * LITERAL_BAD_ARGUMENTS  start is above end, or end above haystack_len */
int32_t literal_count_in(const uint32_t *prepared, size_t prepared_len, const uint8_t *haystack, size_t haystack_len,
                         size_t start, size_t end, size_t *count);

/* The leftmost whole word in the bytes of the haystack from start up to and not including end: an occurrence of a
 * pattern with no ASCII letter, digit or underscore right before it, and none right after it. The bytes of the haystack
 * next to those that are searched count too. Of the whole words that begin at one offset it is the one that the kind
 * prefers; a pattern that is no whole word hides no other one. The array has to be of literal_prepare with
 * LITERAL_LEFTMOST_LONGEST, whatever the kind is here: by another one the answer is always LITERAL_DAMAGED.
 *
 * LITERAL_OK             found holds the word
 * LITERAL_NONE           there is no whole word
 * LITERAL_BAD_ARGUMENTS  kind is none, start is above end, or end above haystack_len */
int32_t literal_find_word_in(uint32_t kind, const uint32_t *prepared, size_t prepared_len, const uint8_t *haystack,
                             size_t haystack_len, size_t start, size_t end, literal_match *found);

/* All whole words in these bytes, up to found_len: first the one that literal_find_word_in finds, and then the leftmost
 * one after each. Pages are as of literal_find_all_in.
 *
 * LITERAL_OK             found and page are written, also if there is no whole word (then page->written is 0)
 * LITERAL_BAD_ARGUMENTS  kind is none, start is above end, end above haystack_len, or found_len is 0 */
int32_t literal_find_all_words_in(uint32_t kind, const uint32_t *prepared, size_t prepared_len, const uint8_t *haystack,
                                  size_t haystack_len, size_t start, size_t end, literal_match *found, size_t found_len,
                                  literal_page *page);

/* How many whole words literal_find_all_words_in would write in all.
 *
 * LITERAL_OK             count holds the number
 * LITERAL_BAD_ARGUMENTS  kind is none, start is above end, or end above haystack_len */
int32_t literal_count_words_in(uint32_t kind, const uint32_t *prepared, size_t prepared_len, const uint8_t *haystack,
                               size_t haystack_len, size_t start, size_t end, size_t *count);

/* The same three calls for word characters of the caller's choice. `sides` has a byte for each byte of the haystack. It
 * is looked up in its place next to an occurrence: an ASCII letter, a digit or an underscore means that the byte of the
 * haystack belongs to a word character. For UTF-8, copy the ASCII characters, write 'a' for each byte of another
 * character if it is a letter or a digit, and ' ' otherwise. Only the sides from the byte before start up to the one at
 * end count. With NULL and 0, the calls are those above.
 *
 * LITERAL_BAD_ARGUMENTS  also if sides_len is neither haystack_len nor 0 */
int32_t literal_find_word_by_sides_in(uint32_t kind, const uint32_t *prepared, size_t prepared_len,
                                      const uint8_t *haystack, size_t haystack_len, const uint8_t *sides,
                                      size_t sides_len, size_t start, size_t end, literal_match *found);
int32_t literal_find_all_words_by_sides_in(uint32_t kind, const uint32_t *prepared, size_t prepared_len,
                                           const uint8_t *haystack, size_t haystack_len, const uint8_t *sides,
                                           size_t sides_len, size_t start, size_t end, literal_match *found,
                                           size_t found_len, literal_page *page);
int32_t literal_count_words_by_sides_in(uint32_t kind, const uint32_t *prepared, size_t prepared_len,
                                        const uint8_t *haystack, size_t haystack_len, const uint8_t *sides,
                                        size_t sides_len, size_t start, size_t end, size_t *count);

/* The functions from here on step through the automaton of a search for every occurrence, for loops of the caller.
 * They take an array of literal_prepare_overlapping. A state is a number, which depends on the array: the state after a
 * text is that of the longest suffix of the text with which a pattern begins. If two texts lead to the same state, the
 * same patterns end with both, also after the same further bytes. LITERAL_START_STATE is the state of the empty text.
 * A pattern ends with the text exactly if the state is LITERAL_MATCH_STATE or more (literal_is_match).
 *
 * For a number that is no state of the array, an answer has no meaning, or is LITERAL_DAMAGED. */
#define LITERAL_START_STATE 0
#define LITERAL_MATCH_STATE 2147483648u

/* The state after one byte more than the text of a state. A call costs much more than its look-up, so use
 * literal_walk_in for many bytes.
 *
 * LITERAL_OK  next holds the state */
int32_t literal_next_state_in(const uint32_t *prepared, size_t prepared_len, uint32_t state, uint8_t byte,
                              uint32_t *next);

/* Goes on from a state with the bytes of the haystack from start up to and not including end, up to the first byte with
 * which a pattern ends. next is the state after the last byte that was looked up, and at the offset after it. To go on,
 * pass these two as state and start: then each byte is looked up once. A text may come in pieces: begin the next piece
 * in the state after the last one.
 *
 * LITERAL_OK             a pattern ends at the offset at, which is above start; literal_patterns_at_in tells which
 * LITERAL_NONE           no pattern ends at an offset above start, up to end; at is end
 * LITERAL_BAD_ARGUMENTS  start is above end, or end above haystack_len */
int32_t literal_walk_in(const uint32_t *prepared, size_t prepared_len, uint32_t state, const uint8_t *haystack,
                        size_t haystack_len, size_t start, size_t end, uint32_t *next, size_t *at);

/* The patterns that end with the text of a state: total is how many, and the array patterns gets their numbers, in
 * ascending order, from the one with the index from on, up to patterns_len. The rest of it is unchanged. With
 * patterns_len 0, or from not below total, no number is written.
 *
 * LITERAL_OK  total and the numbers are written, also if no pattern ends there (then total is 0) */
int32_t literal_patterns_at_in(const uint32_t *prepared, size_t prepared_len, uint32_t state, size_t from,
                               size_t *patterns, size_t patterns_len, size_t *total);

/* What follows is defined here, in C, and uses only the functions above. Each source file that includes the header gets
 * its own copies of these functions. The shared library exports those with LITERAL_API too, so that callers in other
 * languages need no C: ./install compiles them with LITERAL_EXPORT defined. A program in C that defines LITERAL_IMPORT
 * gets no copies of them, and calls the shared library instead. */
#if defined(LITERAL_EXPORT) && defined(_WIN32)
#define LITERAL_API __declspec(dllexport)
#elif defined(LITERAL_EXPORT)
#define LITERAL_API __attribute__((visibility("default")))
#elif defined(LITERAL_IMPORT)
#define LITERAL_API extern
#else
#define LITERAL_API static inline
#endif

/* What a status says, in a few words. */
LITERAL_API const char *literal_status_text(int32_t status);

/* Whether a pattern ends with the text of a state. */
static inline bool literal_is_match(uint32_t state) {
    return state >= LITERAL_MATCH_STATE;
}

/* A search in memory of its own. The array may be passed to the functions above whose names end in _in. Any number of
 * threads may search by it at the same time. */
typedef struct literal_search {
    uint32_t *prepared;
    size_t prepared_len;
} literal_search;

/* Makes a search for patterns. Returns NULL if literal_prepare refuses them, or memory is refused; *status says why. It
 * is LITERAL_OK if there is a search, and never LITERAL_TOO_SHORT. */
LITERAL_API literal_search *literal_new(uint32_t kind, uint32_t ignore_case, const uint8_t *patterns,
                                        size_t patterns_len, const size_t *ends, size_t ends_len, int32_t *status);

/* The same for every occurrence: for literal_each_overlapping, and for the functions above that have overlapping in
 * their names. */
LITERAL_API literal_search *literal_new_overlapping(uint32_t ignore_case, const uint8_t *patterns, size_t patterns_len,
                                                    const size_t *ends, size_t ends_len, int32_t *status);

/* Like literal_new, for words that end in a zero byte. */
LITERAL_API literal_search *literal_new_of_words(uint32_t kind, uint32_t ignore_case, const char *const *words,
                                                 size_t words_len, int32_t *status);

/* Frees a search. With NULL it does nothing. */
LITERAL_API void literal_free(literal_search *search);

/* 1 if there is a match in the haystack from an offset on, else 0; found is then the leftmost one. There is none if the
 * offset exceeds the length of the haystack. By a search of literal_new_overlapping it finds nothing. */
LITERAL_API int literal_next(const literal_search *search, const void *haystack, size_t haystack_len, size_t from,
                             literal_match *found);

/* The number of matches in the haystack: as many as literal_each passes on if its function always returns 0. By a
 * search of literal_new_overlapping it finds nothing, and returns 0. */
LITERAL_API size_t literal_count(const literal_search *search, const void *haystack, size_t haystack_len);

/* Passes each match in the haystack to a function, with the context: first the leftmost match, and then the leftmost
 * one after each match. If the function returns another number than 0, no more matches are passed, and the number is
 * returned; else 0. For many matches this is faster than literal_next. By a search of literal_new_overlapping it finds
 * nothing, and returns 0. */
LITERAL_API int literal_each(const literal_search *search, const void *haystack, size_t haystack_len,
                             int (*function)(void *context, literal_match found), void *context);

/* The same for every occurrence, by a search of literal_new_overlapping: in the order of their ends and, at one end, of
 * their pattern numbers. By another search nothing is passed. The occurrences are found in pages of 128. If a page goes
 * on by less than the length of the longest pattern, the next page has twice the room, in allocated memory, so that few
 * bytes are read again. If this memory is refused, the room stays as it is: the same occurrences are passed, but more
 * slowly. The memory is freed at the end, so the function must return: without longjmp, and without an exception. */
LITERAL_API int literal_each_overlapping(const literal_search *search, const void *haystack, size_t haystack_len,
                                         int (*function)(void *context, literal_match found), void *context);

/* For literal_new: at least as many entries as literal_prepare needs for the patterns. These are 1,000, one for each
 * pattern, and a row for each of their bytes and one row more. A row has an entry for each distinct byte, and two more.
 */
static inline size_t literal_room(const uint8_t *patterns, size_t patterns_len, size_t ends_len) {
    bool occurs[256] = {false};
    size_t width = 2;
    for (size_t i = 0; i < patterns_len; i++) {
        width += !occurs[patterns[i]];
        occurs[patterns[i]] = true;
    }
    return 1000 + ends_len + (patterns_len + 1) * width;
}

#ifndef LITERAL_IMPORT

LITERAL_API const char *literal_status_text(int32_t status) {
    static const char *const texts[] = {
        "done", "nothing was found", "a pattern is empty, or there are too many patterns", "out of memory",
        "the arguments contradict each other", "the patterns need too large a table", "the array is too short",
        "the array is damaged, or of another version",
    };
    bool is_known = status >= 0 && status < (int32_t)(sizeof texts / sizeof *texts);
    return is_known ? texts[status] : "no status of this library";
}

LITERAL_API void literal_free(literal_search *search) {
    if (search != NULL)
        free(search->prepared);
    free(search);
}

/* For the functions below: makes a search for every occurrence, or for leftmost matches of a kind. */
static inline literal_search *literal_new_for(bool is_overlapping, uint32_t kind, uint32_t ignore_case,
                                              const uint8_t *patterns, size_t patterns_len, const size_t *ends,
                                              size_t ends_len, int32_t *status) {
    literal_search *search = (literal_search *)calloc(1, sizeof *search);
    /* (a search for every occurrence needs this if no pattern is a suffix of another one) */
    size_t room = literal_room(patterns, patterns_len, ends_len) + (is_overlapping ? 2 * ends_len : 0), needed = 0;
    uint32_t *prepared = NULL, *shorter;
    *status = LITERAL_TOO_SHORT;
    /* (once more with the exact length, if memory for more is refused, or more is needed) */
    for (int i = 0; search != NULL && i < 2 && *status == LITERAL_TOO_SHORT; i++) {
        size_t len = room;
        free(prepared);
        prepared = (uint32_t *)malloc(len * sizeof *prepared);
        if (prepared == NULL)
            len = 0;
        if (is_overlapping)
            *status = literal_prepare_overlapping(ignore_case, patterns, patterns_len, ends, ends_len, prepared, len,
                                                  &needed);
        else
            *status = literal_prepare(kind, ignore_case, patterns, patterns_len, ends, ends_len, prepared, len,
                                      &needed);
        room = needed;
    }
    if (search == NULL || *status == LITERAL_TOO_SHORT)
        *status = LITERAL_OUT_OF_MEMORY;
    if (*status != LITERAL_OK) {
        free(prepared);
        free(search);
        return NULL;
    }
    shorter = (uint32_t *)realloc(prepared, needed * sizeof *prepared);
    search->prepared = shorter == NULL ? prepared : shorter;
    search->prepared_len = needed;
    return search;
}

LITERAL_API literal_search *literal_new(uint32_t kind, uint32_t ignore_case, const uint8_t *patterns,
                                        size_t patterns_len, const size_t *ends, size_t ends_len, int32_t *status) {
    return literal_new_for(false, kind, ignore_case, patterns, patterns_len, ends, ends_len, status);
}

LITERAL_API literal_search *literal_new_overlapping(uint32_t ignore_case, const uint8_t *patterns, size_t patterns_len,
                                                    const size_t *ends, size_t ends_len, int32_t *status) {
    return literal_new_for(true, LITERAL_LEFTMOST_FIRST, ignore_case, patterns, patterns_len, ends, ends_len, status);
}

LITERAL_API literal_search *literal_new_of_words(uint32_t kind, uint32_t ignore_case, const char *const *words,
                                                 size_t words_len, int32_t *status) {
    size_t *ends = (size_t *)malloc((words_len + 1) * sizeof *ends);
    size_t len = ends == NULL ? 0 : literal_join(words, words_len, NULL, 0, ends);
    uint8_t *patterns = (uint8_t *)malloc(len + 1);
    literal_search *search = NULL;
    *status = LITERAL_OUT_OF_MEMORY;
    if (patterns != NULL && ends != NULL) {
        literal_join(words, words_len, patterns, len, ends);
        search = literal_new(kind, ignore_case, patterns, len, ends, words_len, status);
    }
    free(patterns);
    free(ends);
    return search;
}

LITERAL_API int literal_next(const literal_search *search, const void *haystack, size_t haystack_len, size_t from,
                             literal_match *found) {
    return literal_find_in(search->prepared, search->prepared_len, (const uint8_t *)haystack, haystack_len, from,
                           haystack_len, found) == LITERAL_OK;
}

LITERAL_API size_t literal_count(const literal_search *search, const void *haystack, size_t haystack_len) {
    size_t count = 0;
    literal_count_in(search->prepared, search->prepared_len, (const uint8_t *)haystack, haystack_len, 0, haystack_len,
                     &count);
    return count;
}

/* For the functions below: passes matches to a function until it returns another number than 0. Returns its last
 * number, or 0 without matches. */
static inline int literal_pass(const literal_match *found, size_t found_len,
                               int (*function)(void *context, literal_match found), void *context) {
    int answer = 0;
    for (size_t i = 0; i < found_len && answer == 0; i++)
        answer = function(context, found[i]);
    return answer;
}

LITERAL_API int literal_each(const literal_search *search, const void *haystack, size_t haystack_len,
                             int (*function)(void *context, literal_match found), void *context) {
    literal_match found[128];
    literal_page page = {0, 0, 0};
    int answer = 0;
    while (page.is_last == 0 && answer == 0) {
        int32_t status = literal_find_all_in(search->prepared, search->prepared_len, (const uint8_t *)haystack,
                                             haystack_len, page.next, haystack_len, found, 128, &page);
        if (status != LITERAL_OK)
            return 0;
        answer = literal_pass(found, page.written, function, context);
    }
    return answer;
}

LITERAL_API int literal_each_overlapping(const literal_search *search, const void *haystack, size_t haystack_len,
                                         int (*function)(void *context, literal_match found), void *context) {
    literal_match few[128], *many = NULL, *more;
    literal_page page = {0, 0, 0};
    literal_info info = {0, 0, 0, 0, 0};
    size_t room = 128, next = 0, pattern = 0;
    int answer = 0;
    while (page.is_last == 0 && answer == 0) {
        literal_match *found = many == NULL ? few : many;
        int32_t status = literal_find_overlapping_from_in(search->prepared, search->prepared_len,
                                                          (const uint8_t *)haystack, haystack_len, 0, haystack_len,
                                                          next, pattern, found, room, &page);
        if (status != LITERAL_OK)
            break;
        answer = literal_pass(found, page.written, function, context);
        if (page.is_last == 0 && answer == 0) {
            bool is_short;
            if (info.longest == 0) /* (asked only after a full page: this reads the length of each pattern) */
                literal_prepared_info(search->prepared, search->prepared_len, &info);
            is_short = page.next - next < info.longest;
            next = page.next;
            pattern = found[page.written - 1].pattern + 1;
            more = is_short ? (literal_match *)realloc(many, 2 * room * sizeof *many) : NULL;
            if (more != NULL) {
                many = more;
                room *= 2;
            }
        }
    }
    free(many);
    return answer;
}

#endif /* LITERAL_IMPORT */

#ifdef __cplusplus
}
#endif

#endif
