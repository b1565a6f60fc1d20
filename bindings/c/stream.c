/* Prints all matches of some words in standard input, however long it is: stream WORD... < TEXT
 * Each line is the number of the word, the offset of its first byte, and the offset after its last byte. */
#include "literal_search.h"

#include <stdio.h>
#include <stdlib.h>

enum { KIND = LITERAL_LEFTMOST_FIRST, ROOM = 4096, WORDS = 1000, PLACES = 1 << 20, BLOCK = 1 << 16 };

/* Writes a search for the words into the array, or ends the program. */
static size_t prepare(const char *const *words, size_t words_len, uint32_t *prepared) {
    static uint8_t patterns[ROOM];
    static size_t ends[WORDS];
    size_t needed, len = words_len > WORDS ? ROOM + 1 : literal_join(words, words_len, patterns, ROOM, ends);
    if (len <= ROOM &&
        literal_prepare(KIND, false, patterns, len, ends, words_len, prepared, PLACES, &needed) == LITERAL_OK)
        return needed;
    fputs("stream: no search for these words\n", stderr);
    exit(2);
}

int main(int count, char **words) {
    static uint32_t prepared[PLACES];
    static uint8_t held[2 * ROOM + BLOCK];
    static literal_match found[ROOM];
    size_t prepared_len = prepare((const char *const *)words + 1, count > 1 ? (size_t)count - 1 : 0, prepared);
    size_t before = 0, len = 0; /* how many bytes came before those that are held, and how many these are */
    bool more = true;

    while (more) {
        literal_page page = {0, 0, 0};
        size_t wanted = len + BLOCK, piece = fread(held + len, 1, wanted, stdin);
        len += piece;
        more = piece == wanted;
        while (page.is_last == 0) {
            if (literal_find_all_so_far_in(prepared, prepared_len, held, len, page.next, more, found, ROOM, &page) !=
                LITERAL_OK)
                abort(); /* (the array is as it was written) */
            for (size_t i = 0; i < page.written; i++)
                printf("%zu %zu %zu\n", found[i].pattern, before + found[i].start, before + found[i].end);
        }
        memmove(held, held + page.next, len - page.next);
        before += page.next;
        len -= page.next;
    }
    return ferror(stdin) ? 2 : 0;
}
