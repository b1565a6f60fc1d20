/* Prints all matches of some words in standard input's first 65535 bytes: find WORD... < TEXT
 * Each line is the number of the word, the offset of its first byte, and the offset after its last byte. */
#include "literal_search.h"

#include <stdio.h>

/* Prints a match. */
static int print(void *context, literal_match found) {
    (void)context;
    return printf("%zu %zu %zu\n", found.pattern, found.start, found.end) < 0;
}

int main(int count, char **words) {
    static uint8_t text[65535];
    size_t words_len = count > 1 ? (size_t)count - 1 : 0, len = fread(text, 1, sizeof text, stdin);
    const char *const *all = (const char *const *)words + 1;
    int32_t status;
    literal_search *search = literal_new_of_words(LITERAL_LEFTMOST_FIRST, false, all, words_len, &status);
    int failed;

    if (search == NULL) {
        fprintf(stderr, "find: %s\n", literal_status_text(status));
        return 2;
    }
    failed = literal_each(search, text, len, print, NULL);
    literal_free(search);
    return failed ? 2 : 0;
}
