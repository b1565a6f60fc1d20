/* The allocator of the static programs, which have one thread. A block begins with a header, which has its length.
 * From 64 bytes on there are four lengths for each power of two, so less than a fifth of a block is wasted. Freed
 * blocks are kept in a list for each length. Blocks of a MiB or more have pages of their own, which return to the
 * system. */
typedef __SIZE_TYPE__ size_t;

void *map_pages(size_t len);
void *remap_pages(void *at, size_t len, size_t new_len);
void unmap_pages(void *at, size_t len);
void *memcpy(void *restrict target, const void *restrict source, size_t len);

/* The header of a block: its length, which includes the header, and the next freed block of this length. */
typedef struct block {
    size_t len;
    struct block *next;
} block;

enum { HEADER = sizeof(block), PAGE = 4096, CHUNK = 1 << 18, LARGE = 1 << 20 };

static block *freed[4 * 20];
static char *chunk; /* the next small block is cut from here */
static size_t left; /* the bytes that are left of the chunk */

static size_t rounded(size_t len, size_t step) { return (len + step - 1) & -step; }

/* The number of a length's highest bit. */
static int highest(size_t len) { return 63 - __builtin_clzl(len); }

/* The length of a block for a request, or 0 if that is too large. */
static size_t len_for(size_t size) {
    size_t least = size + HEADER, len;
    if (size > (size_t)1 << 47)
        return 0;
    len = rounded(least, least < 64 ? 16 : (size_t)1 << (highest(least - 1) - 2));
    return len < LARGE ? len : rounded(least < LARGE ? LARGE : least, PAGE);
}

/* The list of the freed blocks of a length below LARGE. */
static block **list_for(size_t len) { return &freed[4 * highest(len) + (int)(len >> (highest(len) - 2) & 3)]; }

/* A new block of a length below LARGE, or a null pointer. */
static block *cut(size_t len) {
    block *made;
    if (len > CHUNK / 4)
        return map_pages(rounded(len, PAGE));
    if (len > left) {
        char *pages = map_pages(CHUNK);
        if (pages == 0)
            return 0;
        chunk = pages;
        left = CHUNK;
    }
    made = (block *)chunk;
    chunk += len;
    left -= len;
    return made;
}

void *malloc(size_t size) {
    size_t len = len_for(size);
    block *made = 0;
    if (len >= LARGE)
        made = map_pages(len);
    else if (len > 0 && (made = *list_for(len)) != 0)
        *list_for(len) = made->next;
    else if (len > 0)
        made = cut(len);
    if (made == 0)
        return 0;
    made->len = len;
    return made + 1;
}

void free(void *at) {
    block *given;
    if (at == 0)
        return;
    given = (block *)at - 1;
    if (given->len >= LARGE) {
        unmap_pages(given, given->len);
    } else {
        given->next = *list_for(given->len);
        *list_for(given->len) = given;
    }
}

void *realloc(void *at, size_t size) {
    block *given;
    size_t len = len_for(size);
    void *made;
    if (at == 0)
        return malloc(size);
    given = (block *)at - 1;
    if (len > 0 && len <= given->len && given->len < LARGE)
        return at;
    if (len >= LARGE && given->len >= LARGE) {
        given = remap_pages(given, given->len, len);
        if (given == 0)
            return 0;
        given->len = len;
        return given + 1;
    }
    made = malloc(size);
    if (made == 0)
        return 0;
    memcpy(made, at, (len < given->len ? len : given->len) - HEADER);
    free(at);
    return made;
}
