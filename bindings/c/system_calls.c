/* Tests dist/system.c and dist/malloc.c, with which it is linked in the place of a C library, and compares them with
 * plain loops. It is run with two words, of which the second is `word`. It ends with 0, or else says what is wrong. */
typedef __SIZE_TYPE__ size_t;
typedef __PTRDIFF_TYPE__ ssize_t;
typedef unsigned char byte;

void *malloc(size_t size);
void *realloc(void *at, size_t size);
void free(void *at);
void *memcpy(void *restrict to, const void *restrict from, size_t len);
void *memmove(void *to, const void *from, size_t len);
void *memset(void *to, int value, size_t len);
ssize_t write(int file, const void *at, size_t len);
ssize_t read(int file, void *at, size_t len);
ssize_t getdents64(int file, void *at, size_t len);
int open(const char *name, int flags, unsigned mode);
int close(int file);
int isatty(int file);
int statx(int dir, const char *name, int flags, unsigned mask, void *answer);
void *__sysv_signal(int signal, void *handler);
int *__errno_location(void);

enum { ROOM = 4096, BLOCKS = 300, NO_FILE = 2, BAD_FILE = 9 };

static unsigned seed = 7;
static int constructed;
static byte bytes[ROOM], plain[ROOM], copy[ROOM];
static byte *blocks[BLOCKS], values[BLOCKS];
static size_t lens[BLOCKS];

#define CHECK(CLAIM) \
    do { \
        if (!(CLAIM)) \
            return "not " #CLAIM "\n"; \
    } while (0)

static size_t below(size_t end) {
    seed = seed * 1664525u + 1013904223u;
    return (seed >> 8) % end;
}

__attribute__((constructor)) static void construct(int count, char **words) {
    constructed = count == 3 && words[3] == 0;
}

/* Whether a name leads to a stream: they have the same inode number, the fifth word of what statx tells. */
static int leads_to(const char *name, int stream) {
    long named[32], asked[32];
    int is_told = statx(-100, name, 0, 0x7ff, named) == 0 && statx(stream, "", 0x1000, 0x7ff, asked) == 0;
    return is_told && named[4] == asked[4];
}

/* What is wrong with the calls of the system, or a null pointer. */
static const char *calls(void) {
    long status[32];
    int file;
    CHECK(open("/no such file", 0, 0) == -1 && *__errno_location() == NO_FILE);
    CHECK(close(-1) == -1 && *__errno_location() == BAD_FILE && !isatty(-1));
    CHECK((file = open("/", 0, 0)) >= 0 && !isatty(file) && read(file, bytes, 1) == -1);
    CHECK(getdents64(file, bytes, ROOM) > 0 && statx(file, "", 0x1000, 0x7ff, status) == 0 && close(file) == 0);
    CHECK(leads_to("/dev/stdin", 0) && leads_to("/dev/stdout", 1) && !leads_to("/", 1));
    CHECK(__sysv_signal(13, (void *)1) == 0 && __sysv_signal(13, 0) == (void *)1);
    return 0;
}

/* The same of the functions that move bytes. */
static const char *moves(void) {
    for (size_t round = 0; round < 20000; round++) {
        size_t len = below(below(4) == 0 ? 1000 : 80), from = below(1000), to = below(1000), value = below(256);
        for (size_t i = 0; i < ROOM; i++)
            bytes[i] = plain[i] = (byte)(i * 7 + round);
        CHECK(memmove(bytes + to, bytes + from, len) == bytes + to);
        for (size_t i = 0; i < len; i++)
            copy[i] = plain[from + i];
        for (size_t i = 0; i < len; i++)
            plain[to + i] = copy[i];
        CHECK(memcpy(bytes + 2000 + to, bytes + from, len) == bytes + 2000 + to);
        for (size_t i = 0; i < len; i++)
            plain[2000 + to + i] = plain[from + i];
        CHECK(memset(bytes + from, (int)value, len) == bytes + from);
        for (size_t i = 0; i < len; i++)
            plain[from + i] = (byte)value;
        for (size_t i = 0; i < ROOM; i++)
            CHECK(bytes[i] == plain[i]);
    }
    return 0;
}

/* Whether a block has its value at some offsets below an end, and at the last one. */
static int has_value(const byte *block, size_t end, byte value) {
    for (size_t i = 0; i < end; i += end / 50 + 1)
        if (block[i] != value)
            return 0;
    return end == 0 || block[end - 1] == value;
}

/* The same of the allocator: blocks keep their bytes, while others are allocated, grow, shrink and are freed. */
static const char *allocates(void) {
    for (size_t round = 0; round < 60000; round++) {
        size_t i = below(BLOCKS), len = below(i < 5 ? 5000000 : i < 30 ? 200000 : 300);
        byte *block;
        CHECK(has_value(blocks[i], lens[i], values[i]));
        if (below(3) == 0) {
            free(blocks[i]);
            blocks[i] = 0;
            lens[i] = 0;
            continue;
        }
        block = blocks[i] == 0 ? malloc(len) : realloc(blocks[i], len);
        CHECK(block != 0 && ((size_t)block & 15) == 0 && has_value(block, len < lens[i] ? len : lens[i], values[i]));
        blocks[i] = block;
        lens[i] = len;
        values[i] = (byte)below(256);
        memset(block, values[i], len);
    }
    CHECK(malloc((size_t)-1) == 0 && malloc((size_t)1 << 60) == 0 && realloc(blocks[0], (size_t)-16) == 0);
    CHECK(has_value(blocks[0], lens[0], values[0]));
    return 0;
}

int main(int count, char **words, char **environment) {
    int is_begun = constructed && count == 3 && words[2][0] == 'w' && environment == words + 4;
    const char *wrong = is_begun ? calls() : "not begun\n";
    wrong = wrong ? wrong : moves();
    wrong = wrong ? wrong : allocates();
    for (size_t i = 0; wrong && wrong[i]; i++)
        write(2, &wrong[i], 1);
    return wrong != 0;
}
