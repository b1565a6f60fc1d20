/* Loaded into a program before the C library, it refuses one of the program's requests for memory: the one whose
   number, counted from 1, is in the environment's REFUSED_REQUEST, or each where that is 0. A refusal makes a file of
   the name in REFUSED_MARK. */
extern char *getenv(const char *);
extern long atol(const char *);
extern int creat(const char *, unsigned);
extern int close(int);
extern void *__libc_malloc(unsigned long);
extern void *__libc_realloc(void *, unsigned long);

static int refuses(void) {
    static long request;
    const char *refused = getenv("REFUSED_REQUEST"), *mark = getenv("REFUSED_MARK");
    request += 1;
    if (!refused || (atol(refused) && request != atol(refused)))
        return 0;
    if (mark)
        close(creat(mark, 0600));
    return 1;
}

void *malloc(unsigned long size) {
    return refuses() ? 0 : __libc_malloc(size);
}

void *realloc(void *held, unsigned long size) {
    return refuses() ? 0 : __libc_realloc(held, size);
}
