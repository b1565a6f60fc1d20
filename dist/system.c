/* What the static programs call of a C library and of the kit's C, by system calls of Linux alone. It is for programs
 * with one thread, on x86-64 and aarch64. The names with `rattle_` are for aarch64: for x86-64 the kit has them. No
 * header is included, since dist/build compiles this with the kit's compiler, which has none. */
typedef __SIZE_TYPE__ size_t;
typedef __PTRDIFF_TYPE__ ssize_t;
typedef void constructor(int count, char **words, char **environment);

int main(int count, char **words, char **environment);
extern constructor *const __init_array_start[], *const __init_array_end[];

#ifdef __x86_64__
enum { READ = 0, WRITE = 1, CLOSE = 3, MMAP = 9, MUNMAP = 11, SIGACTION = 13, IOCTL = 16, MREMAP = 25 };
enum { GETDENTS64 = 217, EXIT = 231, OPENAT = 257, STATX = 332 };
#define START "xor %ebp, %ebp; mov %rsp, %rdi; and $-16, %rsp; call begin"

static long call(long number, long a, long b, long c, long fourth, long fifth, long sixth) {
    register long d __asm__("r10") = fourth, e __asm__("r8") = fifth, f __asm__("r9") = sixth;
    __asm__ volatile("syscall"
                     : "+a"(number)
                     : "D"(a), "S"(b), "d"(c), "r"(d), "r"(e), "r"(f)
                     : "rcx", "r11", "memory");
    return number;
}
#else
enum { IOCTL = 29, OPENAT = 56, CLOSE = 57, GETDENTS64 = 61, READ = 63, WRITE = 64, EXIT = 94, SIGACTION = 134 };
enum { MUNMAP = 215, MREMAP = 216, MMAP = 222, STATX = 291 };
#define START "mov x29, xzr; mov x30, xzr; mov x0, sp; b begin"

static long call(long number, long first, long second, long third, long fourth, long fifth, long sixth) {
    register long n __asm__("x8") = number, a __asm__("x0") = first, b __asm__("x1") = second, c __asm__("x2") = third;
    register long d __asm__("x3") = fourth, e __asm__("x4") = fifth, f __asm__("x5") = sixth;
    __asm__ volatile("svc 0" : "+r"(a) : "r"(n), "r"(b), "r"(c), "r"(d), "r"(e), "r"(f) : "memory");
    return a;
}
#endif

static char **all;
static size_t word_count;
static int error;

/* The system starts a program with the words on the stack: their number, the words, a null pointer, the environment. */
__asm__(".globl _start; _start: " START);

__attribute__((used, noreturn)) static void begin(long *stack) {
    int count = (int)*stack;
    char **environment = (char **)stack + 2 + count;
    all = (char **)stack + 1;
    word_count = (size_t)count;
    for (constructor *const *it = __init_array_start; it < __init_array_end; it++)
        (*it)(count, all, environment);
    for (int status = main(count, all, environment);;)
        call(EXIT, status, 0, 0, 0, 0, 0);
}

/* What a function returns for the answer of a call: from -4095 to -1 it is an error. */
static long result(long answer) {
    if ((unsigned long)answer < -4095ul)
        return answer;
    error = (int)-answer;
    return -1;
}

int *__errno_location(void) { return &error; }

ssize_t read(int file, void *at, size_t len) { return result(call(READ, file, (long)at, (long)len, 0, 0, 0)); }

ssize_t write(int file, const void *at, size_t len) { return result(call(WRITE, file, (long)at, (long)len, 0, 0, 0)); }

int close(int file) { return (int)result(call(CLOSE, file, 0, 0, 0, 0, 0)); }

int openat(int dir, const char *name, int flags, unsigned mode) {
    return (int)result(call(OPENAT, dir, (long)name, flags, mode, 0, 0));
}

int open(const char *name, int flags, unsigned mode) { return openat(-100, name, flags, mode); }

ssize_t getdents64(int file, void *at, size_t len) {
    return result(call(GETDENTS64, file, (long)at, (long)len, 0, 0, 0));
}

static int is_same(const char *name, const char *other) {
    while (*name && *name == *other)
        name++, other++;
    return *name == *other;
}

/* Without /proc, as in an empty container, the names of streams lead nowhere. So the stream itself is asked (with
 * AT_EMPTY_PATH), unless AT_SYMLINK_NOFOLLOW asks for the link. */
int statx(int dir, const char *name, int flags, unsigned mask, void *answer) {
    int stream = is_same(name, "/dev/stdin") ? 0 : is_same(name, "/dev/stdout") ? 1 : -1;
    if (stream >= 0 && (flags & 0x100) == 0)
        return statx(stream, "", flags | 0x1000, mask, answer);
    return (int)result(call(STATX, dir, (long)name, flags, mask, (long)answer, 0));
}

int isatty(int file) {
    char settings[64];
    return result(call(IOCTL, file, 0x5401, (long)settings, 0, 0, 0)) == 0;
}

/* Programs ignore a signal by this, and set no handler of their own. It returns what was set before. */
void *__sysv_signal(int signal, void *handler) {
    void *action[4] = {handler}, *before[4];
    long answer = result(call(SIGACTION, signal, (long)action, (long)before, 8, 0, 0));
    return answer == -1 ? (void *)-1 : before[0];
}

/* Memory for malloc.c: zeroed pages, or a null pointer. */
void *map_pages(size_t len) {
    long at = result(call(MMAP, 0, (long)len, 3, 0x22, -1, 0));
    return at == -1 ? 0 : (void *)at;
}

void *remap_pages(void *at, size_t len, size_t new_len) {
    long moved = result(call(MREMAP, (long)at, (long)len, (long)new_len, 1, 0, 0));
    return moved == -1 ? 0 : (void *)moved;
}

void unmap_pages(void *at, size_t len) { call(MUNMAP, (long)at, (long)len, 0, 0, 0, 0); }

#ifdef __x86_64__
/* glibc's name of `write`, by which a program says that the processor is too old. */
ssize_t __write(int file, const void *at, size_t len) { return write(file, at, len); }

/* What the processor has, as glibc tells it: the leaves 1, 7 and 0x80000001 of cpuid, each as its four registers twice.
 * dist/choose.s asks whether the system keeps the wide registers. */
const unsigned *__x86_get_cpuid_feature_leaf(unsigned leaf) {
    static unsigned known[3][8];
    unsigned *at = known[leaf % 3], number = leaf == 0 ? 1 : leaf == 1 ? 7 : 0x80000001;
    __asm__("cpuid" : "=a"(at[0]), "=b"(at[1]), "=c"(at[2]), "=d"(at[3]) : "a"(number), "c"(0));
    for (int i = 0; i < 4; i++)
        at[4 + i] = at[i];
    return at;
}
#endif

#ifdef __aarch64__
/* Copies a word to the start of a buffer. Returns its length, -1 if there is no such word, or -2 if it does not fit. */
ssize_t rattle_arg(size_t i, char *at, size_t len) {
    size_t n = 0;
    if (i >= word_count)
        return -1;
    for (; all[i][n]; n++) {
        if (n == len)
            return -2;
        at[n] = all[i][n];
    }
    return (ssize_t)n;
}

int rattle_errno(void) { return error; }

void rattle_set_errno(int new_error) { error = new_error; }

/* Opens a directory below another one, but no symbolic link: O_CLOEXEC, O_DIRECTORY and O_NOFOLLOW. */
int rattle_open_dir_at(int dir, const char *name) { return openat(dir, name, 02000000 | 040000 | 0100000, 0); }
#endif

typedef char v16 __attribute__((vector_size(16), aligned(1), may_alias));
typedef unsigned long word8 __attribute__((aligned(1), may_alias));
typedef unsigned word4 __attribute__((aligned(1), may_alias));
typedef unsigned short word2 __attribute__((aligned(1), may_alias));

/* Copies some values at the front and as many at the end, which may overlap: all are read before one is written. */
#define MOVE_ENDS(TYPE, COUNT) \
    do { \
        TYPE front[COUNT], end[COUNT]; \
        for (int i = 0; i < (COUNT); i++) { \
            front[i] = ((const TYPE *)from)[i]; \
            end[i] = ((const TYPE *)(from + len))[i - (COUNT)]; \
        } \
        for (int i = 0; i < (COUNT); i++) { \
            ((TYPE *)to)[i] = front[i]; \
            ((TYPE *)(to + len))[i - (COUNT)] = end[i]; \
        } \
    } while (0)

/* Copies 64 bytes, all read before one is written. */
static inline void move_64(char *to, const char *from) {
    v16 bytes[4];
    for (int i = 0; i < 4; i++)
        bytes[i] = ((const v16 *)from)[i];
    for (int i = 0; i < 4; i++)
        ((v16 *)to)[i] = bytes[i];
}

/* Copies more than 128 bytes. No byte is written before it is read: the bytes at the end where the copy stops are read
 * first, and written last. */
static void move_many(char *to, const char *from, size_t len) {
    char kept[64];
    if ((size_t)(to - from) >= len) {
        move_64(kept, from + len - 64);
        for (size_t i = 0; i < len - 64; i += 64)
            move_64(to + i, from + i);
        move_64(to + len - 64, kept);
    } else {
        move_64(kept, from);
        for (size_t i = len; i > 64; i -= 64)
            move_64(to + i - 64, from + i - 64);
        move_64(to, kept);
    }
}

void *memmove(void *target, const void *source, size_t len) {
    char *to = target;
    const char *from = source;
    if (len > 128)
        move_many(to, from, len);
    else if (len > 64)
        MOVE_ENDS(v16, 4);
    else if (len > 32)
        MOVE_ENDS(v16, 2);
    else if (len >= 16)
        MOVE_ENDS(v16, 1);
    else if (len >= 8)
        MOVE_ENDS(word8, 1);
    else if (len >= 4)
        MOVE_ENDS(word4, 1);
    else if (len >= 2)
        MOVE_ENDS(word2, 1);
    else if (len == 1)
        *to = *from;
    return target;
}

void *memcpy(void *restrict target, const void *restrict source, size_t len) { return memmove(target, source, len); }

void *memset(void *target, int byte, size_t len) {
    char *to = target;
    v16 bytes = (v16){0} + (char)byte;
    if (len < 16) {
        for (size_t i = 0; i < len; i++)
            to[i] = (char)byte;
        return target;
    }
    for (size_t i = 0; i < len - 16; i += 16)
        *(v16 *)(to + i) = bytes;
    *(v16 *)(to + len - 16) = bytes;
    return target;
}
