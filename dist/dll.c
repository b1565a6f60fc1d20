/* What a DLL for Windows adds to the library: the functions that the header defines, the DLL's start, and the probe of
 * the stack. dist/build compiles this with the kit's compiler, which has no headers. So those that the header includes
 * are empty there, and what it uses of them is declared here. The C library is msvcrt.dll, which is part of Windows. */
typedef __SIZE_TYPE__ size_t;
typedef __UINT8_TYPE__ uint8_t;
typedef __UINT32_TYPE__ uint32_t;
typedef __INT32_TYPE__ int32_t;
#define bool _Bool
#define true 1
#define false 0
#define NULL ((void *)0)
void *malloc(size_t size);
void *calloc(size_t count, size_t size);
void *realloc(void *at, size_t size);
void free(void *at);
void *memcpy(void *to, const void *from, size_t len);
size_t strlen(const char *text);

#include "literal_search.h"

/* The linker sorts sections by what follows `$`, so the constructors are between these two entries. */
__asm__(".section .CRT$XCA, \"dr\"\n"
        "constructors: .quad 0\n"
        ".section .CRT$XCZ, \"dr\"\n"
        "constructors_end: .quad 0\n"
        ".text\n");
typedef void (*constructor)(void);
extern const constructor constructors[], constructors_end[];

/* Windows calls this when a process loads the DLL, and for other reasons. The result says that it can be used. */
int start(void *dll, uint32_t reason, void *reserved) {
    const uint32_t loaded = 1;
    (void)dll;
    (void)reserved;
    for (const constructor *it = constructors + 1; reason == loaded && it < constructors_end; it++)
        (*it)();
    return true;
}

/* A function with a frame of more than a page calls this with the frame's size in rax, before it moves the stack
 * pointer. It touches each page in order, as Windows needs it, and changes no register. */
__asm__(".globl ___chkstk_ms\n"
        "___chkstk_ms:\n"
        "    push %rax\n"
        "    push %rcx\n"
        "    lea 24(%rsp), %rcx\n"
        "0:  sub $4096, %rax\n"
        "    jbe 1f\n"
        "    sub $4096, %rcx\n"
        "    orb $0, (%rcx)\n"
        "    jmp 0b\n"
        "1:  add $4096, %rax\n"
        "    sub %rax, %rcx\n"
        "    orb $0, (%rcx)\n"
        "    pop %rcx\n"
        "    pop %rax\n"
        "    ret\n");
