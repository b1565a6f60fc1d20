// The exports of libliteral_search.a for x86-64, and `main` of a program. Each jumps to one of two builds of the same
// proved function: to NAME.v3 on a processor of the level x86-64-v3 (AVX2, BMI2 and others), to NAME.v2 on any other.
// dist/build adds a line `export NAME` for each.
//
// A constructor decides, when the program or the shared library is loaded. Until then calls go to NAME.v2, which gives
// the same answers. So neither a loader nor a linker needs to know ifuncs, and no pointer to code can be overwritten.
// It is in assembly since a jump that keeps all arguments cannot be written in C.

// What differs between ELF and Windows: a section of code, the type of a function, its end, and the constructors.
#ifdef _WIN32
.macro code name
    .section \name, "xr"
.endm
.macro function name
    .def \name
    .scl 2
    .type 32
    .endef
.endm
.macro end name
.endm
.macro constructors
    .section .CRT$XCU, "dr"
.endm
#else
.macro code name
    .section \name, "ax", @progbits
.endm
.macro function name
    .type \name, @function
.endm
.macro end name
    .size \name, . - \name
.endm
.macro constructors
    .section .init_array, "aw", @init_array
.endm
#endif

.macro export name
    code .text.\name
    .globl \name
    function \name
    .p2align 5
\name:
    cmpb $0, has_v3(%rip)
    je \name\().v2
    jmp \name\().v3
    end \name
.endm

// Goes to the end if a register lacks one of some bits. It destroys the register.
.macro need bits, register
    not \register
    test $\bits, \register
    jnz done
.endm

    .lcomm has_v3, 1

    code .text.choose
choose:
    push %rbx // cpuid overwrites it
    xor %eax, %eax
    cpuid
    cmp $7, %eax // the last leaf that the processor has
    jb done
    mov $1, %eax
    cpuid
    need 1 << 12 | 1 << 22 | 1 << 27 | 1 << 28 | 1 << 29, %ecx // FMA, MOVBE, OSXSAVE, AVX, F16C
    mov $7, %eax
    xor %ecx, %ecx
    cpuid
    need 1 << 3 | 1 << 5 | 1 << 8, %ebx // BMI1, AVX2, BMI2
    mov $0x80000001, %eax
    cpuid
    need 1 << 5, %ecx // LZCNT
    xor %ecx, %ecx
    xgetbv
    need 1 << 1 | 1 << 2, %eax // the system saves the registers of SSE and of AVX
    movb $1, has_v3(%rip)
done:
    pop %rbx
    ret

    constructors
    .p2align 3
    .quad choose

#ifndef _WIN32
    .section .note.GNU-stack, "", @progbits
#endif
