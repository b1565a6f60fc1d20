"""Compiles what is proved for Windows, for which the kit has no target: by a folder of tools that are the kit's, except
for clang. The kit compiles for Linux, and this clang replaces the target. What then follows Windows are the calls of
exports and of C, the frames, and the sections. The kit's linker makes a DLL of it and dist/dll.c.
"""
import os
import shutil

from tools import DIST, TOP, kit, run

TRIPLE = "x86_64-pc-windows-gnu"
# (without the addresses' table, of which binutils warn)
QUIET = ("-Wno-override-module", "-fno-addrsig")
DLL, IMPORTS = "literal_search.dll", "libliteral_search.dll.a"
# What the DLL calls of Windows' C library.
OF_C = ("calloc", "free", "malloc", "memcpy", "memmove", "memset", "realloc", "strlen")
# (neither a time nor an address that the linker chooses, so that the same sources give the same bytes)
LINKED = ("-m", "i386pep", "-shared", "-s", "--no-insert-timestamp", "--image-base=0x180000000", "--gc-sections")
EXPORTED = ("-e", "start", "--export-all-symbols", "--exclude-symbols=start,___chkstk_ms")
# Functions with large frames are marked to probe the stack inline, which for Windows would be the name of a function,
# and no function is marked to have a table for the unwinder, which Windows needs for each.
CLANG = """#!/bin/sh
case " $* " in
*" -x ir "*)
    {clang} -x ir module.bc -S -emit-llvm -Xclang -disable-llvm-passes -o module.ll &&
        sed '/^attributes /s/"probe-stack"="inline-asm"/uwtable/' module.ll >module.bc || exit
    ;;
esac
exec {clang} "$@" --target={triple} {quiet}
"""


def tools(room):
    """Makes the folder of tools in a folder, and returns its path."""
    made, given = room / "toolchain", kit() / "toolchain"
    if not made.exists():
        (made / "bin").mkdir(parents=True)
        (made / "lib").symlink_to(given / "lib")
        for tool in os.listdir(given / "bin"):
            (made / "bin" / tool).symlink_to(given / "bin" / tool)
        (made / "bin/clang").unlink()
        (made / "bin/clang").write_text(CLANG.format(clang=given / "bin/clang", triple=TRIPLE, quiet=" ".join(QUIET)))
        (made / "bin/clang").chmod(0o755)
    return made


def compile_source(name, made, triple, room):
    """Compiles a source in C or assembly. C is compiled for the kit's target first: by the calls of Windows' C, a
    struct of two words would not be returned as what is proved expects."""
    clang = kit() / "toolchain/bin/clang"
    if name.endswith(".c"):
        run([clang, "-O2", f"--target={triple}", "-S", "-emit-llvm", name, "-o", "module.ll"], cwd=room)
        run([clang, "-O2", f"--target={TRIPLE}", *QUIET, "-x", "ir", "-c", "module.ll", "-o", made], cwd=room)
    else:
        run([clang, f"--target={TRIPLE}", *QUIET[1:], "-x", "assembler-with-cpp", "-c", name, "-o", made], cwd=room)


def make_dll(file, library, made, room):
    """Makes the DLL of the object of the library, or its import library."""
    for header in ("stdbool", "stddef", "stdint", "stdlib", "string"):
        (room / "headers").mkdir(exist_ok=True)
        (room / f"headers/{header}.h").touch()
    (room / "c.def").write_text("\n".join(("LIBRARY msvcrt.dll", "EXPORTS", *OF_C, "")), "ascii")
    # (the kit has all programs of LLVM in one, and the name by which it is run selects one)
    (room / "llvm-dlltool").symlink_to(kit() / "toolchain/bin/clang")
    run([room / "llvm-dlltool", "-m", "i386:x86-64", "-d", "c.def", "-l", "libc.a"], cwd=room)
    folders = ["-nostdinc", f"-I{room}/headers", f"-I{TOP}/bindings/c"]
    run([kit() / "toolchain/bin/clang", f"--target={TRIPLE}", "-O2", "-std=c11", *QUIET[1:], *folders,
         "-DLITERAL_EXPORT", "-c", DIST / "dll.c", "-o", room / "dll.o"])
    run([kit() / "toolchain/bin/ld.lld", *LINKED, *EXPORTED, "-o", DLL, "--out-implib", IMPORTS, "dll.o", library,
         "libc.a"], cwd=room)
    shutil.copy(room / file, made)
