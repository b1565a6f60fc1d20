"""Compiles the header and the programs in C, and runs them: under the sanitizers, with little stack, by each build for
x86-64, on an older processor, for aarch64, and with musl, another C library. It takes the libraries of dist/, and the
shared one from where bindings/test installs it. The sources in dist/ that replace a C library are tested too."""
import itertools
import os
import re
import shutil
import subprocess
import sys
import tempfile
import unittest
from pathlib import Path

HERE = Path(__file__).resolve().parent
DIST = HERE.parents[1] / "dist"
STATIC = DIST / "x86_64-linux"
LIBRARY, FOR_ARM = (DIST / f"{it}-linux-gnu/libliteral_search.a" for it in ("x86_64", "aarch64"))
SHARED = HERE.parent / "out/lib/libliteral_search.so"
VERSION = "LITERAL_SEARCH_0"  # of the names of the shared library
WARNINGS = ["-Wall", "-Wextra", "-Wpedantic", "-Wconversion", "-Werror", f"-I{HERE}"]
SANITIZED = ["-g", "-fsanitize=address,undefined", "-fno-sanitize-recover=all"]
ALONE = ["-fsyntax-only", "-include", "literal_search.h", "/dev/null"]
# A program that prints which level of processors dist/choose.s chooses, and which one the compiler finds.
LEVELS = """
int two(void) __asm__("level.v2");
int two(void) { return 2; }
int three(void) __asm__("level.v3");
int three(void) { return 3; }
"""
LEVEL = """#include <stdio.h>
int level(void);
int main(void) { return printf("%d %d", level(), __builtin_cpu_supports("x86-64-v3") ? 3 : 2) < 0; }
"""
CROSS, MUSL, MINGW = "aarch64-linux-gnu-gcc", "musl-gcc", "x86_64-w64-mingw32-gcc"
FOR_WINDOWS, DLL, IMPORTS = (DIST / "x86_64-windows" / it
                             for it in ("libliteral_search.a", "literal_search.dll", "libliteral_search.dll.a"))
WINE = "/usr/lib/wine/wine64"
TEXT = "Nobody likes maple in their apple flavored Snapple.\n"
WORDS, FOUND = ["apple", "maple", "Snapple"], "1 13 18\n0 28 33\n2 43 50\n"
PROGRAMS = (("litfind", ("longest", *WORDS)), ("litscan", ("-n", "-e", "apple", "-e", "maple", "-e", "they")))
MOST_REQUESTS = 100
CHANGE_ROOT = "unshare", "--map-root-user", "chroot"

# Where bindings/test runs this, a library that refuses a request for memory stands before the C library.
PLAIN = {name: value for name, value in os.environ.items() if name != "LD_PRELOAD"}
REFUSER = os.environ.get("LD_PRELOAD", "")


def run(*words, text="", **how):
    """The status of a command, and what it wrote on both outputs."""
    how = {"stdout": subprocess.PIPE, "stderr": subprocess.STDOUT, "text": True, "env": PLAIN, **how}
    ran = subprocess.run(words, input=text, **how)
    return ran.returncode, ran.stdout


def exports(*words):
    """The names that an archive or a shared library defines, by some words of nm."""
    listed = run("nm", "--defined-only", *map(str, words))[1].splitlines()
    return {it.split()[2] for it in listed if " " in it}


def can_change_root():
    return shutil.which("unshare") is not None and run(*CHANGE_ROOT, "/", "true")[0] == 0


class Programs(unittest.TestCase):
    @classmethod
    def setUpClass(cls):
        cls.room = tempfile.TemporaryDirectory()
        cls.addClassCleanup(cls.room.cleanup)

    def compiled(self, name, *words, library=LIBRARY, compiler="cc"):
        """A program, compiled."""
        program = f"{self.room.name}/{name}-{compiler}"
        command = [compiler, "-std=c11", *WARNINGS, *words, f"{HERE}/{name}.c", str(library)]
        self.assertEqual(run(*command, "-pthread", "-o", program), (0, ""))
        return program

    def assert_same_matches(self, compiled):
        """Programs find the same as here, for lists that are searched for in different ways. A function compiles one,
        and answers the words that run it."""
        text = (HERE / "literal_search.h").read_text("ascii")
        words = sorted(set(re.findall(r"\w{3,}", text)), key=lambda it: it[::-1])
        for name in ("find", "stream"):
            there, here = compiled(name), self.compiled(name)
            for count in (1, 2, 3, 8, 16, 32, 128, 400):
                found = run(here, *words[:count], text=text)
                self.assertEqual(run(*there, *words[:count], text=text), found)
                self.assertGreaterEqual(found[1].count("\n"), count)

    def level(self, *words, compiler="cc"):
        """A program that prints which build dist/choose.s chooses, and which one the compiler would."""
        program = f"{self.room.name}/level-{compiler}"
        command = [compiler, *words, "-xc", "-", "-xassembler-with-cpp", self.choice_of_level(), "-o", program]
        self.assertEqual(run(*command, text=LEVEL + LEVELS), (0, ""))
        return program

    def choice_of_level(self):
        """A source in assembly that chooses."""
        source = Path(self.room.name, "level.s")
        source.write_text((DIST / "choose.s").read_text("ascii") + "export level\n", "ascii")
        return str(source)


class Find(Programs):
    def test_header(self):
        for words in ([], ["-DLITERAL_EXPORT"], ["-DLITERAL_IMPORT"]):
            self.assertEqual(run("cc", "-std=c11", *WARNINGS, *words, "-xc", *ALONE), (0, ""))
            self.assertEqual(run("c++", "-std=c++17", *WARNINGS, *words, "-xc++", *ALONE), (0, ""))

    def test_find_sanitized(self):
        refused = (2, "find: a pattern is empty, or there are too many patterns\n")
        find = self.compiled("find", *SANITIZED)
        self.assertEqual(run(find, *WORDS, text=TEXT), (0, FOUND))
        self.assertEqual(run(find, "zebra", text=TEXT), (0, ""))
        self.assertEqual(run(find, "a"), (0, ""))
        many = "".join(f"0 {at} {at + 1}\n" for at in range(250))
        self.assertEqual(run(find, "a", text=250 * "a"), (0, many))
        self.assertEqual(run(find, text=TEXT), (0, ""))
        self.assertEqual(run(find, "a", "", text=TEXT), refused)
        self.assertEqual(run(find, "", text=TEXT), refused)

    def test_stream_sanitized(self):
        stream = self.compiled("stream", *SANITIZED)
        self.assertEqual(run(stream, *WORDS, text=TEXT), (0, FOUND))
        self.assertEqual(run(stream, text=TEXT), (0, ""))
        self.assertEqual(run(stream, "a", "", text=TEXT), (2, "stream: no search for these words\n"))
        for shift in range(8):
            text, places = bytearray(b"x" * 200000), [1000, 65530 + shift, 131066 + shift, 199993]
            for at in places:
                text[at : at + 7] = b"Snapple"
            found = "".join(f"2 {at} {at + 7}\n" for at in places)
            self.assertEqual(run(stream, *WORDS, "applS" * 800, text=text.decode()), (0, found))

    def test_calls_sanitized(self):
        self.assertEqual(run(self.compiled("calls", *SANITIZED)), (0, ""))

    def test_calls_with_little_stack(self):
        self.assertEqual(run(self.compiled("calls", "-O1"), "stack"), (0, ""))

    def test_calls_by_the_build_for_v2(self):
        """Only older processors choose it."""
        shared, archive, edits = f"{self.room.name}/v2.so", f"{self.room.name}/v2.a", []
        for it in exports("-g", LIBRARY):
            edits += [f"--redefine-sym={it}={it}.any", f"--localize-symbol={it}.any"]
            edits += [f"--redefine-sym={it}.v2={it}", f"--globalize-symbol={it}"]
        self.assertEqual(run("objcopy", *edits, LIBRARY, archive), (0, ""))
        self.assertEqual(run(self.compiled("calls", *SANITIZED, library=archive)), (0, ""))
        self.assertEqual(run(self.compiled("calls", "-O1", library=archive), "stack"), (0, ""))
        whole = "-Wl,--whole-archive", archive, "-Wl,--no-whole-archive"
        self.assertEqual(run("cc", "-shared", "-o", shared, *whole), (0, ""))
        given = {**PLAIN, "TESTED_LIBRARY": shared}
        status, said = run(sys.executable, "-m", "unittest", "test_calls", cwd=HERE, env=given)
        self.assertEqual(status, 0, said)

    def test_choice_of_the_build(self):
        """It agrees with the compiler's test for the level, also on processors that lack one of its features."""
        program, find, processors = self.level(), self.compiled("find"), [[]]
        if shutil.which("qemu-x86_64"):
            lacking = ("avx2", "bmi1", "bmi2", "f16c", "fma", "abm", "movbe", "xsave")
            named = ("Nehalem", "Haswell", "Haswell,level=6", *(f"Haswell,-{it}" for it in lacking))
            processors += [["qemu-x86_64", "-cpu", it] for it in named]
        for words in processors:
            self.assertIn(run(*words, program, stderr=subprocess.DEVNULL), ((0, "2 2"), (0, "3 3")), words)
            self.assertEqual(run(*words, find, *WORDS, text=TEXT, stderr=subprocess.DEVNULL), (0, FOUND), words)
            for folder, (name, given) in itertools.product((LIBRARY.parent, STATIC), PROGRAMS):
                found = run(*words, folder / name, *given, text=TEXT, stderr=subprocess.DEVNULL)
                self.assertEqual(found, run(folder / name, *given, text=TEXT), words)
                self.assertEqual(found[0], 0)

    @unittest.skipUnless("refuse" in REFUSER, "run by bindings/test")
    def test_each_request_refused(self):
        """It finds all the same, as where an output has no buffer, or says why not."""
        find, told, mark = self.compiled("find"), 0, f"{self.room.name}/mark"
        for request in range(1, MOST_REQUESTS):
            given = {"LD_PRELOAD": REFUSER, "REFUSED_REQUEST": str(request), "REFUSED_MARK": mark}
            answer = run(find, *WORDS, text=TEXT, env=given)
            self.assertIn(answer, ((0, FOUND), (2, "find: out of memory\n")), request)
            told += answer[0] == 2
            if not os.path.exists(mark):
                break
            os.remove(mark)
        self.assertLess(request, MOST_REQUESTS - 1)
        self.assertGreater(told, 2)

    def test_only_the_header_s_names_are_shown(self):
        header = (HERE / "literal_search.h").read_text("ascii")
        names = set(re.findall(r"^u?int32_t (literal_\w+)\(", header, re.M))
        defined = set(re.findall(r"^LITERAL_API .*?(literal_\w+)\(", header, re.M))
        self.assertGreater(min(len(names), len(defined)), 8)
        for library in (LIBRARY, FOR_ARM, FOR_WINDOWS):
            self.assertEqual(exports("-g", library), names)
        self.assertEqual(exports("-D", SHARED), {VERSION, *(f"{it}@@{VERSION}" for it in names | defined)})

    def test_find_with_the_shared_library_alone(self):
        """It calls the shared library's copies of the functions that the header defines."""
        find = self.compiled("find", "-DLITERAL_IMPORT", f"-Wl,-rpath,{SHARED.parent}", library=SHARED)
        self.assertEqual(run(find, *WORDS, text=TEXT), (0, FOUND))
        called = ("each", "free", "new_of_words", "status_text")
        needed = set(re.findall(r" U (literal_\w+@\w+)", run("nm", "-uD", find)[1]))
        self.assertEqual(needed, {f"literal_{it}@{VERSION}" for it in called})

    def test_what_the_archives_need(self):
        """Functions that every C library has, and neither thread-local variables nor ifuncs."""
        for archive in (str(LIBRARY), str(FOR_ARM)):
            needed = set(re.findall(r" U (\w+)", run("nm", "-u", archive)[1]))
            self.assertEqual(needed, {"malloc", "realloc", "free", "memcpy", "memmove", "memset"})
            symbols = run("readelf", "-sW", archive)[1]
            self.assertIn(" FUNC ", symbols)
            self.assertNotRegex(symbols, " (TLS|IFUNC) ")

    def test_older_processors_are_refused(self):
        """The loader reads the mark that GNU ld takes over from the library."""
        find = self.compiled("find")
        for file in (find, str(SHARED)):
            self.assertRegex(run("readelf", "-n", file)[1], "x86 ISA needed: .*x86-64-v2")
        if shutil.which("qemu-x86_64"):
            status, said = run("qemu-x86_64", "-cpu", "core2duo", find, "a", text=TEXT)
            self.assertEqual((status, said), (127, f"{find}: CPU ISA level is lower than required\n"))
            status, said = run("qemu-x86_64", "-cpu", "core2duo", STATIC / "litscan", "a", text=TEXT)
            self.assertEqual(status, 127)
            self.assertIn("x86-64-v2", said)


@unittest.skipUnless(all(map(shutil.which, (CROSS, "qemu-aarch64"))), f"there is no {CROSS}, or no qemu-aarch64")
class OnArm(Programs):
    def compiled_for_arm(self, name):
        """The words that run a program for aarch64."""
        return "qemu-aarch64", self.compiled(name, "-static", library=FOR_ARM, compiler=CROSS)

    def test_calls(self):
        self.assertEqual(run(*self.compiled_for_arm("calls")), (0, ""))

    def test_same_matches(self):
        self.assert_same_matches(self.compiled_for_arm)


@unittest.skipUnless(shutil.which(MUSL), f"there is no {MUSL}")
class OnMusl(Programs):
    """With the archive, linked statically and dynamically."""
    LINKED = ["-static"], []

    def test_calls(self):
        for words in self.LINKED:
            program = self.compiled("calls", *words, compiler=MUSL)
            self.assertEqual("[libc.so]" in run("readelf", "-d", program)[1], not words)
            self.assertEqual(run(program), (0, ""))
            self.assertEqual(run(program, "stack"), (0, ""))

    def test_same_matches(self):
        for words in self.LINKED:
            self.assert_same_matches(lambda name, words=words: [self.compiled(name, *words, compiler=MUSL)])

    def test_choice_of_the_build(self):
        """The constructor that makes it runs before main."""
        here = run(self.level())
        self.assertIn(here, ((0, "2 2"), (0, "3 3")))
        for words in self.LINKED:
            self.assertEqual(run(self.level(*words, compiler=MUSL)), here)


@unittest.skipUnless(shutil.which(MINGW) and os.access(WINE, os.X_OK), f"there is no {MINGW}, or no {WINE}")
class OnWindows(Programs):
    """With the archive, and with the DLL, by wine."""

    @classmethod
    def tearDownClass(cls):
        """Waits for wine's server, which writes into its folder until it ends."""
        run(WINE.replace("wine64", "wineserver"), "-w", env={**PLAIN, "WINEPREFIX": f"{cls.room.name}/wine"})

    def on_windows(self, program, *words, **how):
        """The status of a program, to whose name the compiler added an ending, and what it wrote."""
        given = {**PLAIN, "WINEPREFIX": f"{self.room.name}/wine", "WINEDEBUG": "-all"}
        return run(WINE, f"{program}.exe", *words, env=given, stderr=subprocess.DEVNULL, **how)

    def compiled_for_windows(self, name, *words, library=FOR_WINDOWS):
        """A program, compiled."""
        return self.compiled(name, "-static", *words, library=library, compiler=MINGW)

    def test_calls(self):
        calls = self.compiled_for_windows("calls")
        self.assertEqual(self.on_windows(calls), (0, ""))
        self.assertEqual(self.on_windows(calls, "stack"), (0, ""))

    def test_same_matches(self):
        program = self.compiled_for_windows("find")
        for count, text in ((3, TEXT), (400, (HERE / "find.c").read_text("ascii"))):
            words = [*WORDS, *sorted(set(re.findall(r"\w{3,}", text)))][:count]
            here = run(self.compiled("find"), *words, text=text)
            self.assertGreater(here[1].count("\n"), 2)
            self.assertEqual(self.on_windows(program, *words, text=text), here)

    def test_with_the_dll(self):
        """Programs call its copies of the functions that the header defines, or their own ones."""
        shutil.copy(DLL, self.room.name)
        find = self.compiled_for_windows("find", "-DLITERAL_IMPORT", library=IMPORTS)
        called = self.tables(f"{find}.exe")["literal_search.dll"]
        self.assertEqual(called, {f"literal_{it}" for it in ("each", "free", "new_of_words", "status_text")})
        self.assertEqual(self.on_windows(find, *WORDS, text=TEXT), (0, FOUND))
        calls = self.compiled_for_windows("calls", library=IMPORTS)
        self.assertGreater(len(self.tables(f"{calls}.exe")["literal_search.dll"]), 20)
        self.assertEqual(self.on_windows(calls), (0, ""))
        self.assertEqual(self.on_windows(calls, "stack"), (0, ""))

    def tables(self, file):
        """The names in the tables of a program or a DLL, by the DLL that has them; those that it exports by its own."""
        found, names = {}, set()
        for line in run(f"{MINGW[:-3]}objdump", "-p", file)[1].splitlines():
            dll = re.search(r"DLL Name: (\S+)|Name\s.*\s(\S+\.dll)$", line)
            names = found.setdefault(dll[1] or dll[2], set()) if dll else names
            names.update(re.findall(r"^\t(?:[0-9a-f]+\s+[0-9]+  |\[ *[0-9]+\] )(\w+)$", line))
        return found

    def test_what_the_dll_exports_and_needs(self):
        """It exports the names of the shared library, and needs no DLL but one that each Windows has."""
        tables = self.tables(DLL)
        self.assertEqual({VERSION, *(f"{it}@@{VERSION}" for it in tables["literal_search.dll"])}, exports("-D", SHARED))
        self.assertEqual(set(tables), {"literal_search.dll", "msvcrt.dll"})

    def test_choice_of_the_build(self):
        """The constructor that makes it runs before main."""
        here = run(self.level())
        self.assertEqual(self.on_windows(self.level(compiler=MINGW)), here)

    def test_what_is_added_to_a_dll(self):
        """dist/dll.c runs the constructor when a program loads the DLL, and probes the stack."""
        dll, program, headers = (Path(self.room.name, it) for it in ("level.dll", "level-of-dll", "headers"))
        headers.mkdir()
        for header in ("stdbool", "stddef", "stdint", "stdlib", "string"):
            (headers / f"{header}.h").touch()
        words = ["-O2", "-shared", "-nostartfiles", "-nostdinc", f"-I{headers}", f"-I{HERE}", "-Wl,-e,start"]
        words += ["-DLITERAL_EXPORT", "-Wl,--export-all-symbols", f"-Wl,--out-implib={dll}.a", "-xc", "-"]
        words += [DIST / "dll.c", "-xassembler-with-cpp", self.choice_of_level(), "-xnone", FOR_WINDOWS]
        self.assertEqual(run(MINGW, *words, "-o", dll, text=LEVELS), (0, ""))
        self.assertEqual(run(MINGW, "-xc", "-", "-xnone", f"{dll}.a", "-o", f"{program}.exe", text=LEVEL), (0, ""))
        self.assertEqual(self.on_windows(program), run(self.level()))
        calls = self.compiled_for_windows("calls", library=f"{dll}.a")
        self.assertEqual(self.on_windows(calls, "stack"), (0, ""))


class WithoutLibrary(Programs):
    """dist/system.c and dist/malloc.c. dist/build compiles them with the kit's compiler, which not each machine has."""
    FLAGS = ["-O2", "-ffreestanding", "-fno-builtin", "-fno-tree-loop-distribute-patterns", "-fno-stack-protector"]
    FLAGS += ["-fsanitize=undefined", "-fsanitize-undefined-trap-on-error"]
    FLAGS += ["-nostdlib", "-static", "-no-pie", *(str(DIST / it) for it in ("system.c", "malloc.c"))]

    def test_here(self):
        program = self.compiled("system_calls", *self.FLAGS, library="-lgcc")
        self.assertEqual(run(program, "a", "word"), (0, ""))

    @unittest.skipUnless(can_change_root(), "a process cannot change its root here")
    def test_in_an_empty_folder(self):
        program, empty = self.compiled("system_calls", *self.FLAGS, library="-lgcc"), Path(self.room.name, "empty")
        empty.mkdir()
        shutil.copy(program, empty / "program")
        self.assertEqual(run(*CHANGE_ROOT, str(empty), "/program", "a", "word"), (0, ""))

    @unittest.skipUnless(all(map(shutil.which, (CROSS, "qemu-aarch64"))), f"there is no {CROSS}, or no qemu-aarch64")
    def test_on_arm(self):
        program = self.compiled("system_calls", *self.FLAGS, library="-lgcc", compiler=CROSS)
        self.assertEqual(run("qemu-aarch64", program, "a", "word"), (0, ""))


class Build(unittest.TestCase):
    def setUp(self):
        room = tempfile.TemporaryDirectory()
        self.addCleanup(room.cleanup)
        self.room = Path(room.name, "a folder")

    def test_what_is_missing(self):
        binutils = ("ld", "objcopy", "strip", "ar", "nm")
        kinds = ("", "aarch64-linux-gnu-", "x86_64-w64-mingw32-")
        tools = ("rt", *map("".join, itertools.product(kinds, binutils)))
        for name in tools:
            folder = self.room / f"no {name}"
            folder.mkdir(parents=True)
            for other in set(tools) - {name}:
                (folder / other).symlink_to("/bin/true")
            status, said = run(sys.executable, str(LIBRARY.parents[1] / "build"), env={**PLAIN, "PATH": str(folder)})
            self.assertEqual(status, 1)
            self.assertRegex(said, rf"\Abuild: {name} is missing: .*\n\Z")

    def test_the_package_before_the_library(self):
        (self.room / "python").mkdir(parents=True)
        shutil.copy(HERE.parent / "python/setup.py", self.room / "python")
        status, said = run(sys.executable, "setup.py", "build", cwd=self.room / "python")
        why = f"{self.room.parent}/dist/x86_64-linux-gnu/libliteral_search.a is not there: run dist/build first\n"
        self.assertEqual((status, said), (1, why))


if __name__ == "__main__":
    unittest.main()
