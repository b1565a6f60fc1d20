"""Installs and removes what ./install does, from a folder like dist/x86_64-linux-gnu with its library and stand-ins for
the programs. Compares what is written of options and of the version in several places."""
import os
import re
import runpy
import shlex
import shutil
import subprocess
import tempfile
import unittest
from pathlib import Path

import library

TOP = library.BINDINGS.parent
ARCHIVE, INSTALL = library.DIST / "libliteral_search.a", TOP / "install"
PAGE, BASH, ZSH, FISH = (TOP / "share" / it for it in (
    "man/man1/litscan.1", "bash-completion/completions/litscan", "zsh/site-functions/_litscan",
    "fish/vendor_completions.d/litscan.fish"))
SCAN, FIND = (TOP / f"crates/{it}/src/main.rt" for it in ("litscan", "litfind"))
TEXT, WORDS = "Nobody likes maple in their apple flavored Snapple.\n", ["apple", "maple", "Snapple"]
FOUND = "1 13 18\n0 28 33\n2 43 50\n"
FILES = ["bin/litscan", "bin/litfind", "include/literal_search.h", "lib/libliteral_search.a",
         "lib/libliteral_search.so.0", "lib/libliteral_search.so", "lib/pkgconfig/literal_search.pc",
         "lib/cmake/literal_search/literal_search-config.cmake",
         "lib/cmake/literal_search/literal_search-config-version.cmake",
         *(str(it.relative_to(TOP)) for it in (PAGE, BASH, ZSH, FISH))]
TOOLS = ("sh", "dirname", "readlink", "sed", "mkdir", "cp", "mv", "rm", "ln", "chmod", "cat", "mktemp")

CMAKE = """cmake_minimum_required(VERSION 3.13)
project(example C)
find_package(literal_search ${VERSION} REQUIRED)
find_package(literal_search ${VERSION} REQUIRED)
add_executable(find find.c)
target_link_libraries(find literal_search::literal_search)
add_executable(find_static find.c)
target_link_libraries(find_static literal_search::static)
"""
MUSL, CROSS = ("musl-gcc", "musl-ldd"), "aarch64-linux-gnu-gcc"
AS_MUSL = "echo 'musl libc (x86_64)' >&2; exit 1"

# Where bindings/test runs this, a library that refuses a request for memory stands before the C library.
PLAIN = {name: value for name, value in os.environ.items() if name not in ("LD_PRELOAD", "DESTDIR", "CC")}


def run(*words, text="", **how):
    """The status of a command, and what it wrote on both outputs."""
    how = {"stdout": subprocess.PIPE, "stderr": subprocess.STDOUT, "text": True, "env": PLAIN, **how}
    ran = subprocess.run([str(it) for it in words], input=text, **how)
    return ran.returncode, ran.stdout


def read(path):
    return path.read_text("utf-8")


class Install(unittest.TestCase):
    def setUp(self):
        room = tempfile.TemporaryDirectory()
        self.addCleanup(room.cleanup)
        self.room = Path(room.name)
        self.given, self.prefix = self.room / "what is given", self.room / "a folder"
        self.given.mkdir()
        for name in ("litscan", "litfind"):
            (self.given / name).write_text(f"#!/bin/sh\necho {name}\n", "utf-8")
        shutil.copy(ARCHIVE, self.given)

    def install(self, *words, **how):
        status, said = run(INSTALL, "--from", self.given, *words, **how)
        self.assertEqual(status, 0, said)
        return said

    def installed(self, root=None):
        """The files below the prefix, by their inodes."""
        root = root or self.prefix
        return {str(it.relative_to(root)): it.lstat().st_ino for it in root.rglob("*") if not it.is_dir()}

    def path_of(self, *tools, **stand_ins):
        """A folder for PATH with some of the machine's programs, and with programs that print a line."""
        folder = Path(tempfile.mkdtemp(dir=self.room))
        for tool in tools:
            (folder / tool).symlink_to(shutil.which(tool))
        for name, line in stand_ins.items():
            (folder / name).write_text(f"#!/bin/sh\n{line}\n", "utf-8")
            (folder / name).chmod(0o755)
        return {**PLAIN, "PATH": str(folder)}

    def test_installs_and_removes(self):
        """By a symbolic link, from another folder, and with a file of somebody else's beside."""
        (self.room / "link").symlink_to(INSTALL)
        (self.prefix / "bin").mkdir(parents=True)
        (self.prefix / "bin/other").touch()
        self.assertEqual(run(self.room / "link", "--from", self.given, "a folder", cwd=self.room)[0], 0)
        self.assertEqual(set(self.installed()), {*FILES, "bin/other"})
        self.assertEqual(run(self.prefix / "bin/litscan"), (0, "litscan\n"))
        self.assertIn(f"prefix={self.prefix}\n", read(self.prefix / "lib/pkgconfig/literal_search.pc"))
        self.assertEqual(os.readlink(self.prefix / "lib/libliteral_search.so"), "libliteral_search.so.0")
        self.assertEqual(run(self.room / "link", "--uninstall", "a folder", cwd=self.room)[0], 0)
        self.assertEqual(set(self.installed()), {"bin/other"})

    def test_replaces_by_renaming(self):
        self.install(self.prefix)
        kept = self.room / "kept"
        kept.mkdir()
        before = self.installed()
        for number, name in enumerate(before):  # (so that no inode is given again)
            os.link(self.prefix / name, kept / str(number), follow_symlinks=False)
        self.install(self.prefix)
        after = self.installed()
        self.assertEqual([name for name in before if before[name] == after.get(name)], [])
        self.assertEqual(set(after), set(FILES))

    def test_goes_home_or_below_destdir(self):
        home = {**PLAIN, "HOME": str(self.room / "home")}
        self.assertIn("add " + str(self.room / "home/.local/bin"), self.install(env=home))
        self.assertEqual(set(self.installed(self.room / "home/.local")), set(FILES))
        self.install(self.prefix, env={**PLAIN, "DESTDIR": str(self.room / "package")})
        self.assertFalse(self.prefix.exists())
        packed = Path(f"{self.room}/package{self.prefix}")
        self.assertEqual(set(self.installed(packed)), set(FILES))
        self.assertIn(f"prefix={self.prefix}\n", read(packed / "lib/pkgconfig/literal_search.pc"))

    def assert_linked(self, lib="lib", compiler="cc", ldd="ldd"):
        """A program is linked with either library, with the words of pkg-config, and runs in another folder."""
        given = {**PLAIN, "PKG_CONFIG_PATH": f"{self.prefix}/{lib}/pkgconfig"}
        flags = shlex.split(run("pkg-config", "--cflags", "--libs", "literal_search", env=given)[1])
        version = run("pkg-config", "--modversion", "literal_search", env=given)[1]
        self.assertIn(f'LITERAL_VERSION "{version.strip()}"', library.HEADER)
        find = self.room / "find"
        for static in (False, True):
            if static:
                (self.prefix / lib / "libliteral_search.so").unlink()
            linked = [compiler, self.example(), *flags, f"-Wl,-rpath,{self.prefix}/{lib}", "-o", find]
            self.assertEqual(run(*linked), (0, ""))
            self.assertEqual(run(find, *WORDS, text=TEXT, cwd="/"), (0, FOUND))
            self.assertEqual("libliteral_search.so.0" not in run(ldd, find)[1], static)

    def example(self):
        """The example, in a folder without the header."""
        return shutil.copy(TOP / "bindings/c/find.c", self.room / "find.c")

    @unittest.skipUnless(shutil.which("pkg-config"), "there is no pkg-config")
    def test_pkg_config(self):
        self.install(self.prefix)
        self.assert_linked()

    @unittest.skipUnless(shutil.which("pkg-config"), "there is no pkg-config")
    def test_libdir(self):
        """The libraries and their files go to another folder, given relative to the prefix or as an absolute path."""
        for given, lib in (("lib64", "lib64"), (f"{self.prefix}/lib/x86_64-linux-gnu/", "lib/x86_64-linux-gnu")):
            self.install("--libdir", given, self.prefix)
            files = {re.sub("^lib/", f"{lib}/", it) for it in FILES}
            self.assertEqual(set(self.installed()), files)
            self.assert_linked(lib)
            self.assertEqual(run(INSTALL, "--uninstall", "--libdir", given, self.prefix)[0], 0)
            self.assertEqual(self.installed(), {})

    @unittest.skipUnless(shutil.which("cmake"), "there is no cmake")
    def test_cmake(self):
        """Programs linked with each library, where it was installed, and after all files were moved."""
        self.example()
        multiarch = run("cc", "-print-multiarch")[1].strip()
        for lib in filter(None, ("lib", multiarch and f"lib/{multiarch}")):
            self.install("--libdir", lib, self.prefix)
            self.assert_built(self.prefix, True)
            (self.prefix / lib / "libliteral_search.so.0").unlink()
            moved = self.prefix.rename(self.room / f"moved {len(lib)}")
            self.assert_built(moved, False)

    def assert_built(self, prefix, shared):
        """CMake finds the versions that will do, and builds programs, one with the shared library if that is there."""
        (self.room / "CMakeLists.txt").write_text(CMAKE, "utf-8")
        built = Path(tempfile.mkdtemp(dir=self.room))
        words = ("cmake", "-S", self.room, "-B", built, f"-DCMAKE_PREFIX_PATH={prefix}")
        for other in ("0.1.1", "0.2", "1.0"):
            status, said = run(*words, f"-DVERSION={other}")
            self.assertEqual(status, 1)
            self.assertRegex(said, rf'compatible with\s+requested\s+version\s+"{other}"')
        for wanted in ("", "0.1", "0.1.0"):
            status, said = run(*words, f"-DVERSION={wanted}")
            self.assertEqual(status, 0, said)
        status, said = run("cmake", "--build", built)
        self.assertEqual(status, 0, said)
        for program, is_shared in (("find", shared), ("find_static", False)):
            self.assertEqual(run(built / program, *WORDS, text=TEXT, cwd="/"), (0, FOUND))
            self.assertEqual(f"{prefix}" in run("ldd", built / program)[1], is_shared)

    def test_without_a_compiler(self):
        """What stays is no shared library of another version."""
        self.install(self.prefix)
        without = self.path_of(*TOOLS, "getconf", "uname")
        self.assertIn("without the shared library, since there is no C compiler (cc)\n",
                      self.install(self.prefix, env=without))
        self.assertEqual(set(self.installed()), {it for it in FILES if ".so" not in it})
        self.assertEqual(read(self.prefix / "lib/pkgconfig/literal_search.pc").count("literal_search"), 2)

    def test_other_machines(self):
        here = {"uname": '[ "$1" = -m ] && echo x86_64 || echo Linux', "getconf": "echo glibc 2.34"}
        others = {
            "Linux on riscv64 with glibc 2.34": {"uname": '[ "$1" = -m ] && echo riscv64 || echo Linux'},
            "FreeBSD on x86_64 with glibc 2.34": {"uname": '[ "$1" = -m ] && echo x86_64 || echo FreeBSD'},
            "Linux on x86_64 with glibc 2.33": {"getconf": "echo glibc 2.33"},
            "Linux on x86_64 with glibc 2.4": {"getconf": "echo glibc 2.4"},
            "Linux on x86_64 with another C library": {"getconf": "exit 1", "ldd": "echo other libc"},
            "Linux on aarch64 with musl": {"getconf": "exit 1", "ldd": AS_MUSL,
                                           "uname": '[ "$1" = -m ] && echo aarch64 || echo Linux'},
        }
        for machine, other in others.items():
            given = self.path_of(*TOOLS, **{**here, **other})
            status, said = run(INSTALL, "--from", self.given, self.prefix, env=given)
            target = "Linux on x86_64 or aarch64 with glibc 2.34 or newer, or on x86_64 with musl,"
            self.assertEqual((status, said), (1, f"install: only {target} is supported, and this is {machine}\n"))
            self.assertFalse(self.prefix.exists())
        for glibc in ("2.34", "2.40", "3.0"):
            self.install(self.prefix, env=self.path_of(*TOOLS, **{**here, "getconf": f"echo glibc {glibc}"}))

    def test_on_arm(self):
        """The library and the static programs, from their folders in dist/."""
        machine = {"uname": '[ "$1" = -m ] && echo aarch64 || echo Linux', "getconf": "echo glibc 2.34"}
        self.assertEqual(run(INSTALL, self.prefix, env=self.path_of(*TOOLS, **machine))[0], 0)
        self.assert_installed_for("aarch64")

    def assert_installed_for(self, processor):
        """All files but the shared library are there, with the library and the static programs for a processor."""
        self.assertEqual(set(self.installed()), {it for it in FILES if ".so" not in it})
        for file, given in (("lib/libliteral_search.a", "-gnu"), ("bin/litscan", ""), ("bin/litfind", "")):
            folder = TOP / f"dist/{processor}-linux{given}"
            self.assertEqual((self.prefix / file).read_bytes(), (folder / Path(file).name).read_bytes(), file)

    @unittest.skipUnless(all(map(shutil.which, (CROSS, "qemu-aarch64"))), f"there is no {CROSS}, or no qemu-aarch64")
    def test_for_arm(self):
        """All files, with a shared library by a compiler for aarch64, and programs that run."""
        machine = self.path_of(uname='[ "$1" = -m ] && echo aarch64 || echo Linux', getconf="echo glibc 2.34")
        given = {**machine, "PATH": f"{machine['PATH']}:{PLAIN['PATH']}", "CC": CROSS}
        self.assertEqual(run(INSTALL, self.prefix, env=given)[0], 0)
        self.assertEqual(set(self.installed()), set(FILES))
        self.assertEqual(run("qemu-aarch64", self.prefix / "bin/litscan", "maple", text=TEXT), (0, TEXT))
        find, lib = self.room / "find", self.prefix / "lib"
        words = ["-DLITERAL_IMPORT", f"-I{self.prefix}/include", f"-L{lib}", f"-Wl,-rpath,{lib}"]
        self.assertEqual(run(CROSS, *words, self.example(), "-lliteral_search", "-o", find), (0, ""))
        self.assertEqual(run("qemu-aarch64", "-L", "/usr/aarch64-linux-gnu", find, *WORDS, text=TEXT), (0, FOUND))

    def test_on_musl(self):
        """The library and the static programs, since the other programs need glibc."""
        machine = {"uname": '[ "$1" = -m ] && echo x86_64 || echo Linux', "getconf": "exit 1", "ldd": AS_MUSL}
        self.assertEqual(run(INSTALL, self.prefix, env=self.path_of(*TOOLS, **machine))[0], 0)
        self.assert_installed_for("x86_64")

    @unittest.skipUnless(all(map(shutil.which, (*MUSL, "pkg-config"))), f"there is no {MUSL[0]}, or no pkg-config")
    def test_for_musl(self):
        """Programs and the shared library, linked by a compiler for musl. Its loader says that it is musl's."""
        compiler, ldd = map(shutil.which, MUSL)
        machine = self.path_of(getconf="exit 1", ldd=f'exec {ldd} "$@"')
        given = {**machine, "PATH": f"{machine['PATH']}:{PLAIN['PATH']}", "CC": compiler}
        self.assertEqual(run(INSTALL, self.prefix, env=given)[0], 0)
        self.assertEqual(set(self.installed()), set(FILES))
        self.assertIn("[libc.so]", run("readelf", "-d", self.prefix / "lib/libliteral_search.so.0")[1])
        self.assert_linked(compiler=compiler, ldd=ldd)

    def test_what_is_wrong(self):
        (self.given / "litfind").unlink()
        status, said = run(INSTALL, "--from", self.given, self.prefix)
        self.assertEqual((status, said), (1, f"install: {self.given}/litfind is not there\n"))
        self.assertFalse(self.prefix.exists())
        for folder in ("", "/", "/usr/lib", "../lib", "lib/../..", f"{self.prefix}/"):
            status, said = run(INSTALL, "--from", self.given, "--libdir", folder, self.prefix)
            why = f"--libdir needs a folder below {self.prefix}, such as lib64"
            self.assertEqual((status, said), (2, f"install: {why}\n"), folder)
        self.assertFalse(self.prefix.exists())
        for words in (["--from"], ["--libdir"], ["--prefix=usr"], [self.prefix, self.prefix]):
            status, said = run(INSTALL, *words, env=self.path_of(*TOOLS))
            self.assertEqual(status, 2)
            self.assertRegex(said, r"\Ainstall: usage: .*\n\Z")


class Options(unittest.TestCase):
    """Of litscan: what --help prints, the documents and the completions name the same ones."""

    def setUp(self):
        helped = re.search(r'const HELP: &str = "(.*?)";', read(SCAN), re.S)[1]
        rows = re.findall(r"^  (-.*?)(?:  |$)", helped, re.M)
        self.options = {it for row in rows for it in re.findall(r"--?[\w-]+", row)}
        self.assertGreater(len(self.options), 40)

    def test_documents(self):
        table = "".join(re.findall(r"^\| (`-.*?) \|", read(TOP / "docs/LITSCAN.md"), re.M))
        self.assertEqual({it for it in re.findall(r"`(--?[\w-]+)", table)} - {"--"}, self.options)
        section = read(PAGE).replace("\\-", "-").replace("\\fB", "").split(".SH OPTIONS\n")[1].split(".SH ")[0]
        named = " ".join(re.findall(r"^\.TP\n(.*)$", section, re.M))
        self.assertEqual(set(re.findall(r"(?<![\w-])--?\w[\w-]*", named)), self.options)

    def test_completions(self):
        self.assertEqual(set(re.search(r'options="(.*?)"', read(BASH), re.S)[1].split()), self.options)
        specs = re.sub(r"\[.*?\]", "", read(ZSH)).replace("--{color,colour}", "--color --colour")
        self.assertEqual(set(re.findall(r"(?<![\w-])--?[a-zA-Z][a-z-]*(?<!-)", specs.split("-S :")[1])), self.options)
        fish = re.findall(r" -(s|l) (\S+)", read(FISH))
        self.assertEqual({("-" if kind == "s" else "--") + name for kind, name in fish}, self.options)

    @unittest.skipUnless(shutil.which("bash"), "there is no bash")
    def test_bash_completes(self):
        script = """compopt() { echo "$@"; }; . "$0"; COMP_WORDS=(litscan "$@") COMP_CWORD=$#; _litscan
                    printf '%s\\n' "${COMPREPLY[@]}" """
        for words, proposed in {
            ("--co",): "--context --count --color --colour", ("--color", "="): "always never auto", ("--colour", "=", "a"):
            "always auto", ("-m", ""): "+o default", ("--file", ""): "", ("-e", "-"): "+o default", ("a",): "",
        }.items():
            self.assertEqual(run("bash", "-c", script, BASH, *words)[1].split(), proposed.split(), words)


class Version(unittest.TestCase):
    def test_same_everywhere(self):
        self.assertEqual(library.load().literal_version(), library.NUMBERS["VERSION_NUMBER"])
        status, said = run(TOP / "dist/version")
        self.assertEqual(status, 0, said)

    def test_written_everywhere(self):
        """In copies of the files another version is written, and each place that has the old one is noticed."""
        folder = tempfile.TemporaryDirectory()
        self.addCleanup(folder.cleanup)
        room = Path(folder.name)
        script = runpy.run_path(str(TOP / "dist/version"))
        for path in {it for it, _ in script["PLACES"] + script["HEADINGS"]} | {"dist/version", "checks/judged.py"}:
            (room / path).parent.mkdir(parents=True, exist_ok=True)
            shutil.copy(TOP / path, room / path)
        status, said = run(room / "dist/version", "12.3.45")
        self.assertEqual((status, said.splitlines()[-1]), (1, f"{len(script['PLACES'])} passed, 2 failed"))
        self.assertIn("#define LITERAL_VERSION_NUMBER 12003045\n", read(room / script["HEADER"]))
        for path in {it for it, _ in script["PLACES"]} - {script["HEADER"]}:
            new = read(room / path)
            shutil.copy(TOP / path, room / path)
            self.assertIn(f"FAILED {path}, ", run(room / "dist/version")[1])
            (room / path).write_text(new, "utf-8")


if __name__ == "__main__":
    unittest.main()
