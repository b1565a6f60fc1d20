"""The package as setup.py builds it, also from dist/ and on other machines; and as an older processor loads it."""
import importlib.util
import os
import re
import shutil
import subprocess
import sys
import sysconfig
import tempfile
import unittest
from pathlib import Path

from literal_search import __version__, _native

from shared import tearDownModule

TOP = Path(__file__).resolve().parents[3]
PACKAGE, BUILT = TOP / "bindings/python", Path(_native.__file__)
# Where the sources are: beside the extension, unless that is of a wheel.
SOURCES = BUILT.parent if (BUILT.parent / "_native.c").is_file() else PACKAGE / "literal_search"
HAS_SETUPTOOLS = importlib.util.find_spec("setuptools") is not None
HAS_WHEEL = HAS_SETUPTOOLS and any(map(importlib.util.find_spec, ("wheel", "setuptools.command.bdist_wheel")))
HAS_HEADERS = Path(sysconfig.get_paths()["include"], "Python.h").is_file()

# Runs setup.py of the folder after some statements.
SETUP = "import platform, runpy, sys, sysconfig; {}; sys.argv = ['setup.py', *sys.argv[1:]]; runpy.run_path('setup.py')"

# An object that needs the highest of 32 levels of processors, as its GNU property says: x86-64-v2 is the second.
MARK = """.section .note.gnu.property, "a"
.balign 8
.long 4, 16, 5
.asciz "GNU"
.long 0xc0008002, 4, 0x80000000, 0
.section .note.GNU-stack, "", @progbits
"""

# Where bindings/test runs this, a library that refuses a request for memory stands before the C library.
PLAIN = {name: value for name, value in os.environ.items() if name not in ("LD_PRELOAD", "PYTHONPATH")}


def run(*words, cwd=PACKAGE, **given):
    """The status of a command, and what it wrote on both outputs."""
    how = {"stdout": subprocess.PIPE, "stderr": subprocess.STDOUT, "text": True, "stdin": subprocess.DEVNULL}
    ran = subprocess.run([str(it) for it in words], cwd=cwd, env={**PLAIN, **given}, **how)
    return ran.returncode, ran.stdout


class Setup(unittest.TestCase):
    def setUp(self):
        room = tempfile.TemporaryDirectory()
        self.addCleanup(room.cleanup)
        self.room = Path(room.name)

    @unittest.skipUnless(HAS_SETUPTOOLS, "there is no setuptools")
    def test_other_machines(self):
        others = {
            "linux-riscv64 with glibc 2.36": "sysconfig.get_platform = lambda: 'linux-riscv64'",
            "linux-i686 with glibc 2.36": "sysconfig.get_platform = lambda: 'linux-i686'",
            "linux-x86_64 with glibc 2.33": "platform.libc_ver = lambda: ('glibc', '2.33')",
            "linux-x86_64 with another C library": "platform.libc_ver = lambda: ('', '')",
        }
        for machine, change in others.items():
            before = "platform.libc_ver, sysconfig.get_platform = lambda: ('glibc', '2.36'), lambda: 'linux-x86_64'"
            status, said = run(sys.executable, "-c", SETUP.format(f"{before}; {change}"), "--version")
            why = f"only Linux on x86_64 or aarch64 with glibc 2.34 or newer is supported, and this is {machine}"
            self.assertEqual((status, said), (1, f"literal-search: {why}\n"))

    @unittest.skipUnless(HAS_WHEEL, "there is no wheel")
    def test_wheel_from_dist(self):
        """The wheel runs on every Linux whose C library has what the extension calls."""
        dist = self.room / "dist/x86_64-linux-gnu"
        dist.mkdir(parents=True)
        shutil.copy(TOP / "dist/x86_64-linux-gnu/libliteral_search.a", dist)
        for name in ("python", "c"):
            source = shutil.ignore_patterns("*.so", "__pycache__")
            shutil.copytree(TOP / "bindings" / name, self.room / "bindings" / name, ignore=source)
        for licence in ("LICENSE-MIT", "UNLICENSE"):
            shutil.copy(TOP / licence, self.room)
        status, said = run(sys.executable, "setup.py", "-q", "bdist_wheel", "-d", self.room,
                           cwd=self.room / "bindings/python")
        self.assertEqual(status, 0, said)
        wheel, = self.room.glob("*.whl")
        needed = max(34, *map(int, re.findall(rb"GLIBC_2\.(\d+)", BUILT.read_bytes())))
        interpreter = f"cp{sys.version_info[0]}{sys.version_info[1]}"
        tag = f"{interpreter}-{interpreter}-manylinux_2_{needed}_x86_64"
        self.assertEqual(wheel.name, f"literal_search-{__version__}-{tag}.whl")
        uses = "import literal_search as it; print(it.Search(['b']).find('ab').start, it.__file__)"
        shutil.unpack_archive(wheel, self.room / "unpacked", "zip")
        said = run(sys.executable, "-B", "-c", uses, cwd="/", PYTHONPATH=str(self.room / "unpacked"))
        self.assertEqual(said, (0, f"1 {self.room}/unpacked/literal_search/__init__.py\n"))


class Tests(unittest.TestCase):
    def test_each_file_looks_at_what_python_shares(self):
        for file in Path(__file__).parent.glob("test_*.py"):
            self.assertIn("\nfrom shared import tearDownModule\n", file.read_text("utf-8"), file.name)


@unittest.skipUnless(HAS_HEADERS, "Python's headers are not there")
class OlderProcessor(unittest.TestCase):
    """The package on a processor that is too old, where the loader refuses the extension, and where it does not look."""

    def assert_refused(self, *words):
        """Compiles an extension in the place of the package's, and imports that."""
        with tempfile.TemporaryDirectory() as room:
            copy = Path(room, "literal_search")
            shutil.copytree(SOURCES, copy, ignore=shutil.ignore_patterns("*.so", "__pycache__"))
            compiler = ["cc", "-w", "-fPIC", "-shared", f"-I{sysconfig.get_paths()['include']}", f"-I{TOP}/bindings/c"]
            self.assertEqual(run(*compiler, *words, "-o", copy / BUILT.name, cwd=copy), (0, ""))
            uses = "try: import literal_search\nexcept ImportError as why: print(why)"
            ran = run(sys.executable, "-B", "-c", uses, cwd="/", PYTHONPATH=room)
            why = "literal_search needs a processor of the level x86-64-v2 (SSE4.2 and POPCNT)"
            self.assertEqual(ran, (0, f"{why}\n"))

    def test_refused_by_the_loader(self):
        """Because of a mark that names a level which no processor has."""
        with tempfile.NamedTemporaryFile("w", suffix=".s") as mark:
            mark.write(MARK)
            mark.flush()
            self.assert_refused(mark.name)

    def test_refused_by_the_extension(self):
        self.assert_refused("-D__builtin_cpu_supports(of)=0", "_native.c", TOP / "dist/x86_64-linux-gnu/libliteral_search.a")


if __name__ == "__main__":
    unittest.main()
