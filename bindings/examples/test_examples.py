"""Builds the examples in other languages, and compares what they print with what bindings/c/find.c prints. They use the
shared library, where bindings/test installs it. An example is left out if its language is not installed."""
import os
import shutil
import subprocess
import tempfile
import unittest
from pathlib import Path

BINDINGS = Path(__file__).resolve().parent.parent
# Where the examples are: a copy with a mistake, or this folder.
EXAMPLES = os.environ.get("TESTED_EXAMPLES") or BINDINGS / "examples"
LIB = BINDINGS / "out/lib"
WARNINGS = ["-std=c11", "-Wall", "-Wextra", "-Wpedantic", "-Wno-unused-parameter", "-Werror"]
WORDS, TEXT = ["apple", "maple", "Snapple", "é"], "Nobody likes maple in their apple flavored Snappleé."
FOUND = "1 13 18\n0 28 33\n2 43 50\n3 50 52\n"
REFUSED = "find: a pattern is empty, or there are too many patterns\n"

# Where bindings/test runs this, a library that refuses a request for memory stands before the C library.
PLAIN = {name: value for name, value in os.environ.items() if name != "LD_PRELOAD"}


def there_are(*programs):
    """A decorator that leaves a test out unless some programs are there."""
    missing = [it for it in programs if not shutil.which(it)]
    return unittest.skipIf(missing, f"there is no {' and no '.join(missing)}")


class Examples(unittest.TestCase):
    def setUp(self):
        room = tempfile.TemporaryDirectory()
        self.addCleanup(room.cleanup)
        self.room = Path(room.name, "examples")
        shutil.copytree(EXAMPLES, self.room, ignore=shutil.ignore_patterns("__pycache__"))
        self.given = {**PLAIN, "PKG_CONFIG_PATH": f"{LIB}/pkgconfig", "LD_LIBRARY_PATH": f"{LIB}", "LC_ALL": "C.UTF-8",
                      "GOCACHE": f"{room.name}/cache", "GO111MODULE": "off"}

    def run_here(self, *words, text=b""):
        """The status of a command, and what it wrote on both outputs."""
        how = {"stdout": subprocess.PIPE, "stderr": subprocess.STDOUT, "cwd": self.room, "env": self.given}
        ran = subprocess.run([str(it) for it in words], input=text, **how)
        return ran.returncode, ran.stdout.decode()

    def made(self, *words):
        """Makes a part of an example."""
        status, said = self.run_here(*words)
        self.assertEqual(status, 0, said)

    def made_of_c(self, name, made, *headers):
        """Makes the part of an example that is written in C."""
        words = ["-fPIC", "-shared", f"-I{BINDINGS}/c", *headers, name, f"-L{LIB}", "-lliteral_search", "-o", made]
        self.made("cc", *WARNINGS, *words)

    def assert_finds(self, *example):
        """It prints the matches, also in no text, of no words, and with many matches; and why it refuses a word."""
        find = self.room / "find-in-c"
        self.made("cc", f"-I{BINDINGS}/c", BINDINGS / "c/find.c", LIB / "libliteral_search.a", "-o", find)
        self.assertEqual(self.run_here(*example, *WORDS, text=TEXT.encode()), (0, FOUND))
        bytes_of_all_kinds = b"\0\xff" + 1000 * TEXT.encode() + b"\xc3\0\xc3\xa9"
        for words, text in ((WORDS, bytes_of_all_kinds), (WORDS, b""), ([], TEXT.encode()), (["zebra"], TEXT.encode())):
            wanted = self.run_here(find, *words, text=text)
            self.assertEqual(self.run_here(*example, *words, text=text), wanted)
        self.assertEqual(self.run_here(*example, "a", ""), (2, REFUSED))

    @there_are("go", "pkg-config")
    def test_go(self):
        self.made("go", "build", "-o", "find", "find.go")
        self.assert_finds("./find")

    @there_are("javac", "java")
    def test_java(self):
        headers = Path(shutil.which("javac")).resolve().parents[1] / "include"
        self.made_of_c("find_java.c", "libfind.so", f"-I{headers}", f"-I{headers}/linux")
        self.made("javac", "Find.java")
        self.assert_finds("java", "-Xcheck:jni", "-Djava.library.path=.", "Find")

    @there_are("luajit")
    def test_lua(self):
        self.assert_finds("luajit", "find.lua")

    @there_are("node")
    def test_node(self):
        headers = Path(shutil.which("node")).resolve().parents[1] / "include/node"
        self.made_of_c("find_node.c", "find.node", f"-I{headers}")
        self.assert_finds("node", "find.js")

    @there_are("ruby")
    def test_ruby(self):
        self.assert_finds("ruby", "-w", "find.rb")


if __name__ == "__main__":
    unittest.main()
