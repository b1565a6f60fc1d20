"""Builds the Debian packages from the files of dist/, and looks at what is in them. It needs `debhelper`. With
`lintian` they also have to pass that without an error. Nothing is installed: the packages are unpacked into a folder.
"""
import os
import re
import shlex
import shutil
import subprocess
import tempfile
import unittest
from pathlib import Path

TOP = Path(__file__).resolve().parent.parent
# Where the folder debian/ is: a copy with a mistake, or the one beside this file.
DEBIAN = os.environ.get("TESTED_DEBIAN") or TOP / "packaging/debian"
NEEDED = ("install", "LICENSE-MIT", "UNLICENSE", "share", "dist", "bindings/c")
TEXT, WORDS, FOUND = "Nobody likes maple in their apple.\n", ["apple", "maple"], "1 13 18\n0 28 33\n"

# Where bindings/test runs this, a library that refuses a request for memory stands before the C library.
PLAIN = {name: value for name, value in os.environ.items() if name not in ("LD_PRELOAD", "DESTDIR", "CC")}


def run(*words, text="", **how):
    """The status of a command, and what it wrote on both outputs."""
    how = {"stdout": subprocess.PIPE, "stderr": subprocess.STDOUT, "text": True, "env": PLAIN, **how}
    ran = subprocess.run([str(it) for it in words], input=text, **how)
    return ran.returncode, ran.stdout


@unittest.skipUnless(all(map(shutil.which, ("dpkg-buildpackage", "dh"))), "there is no debhelper")
class Packages(unittest.TestCase):
    @classmethod
    def setUpClass(cls):
        room = tempfile.TemporaryDirectory()
        cls.addClassCleanup(room.cleanup)
        cls.room, cls.root = Path(room.name), Path(room.name, "root")
        for part in NEEDED:
            source, target = TOP / part, cls.room / "source" / part
            target.parent.mkdir(parents=True, exist_ok=True)
            shutil.copytree(source, target) if source.is_dir() else shutil.copy(source, target)
        shutil.copytree(DEBIAN, cls.room / "source/debian")
        status, said = run("dpkg-buildpackage", "-b", "-us", "-uc", cwd=cls.room / "source")
        if status:
            raise AssertionError(said)
        cls.packages = {it.name.partition("_")[0]: it for it in cls.room.glob("*.deb")}
        for package in cls.packages.values():
            run("dpkg-deb", "-x", package, cls.root)

    def field(self, package, name):
        """A field of a package."""
        return run("dpkg-deb", "-f", self.packages[package], name)[1].strip()

    def test_packages(self):
        version = re.search(r'LITERAL_VERSION "(.*)"', (TOP / "bindings/c/literal_search.h").read_text("ascii"))[1]
        self.assertEqual(set(self.packages), {"litscan", "libliteral-search0", "libliteral-search-dev"})
        self.assertEqual({self.field(it, "Version") for it in self.packages}, {version})
        self.assertEqual(self.field("libliteral-search-dev", "Depends"), f"libliteral-search0 (= {version})")
        for package in ("litscan", "libliteral-search0"):
            self.assertRegex(self.field(package, "Depends"), r"\Alibc6 \(>= 2\.\d+\)\Z")

    def test_symbols(self):
        """A program that is linked with the library will depend on this package."""
        self.assertEqual(run("dpkg-deb", "-I", self.packages["libliteral-search0"], "symbols")[1].splitlines()[0],
                         "libliteral_search.so.0 libliteral-search0 #MINVER#")

    def test_programs(self):
        for name in ("litscan", "litfind"):
            installed = self.root / "usr/bin" / name
            given = TOP / f"dist/{os.uname().machine}-linux-gnu" / name
            self.assertEqual(installed.read_bytes(), given.read_bytes())
        self.assertEqual(run(self.root / "usr/bin/litscan", "apple", text=TEXT), (0, TEXT))
        pages = {it.name for it in (self.root / "usr/share").rglob("*litscan*") if it.is_file()}
        self.assertEqual(pages, {"litscan.1.gz", "litscan", "litscan.fish", "_litscan"})

    @unittest.skipUnless(shutil.which("pkg-config"), "there is no pkg-config")
    def test_library(self):
        """A program is compiled and linked with the unpacked files, and runs by the shared library."""
        lib, find = next(self.root.glob("usr/lib/*/pkgconfig")).parent, self.room / "find"
        given = {**PLAIN, "PKG_CONFIG_PATH": f"{lib}/pkgconfig", "PKG_CONFIG_SYSROOT_DIR": str(self.root)}
        flags = shlex.split(run("pkg-config", "--cflags", "--libs", "literal_search", env=given)[1])
        flags += [f"-I{self.root}/usr/include", f"-L{lib}"]
        self.assertEqual(run("cc", TOP / "bindings/c/find.c", *flags, "-o", find), (0, ""))
        self.assertIn("libliteral_search.so.0", run("readelf", "-d", find)[1])
        self.assertEqual(run(find, *WORDS, text=TEXT, env={**PLAIN, "LD_LIBRARY_PATH": str(lib)}), (0, FOUND))

    @unittest.skipUnless(shutil.which("lintian"), "there is no lintian")
    def test_lintian(self):
        status, said = run("lintian", "--allow-root", "--fail-on", "error", *self.room.glob("*.changes"))
        self.assertEqual(status, 0, said)


if __name__ == "__main__":
    unittest.main()
