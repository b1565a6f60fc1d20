"""Builds the extension on the library in dist/. What the package is, setup.cfg says.

A source archive gets all libraries and the header, in a folder `library`, so it is built where the repository is not.
"""
import os
import platform
import re
import shutil
import sys
import sysconfig
import tempfile
from contextlib import suppress
from pathlib import Path

from setuptools import Extension, setup
from setuptools.command.sdist import sdist

try:
    from setuptools.command.bdist_wheel import bdist_wheel
except ImportError:  # (before setuptools 70.1 it was in the package wheel)
    try:
        from wheel.bdist_wheel import bdist_wheel
    except ImportError:
        bdist_wheel = None

TOP, NAME = Path(__file__).resolve().parent.parent.parent, "libliteral_search.a"
IN_ARCHIVE = Path("library").is_dir()
LIBRARIES = {it: f"{'library' if IN_ARCHIVE else '../../dist'}/{it}-linux-gnu/{NAME}" for it in ("x86_64", "aarch64")}
HEADER = "library/literal_search.h" if IN_ARCHIVE else "../c/literal_search.h"
GLIBC = 34  # the library needs glibc 2.34


class Archive(sdist):
    """Makes a source archive."""

    def make_release_tree(self, base_dir, files):
        super().make_release_tree(base_dir, files)
        for processor, library in LIBRARIES.items():
            folder = Path(base_dir, f"library/{processor}-linux-gnu")
            folder.mkdir(parents=True)
            shutil.copy(library, folder)
        shutil.copy(HEADER, Path(base_dir, "library"))


def wheel_for_all(usual):
    """The command that makes a wheel, for every Linux whose glibc has the symbols of the extension."""

    class Wheel(usual):
        def get_tag(self):
            python, abi, _ = super().get_tag()
            built = filter(os.path.isfile, self.get_finalized_command("build_ext").get_outputs())
            needed = re.findall(rb"GLIBC_2\.(\d+)", b"".join(Path(it).read_bytes() for it in built))
            return python, abi, f"manylinux_2_{max(GLIBC, *map(int, needed))}_{PROCESSOR}"

    return Wheel


def supported_processor():
    """The processor that the package is built for. Ends where the library does not run."""
    kind, version = platform.libc_ver()
    numbers = tuple(map(int, re.findall(r"\d+", version)[:2]))
    system, _, processor = sysconfig.get_platform().partition("-")
    if system != "linux" or processor not in LIBRARIES or kind != "glibc" or numbers < (2, GLIBC):
        here = f"{sysconfig.get_platform()} with {f'{kind} {version}'.strip() or 'another C library'}"
        target = f"Linux on {' or '.join(LIBRARIES)} with glibc 2.{GLIBC} or newer"
        sys.exit(f"literal-search: only {target} is supported, and this is {here}")
    return processor


def room():
    """A folder to build in: where bindings/test builds, or one that is gone at the end."""
    if not IN_ARCHIVE and os.access("../out", os.W_OK):
        return "../out", None
    made = tempfile.TemporaryDirectory()
    return made.name, made


PROCESSOR = supported_processor()
LIBRARY = LIBRARIES[PROCESSOR]
if not Path(LIBRARY).is_file():
    sys.exit(f"{TOP}/dist/{PROCESSOR}-linux-gnu/{NAME} is not there: run dist/build first")
if not IN_ARCHIVE:
    for licence in ("LICENSE-MIT", "UNLICENSE"):
        with suppress(PermissionError):  # (then somebody has copied it already)
            shutil.copy(TOP / licence, licence)
BASE, HELD = room()

setup(
    version=re.search(r'LITERAL_VERSION "(.*)"', Path(HEADER).read_text("utf-8"))[1],
    cmdclass={"sdist": Archive, **({"bdist_wheel": wheel_for_all(bdist_wheel)} if bdist_wheel else {})},
    options={"build": {"build_base": f"{BASE}/python"}, "egg_info": {"egg_base": BASE}},
    ext_modules=[
        Extension(
            "literal_search._native",
            ["literal_search/_native.c"],
            include_dirs=[str(Path(HEADER).parent)],
            extra_objects=[LIBRARY],
            depends=[LIBRARY, HEADER, *map(str, Path("literal_search").glob("*.h"))],
            extra_compile_args=["-std=c11", "-fvisibility=hidden"],
        )
    ],
)
