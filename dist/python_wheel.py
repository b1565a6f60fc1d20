"""The wheels in dist/: the Python package with its extension built, for CPython from 3.11 on. Their bytes depend only
on the sources, and on the tools that built the extension. They are not compressed, since versions of zlib differ in
what they write. In a wheel BUILT_FROM has the digest of its sources, the kit that built it, and the headers' versions.
"""
import base64
import configparser
import hashlib
import re
import zipfile
from functools import cache
from pathlib import Path

DIST = Path(__file__).resolve().parent
TOP = DIST.parent
# Where the wheel for a processor is. `pip install dist/*.whl` would refuse one for another processor beside it.
FOLDERS = {"x86_64": DIST, "aarch64": DIST / "aarch64-linux-gnu"}
FOLDER, HEADER, LICENCES = TOP / "bindings/python", TOP / "bindings/c/literal_search.h", ("LICENSE-MIT", "UNLICENSE")
PACKAGE = FOLDER / "literal_search"
OLDEST, GLIBC = (3, 11), 34  # the version of the limited API, and the second number of glibc's version
EXTENSION = "literal_search/_native.abi3.so"


@cache
def version():
    """The package's version."""
    return re.search(r'LITERAL_VERSION "(.*)"', HEADER.read_text("utf-8"))[1]


def about(file):
    """The path in a wheel of a file on the package."""
    return f"literal_search-{version()}.dist-info/{file}"


def tag(processor):
    """For which Pythons the wheel is."""
    return f"cp{OLDEST[0]}{OLDEST[1]}-abi3-manylinux_2_{GLIBC}_{processor}"


def path_of(processor):
    """Where the wheel is."""
    return FOLDERS[processor] / f"literal_search-{version()}-{tag(processor)}.whl"


def library_for(processor):
    """The library that the wheel has."""
    return DIST / f"{processor}-linux-gnu/libliteral_search.a"


def digest(processor):
    """The digest of all that the wheel is built from."""
    of_package = [it for it in sorted(PACKAGE.iterdir()) if it.suffix in (".c", ".h", ".py", ".pyi", ".typed")]
    about = [FOLDER / "setup.cfg", FOLDER / "README.md", *(TOP / it for it in LICENCES)]
    how = [Path(__file__), Path(__file__).with_name("wheels.py")]
    files = [*of_package, *about, HEADER, library_for(processor), *how]
    sums = "".join(f"{hashlib.sha256(it.read_bytes()).hexdigest()}  {it.relative_to(TOP)}\n" for it in files)
    return hashlib.sha256(sums.encode()).hexdigest()


def origin_of(wheel):
    """What a wheel's BUILT_FROM says, by the first word of each line."""
    with zipfile.ZipFile(wheel) as file:
        return dict(it.split(" ", 1) for it in file.read(about("BUILT_FROM")).decode("ascii").splitlines())


def is_current(processor):
    """Whether the wheel in dist/ was built from the sources as they stand."""
    wheel = path_of(processor)
    return wheel.is_file() and origin_of(wheel)["sources"] == digest(processor)


def metadata():
    """What the package says of itself, from setup.cfg."""
    read = configparser.ConfigParser()
    read.read(FOLDER / "setup.cfg", "utf-8")
    given = read["metadata"]
    lines = ["Metadata-Version: 2.1", f"Name: {given['name']}", f"Version: {version()}",
             f"Summary: {given['description']}", f"License: {given['license']}"]
    lines += [f"Classifier: {it}" for it in given["classifiers"].split("\n") if it]
    lines += [f"Requires-Python: >={OLDEST[0]}.{OLDEST[1]}", "Description-Content-Type: text/markdown"]
    lines += [f"License-File: {it}" for it in LICENCES]
    return "\n".join(lines) + "\n\n" + (FOLDER / "README.md").read_text("utf-8")


def files_of(processor, extension, origin):
    """The files of the wheel by their names, without the list of them."""
    files = {f"literal_search/{it.name}": it.read_bytes() for it in sorted(PACKAGE.iterdir())
             if it.suffix in (".py", ".pyi", ".typed")}
    files[EXTENSION] = extension
    files.update({about(it): (TOP / it).read_bytes() for it in LICENCES})
    files[about("METADATA")] = metadata().encode()
    lines = ["Wheel-Version: 1.0", "Generator: dist/build", "Root-Is-Purelib: false", f"Tag: {tag(processor)}"]
    files[about("WHEEL")] = "".join(f"{it}\n" for it in lines).encode()
    files[about("BUILT_FROM")] = "".join(f"{name} {value}\n" for name, value in origin.items()).encode("ascii")
    return files


def write(path, processor, extension, origin):
    """Writes the wheel with the bytes of an extension, and what BUILT_FROM says."""
    files = files_of(processor, extension, origin)
    rows = []
    for name, content in files.items():
        hashed = base64.urlsafe_b64encode(hashlib.sha256(content).digest()).decode().rstrip("=")
        rows.append(f"{name},sha256={hashed},{len(content)}\n")
    record = about("RECORD")
    files[record] = "".join([*rows, f"{record},,\n"]).encode()
    with zipfile.ZipFile(path, "w", zipfile.ZIP_STORED) as file:
        for name, content in files.items():
            entry = zipfile.ZipInfo(name, (1980, 1, 1, 0, 0, 0))
            entry.create_system, entry.external_attr = 3, (0o755 if name == EXTENSION else 0o644) << 16
            file.writestr(entry, content)
