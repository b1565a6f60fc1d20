"""Builds the wheels for Python, by the kit's compiler and linker, so that they do not depend on the machine's. They
need the headers of Python 3.11, of glibc for each processor, and those that each C compiler has of its own (cc).
BUILT_FROM in a wheel names the kit and the headers. Where headers are missing, a comparison says so, and compares only
the digest of the sources.
"""
import re
import shutil
import sysconfig
import tempfile
from pathlib import Path

import python_wheel
from judged import Failed
from tools import DIST, kit, put, run

X86, ARM, LIBRARY = "x86_64-linux-gnu", "aarch64-linux-gnu", "libliteral_search.a"
# Where Python's headers are, of Debian or of the Python that runs this, and where those of C are.
PYTHON = "{}.{}".format(*python_wheel.OLDEST)
HEADERS = [Path(f"/usr/include/python{PYTHON}"), Path(sysconfig.get_paths()["include"])]
HEADERS_OF_C = {ARM: [f"/usr/{ARM}/include"], X86: ["/usr/include", f"/usr/include/{X86}"]}
TARGETS = {ARM: "aarch64-unknown-linux-gnu", X86: "x86_64-unknown-linux-gnu"}


def headers_of_python():
    """The folder of Python's headers, of the version whose limited API the wheels use, or None."""
    found = [it for it in HEADERS if it.name == f"python{PYTHON}" and (it / "Python.h").is_file()]
    return found[0] if found else None


def missing_for_wheel(name):
    """What is missing to build the wheel for the processor of a folder, or nothing."""
    if not headers_of_python():
        return f"the headers of Python {PYTHON} are missing: on Debian 12 apt-get install python3-dev"
    if not shutil.which("cc"):
        return "cc is missing, whose own headers are used: on Debian apt-get install gcc"
    package = {X86: "libc6-dev", ARM: "libc6-dev-arm64-cross"}[name]
    has_headers = Path(HEADERS_OF_C[name][0], "features.h").is_file()
    return "" if has_headers else f"the headers of C for {name} are missing: on Debian apt-get install {package}"


def compiled_extension(room, name):
    """The object of the extension, for each version of Python."""
    # (Debian's headers of Python include another one for each processor. Those for x86-64 and aarch64 are alike.)
    alias = room / name / f"python{PYTHON}"
    alias.mkdir(parents=True)
    (alias / "pyconfig.h").write_text(f'#include "/usr/include/{X86}/python{PYTHON}/pyconfig.h"\n', "ascii")
    own = run(["cc", "-print-file-name=include"]).strip()
    folders = [f"-isystem{it}" for it in (own, *HEADERS_OF_C[name], headers_of_python(), room)]
    limited = "-DPy_LIMITED_API=0x{:02X}{:02X}0000".format(*python_wheel.OLDEST)
    words = ["-std=c11", "-O2", "-DNDEBUG", "-fPIC", "-fno-plt", "-fvisibility=hidden", limited, "-nostdinc", *folders]
    run([kit() / "toolchain/bin/clang", f"--target={TARGETS[name]}", *words, f"-I{python_wheel.HEADER.parent}",
         "-c", "_native.c", "-o", room / "native.o"], cwd=python_wheel.PACKAGE)
    return room / "native.o"


def make_extension(room, name):
    """Builds the extension by the kit's compiler and linker, and returns its bytes."""
    tools, made = kit() / "toolchain", room / "extension.so"
    c = {X86: [tools / "lib/libc.so.6", tools / "lib/libgcc.a"], ARM: [f"/usr/{ARM}/lib/libc.so.6"]}[name]
    linked = [compiled_extension(room, name), DIST / name / LIBRARY, *c]
    run([tools / "bin/ld.lld", "-shared", "--gc-sections", "--exclude-libs=ALL", "--strip-all", "--build-id=none",
         "-znow", "-o", made, *linked])
    needed = max(map(int, re.findall(rb"GLIBC_2\.(\d+)", made.read_bytes())))
    if needed > python_wheel.GLIBC:
        raise Failed(f"the extension needs glibc 2.{needed}, and the wheel is for 2.{python_wheel.GLIBC}")
    return made.read_bytes()


def make_wheel(made, name):
    """Makes the wheel for the processor of a folder, with the library that this holds, and returns its path."""
    processor = name.partition("-")[0]
    glibc = re.search(r"__GLIBC_MINOR__\s+(\d+)", Path(HEADERS_OF_C[name][0], "features.h").read_text("utf-8"))[1]
    origin = {"sources": python_wheel.digest(processor), "kit": run(["rt", "version"]).strip(),
              "headers": f"Python {PYTHON}, glibc 2.{glibc}"}
    wheel = made / python_wheel.path_of(processor).name
    with tempfile.TemporaryDirectory() as room:
        python_wheel.write(wheel, processor, make_extension(Path(room), name), origin)
    return wheel


def build_wheels(room):
    """Makes the wheels, and puts them in the place of the ones before."""
    for name, made in [(it, make_wheel(room, it)) for it in TARGETS]:
        there = python_wheel.path_of(name.partition("-")[0])
        for before in there.parent.glob("*.whl"):
            before.unlink()
        put(made, there)


def compared_wheels(room):
    """Yields each wheel, and how it differs from what is made here, or nothing."""
    for name in TARGETS:
        processor = name.partition("-")[0]
        wheel = python_wheel.path_of(processor)
        path, others = wheel.relative_to(DIST), [it.name for it in wheel.parent.glob("*.whl") if it != wheel]
        yield f"{path}: there is no other", f"remove {', '.join(others)}" if others else ""
        is_current = python_wheel.is_current(processor)
        yield f"{path}: the sources", "" if is_current else "they changed: run dist/build --wheel"
        if missing_for_wheel(name):
            print(f"note: {missing_for_wheel(name)}. So {path} is not compared")
        elif wheel.is_file():
            yield from compared_wheel(path, wheel, make_wheel(room, name))


def compared_wheel(path, wheel, made):
    """Yields a wheel, and whether it differs from one that is made here by the same tools."""
    there, here = python_wheel.origin_of(wheel), python_wheel.origin_of(made)
    other = [f"{it} {there[it]}, and here {here[it]}" for it in ("kit", "headers") if there[it] != here[it]]
    same = made.read_bytes() == wheel.read_bytes()
    if not same and other:
        print(f"note: {path} is built by {'; '.join(other)}. So it is not compared")
    else:
        yield f"{path}", "" if same else "it is not what the sources give: run dist/build --wheel"


def need_headers():
    """Ends this program if headers are missing that the wheels need."""
    for name in TARGETS:
        if missing_for_wheel(name):
            raise Failed(missing_for_wheel(name))
