"""The library for C, called by the tests through ctypes: its structs, functions and numbers, as the header has them."""
import ctypes
import os
import re
from pathlib import Path

BINDINGS = Path(__file__).resolve().parent.parent
DIST = BINDINGS.parent / "dist/x86_64-linux-gnu"
# (up to the functions that the header itself defines)
DECLARED = (BINDINGS / "c/literal_search.h").read_text("utf-8").partition("/* What follows is defined here")[0]
HEADER = re.sub(r"/\*.*?\*/", "", DECLARED, flags=re.S)
TYPES = {
    "uint8_t": ctypes.c_uint8,
    "uint32_t": ctypes.c_uint32,
    "int32_t": ctypes.c_int32,
    "size_t": ctypes.c_size_t,
    "const uint8_t *": ctypes.c_void_p,
}
NUMBERS = {it[0]: int(it[1]) for it in re.findall(r"#define LITERAL_(\w+) ([0-9]+)", HEADER)}


def declared(text):
    """The types and names of parameters or fields, as C declares them."""
    parts = [" ".join(it.split()) for it in re.split("[,;]", text) if it.strip() not in ("", "void")]
    found = [re.fullmatch(r"(.*?)\s*(\w+)", it) for it in parts]
    return [(it[1], it[2]) for it in found]


STRUCTS = {it[1]: declared(it[0]) for it in re.findall(r"struct \w+ \{(.*?)\} (\w+);", HEADER, re.S)}
FUNCTIONS = {it[1]: (it[0], declared(it[2])) for it in re.findall(r"(\w+) (literal_\w+)\(([^)]*)\);", HEADER)}


def type_of(declared_type):
    """The type of ctypes for one of C."""
    name = declared_type.removeprefix("const ").removesuffix(" *")
    return TYPES[declared_type] if declared_type in TYPES else ctypes.POINTER(TYPES[name])


for struct, fields in STRUCTS.items():
    TYPES[struct] = type(struct, (ctypes.Structure,), {"_fields_": [(name, type_of(of)) for of, name in fields]})
Match, Page, Answer, Info = (TYPES[f"literal_{name}"] for name in ("match", "page", "answer", "info"))


def load():
    """The shared library, where bindings/test installs it, or the one that a test names by `TESTED_LIBRARY`."""
    library = ctypes.CDLL(os.environ.get("TESTED_LIBRARY", str(BINDINGS / "out/lib/libliteral_search.so")))
    for name, (result, parameters) in FUNCTIONS.items():
        function = getattr(library, name)
        function.argtypes, function.restype = [type_of(it) for it, _ in parameters], type_of(result)
    return library
