"""The header for C and the exports of the crate agree: names, order, types and numbers."""
import re
import sys
import unittest
from pathlib import Path

from literal_search import Kind, __version__

TOP = Path(__file__).resolve().parents[3]
sys.path.append(str(TOP / "bindings/c"))

import library
from shared import tearDownModule

SOURCES = sorted((TOP / "crates/literal_c/src").glob("*.rt"))
EXPORTS = re.sub(r"//.*", "", "".join(it.read_text("utf-8") for it in SOURCES))

# What stands in C for a type of Rust.
IN_C = {"u32": "uint32_t", "i32": "int32_t", "usize": "size_t", "bool": "bool", "u8": "uint8_t"}
IN_C.update({re.sub("_(.)", lambda it: it[1].upper(), name.capitalize()): name for name in library.STRUCTS})


def crossing(text):
    """The types and names by which parameters or fields of Rust cross."""
    crossed = []
    for field, kind in re.findall(r"(?:pub )?(\w+): ([^,\n]+)", text):
        reference = re.fullmatch(r"&(mut )?(\[?)(\w+)\]?", kind)
        if reference:
            crossed.append((f"{'' if reference[1] else 'const '}{IN_C[reference[3]]} *", field))
            crossed += [("size_t", f"{field}_len")] if reference[2] else []
        elif kind != "Global":
            crossed.append((IN_C[kind], field))
    return crossed


class Agree(unittest.TestCase):
    def test_functions(self):
        exported = re.findall(r'#\[unsafe\(no_mangle\)\]\s*pub extern "C" fn (\w+)\((.*?)\) -> (\w+)', EXPORTS, re.S)
        self.assertEqual(library.FUNCTIONS, {it[0]: (IN_C[it[2]], crossing(it[1])) for it in exported})

    def test_structs(self):
        struct_of_rust = r"#\[repr\(C\)\]\s*#\[derive\(Clone, Copy\)\]\s*pub struct (\w+) \{(.*?)\}"
        exported = re.findall(struct_of_rust, EXPORTS, re.S)
        self.assertEqual(library.STRUCTS, {IN_C[it[0]]: crossing(it[1]) for it in exported})

    def test_numbers(self):
        exported = {it[0]: int(it[1]) for it in re.findall(r"pub const LITERAL_(\w+): \w+ = ([0-9]+);", EXPORTS)}
        self.assertEqual(library.NUMBERS, exported)
        self.assertEqual({it.name: int(it) for it in Kind}, {it.name: library.NUMBERS[it.name] for it in Kind})

    def test_version(self):
        self.assertIn(f'LITERAL_VERSION "{__version__}"', library.HEADER)


if __name__ == "__main__":
    unittest.main()
