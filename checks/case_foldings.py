#!/usr/bin/env -S python3 -B
"""Writes the table of case foldings, crates/literal_folding/src/foldings.rt, from Unicode's CaseFolding.txt.

  checks/case_foldings.py            writes the table
  checks/case_foldings.py --check    compares it with the file; exits with 1 if they differ
  checks/case_foldings.py --left     prints the characters that are left out: their folding has another length

CaseFolding.txt comes from Debian's package unicode-data. If it is missing, the script says so, and exits with 2. This
check is no part of ./test, since the package may be missing.
"""
import sys
from pathlib import Path

from judged import answer_help

answer_help()

SOURCE = Path("/usr/share/unicode/CaseFolding.txt")
TABLE = Path(__file__).resolve().parent.parent / "crates/literal_folding/src/foldings.rt"

HEAD = """\
//! The simple case foldings of Unicode {version} that keep the length in UTF-8, from `checks/case_foldings.py`.

/// The characters with a folding, in rising order. A row has the first and the last of some characters, the step from
/// each to the next, and the folding of the first; the foldings of the others have the same distances.
pub const FOLDINGS: [(u32, u32, u32, u32); {count}] = [
"""


def simple_foldings(text):
    """Each character with a simple folding (status C or S), and the folding, as numbers."""
    for line in text.splitlines():
        fields = [field.strip() for field in line.partition("#")[0].split(";")]
        if len(fields) >= 3 and fields[1] in ("C", "S"):
            yield int(fields[0], 16), int(fields[2], 16)


def keeps_length(char, folding):
    """Whether both have as many bytes in UTF-8."""
    return len(chr(char).encode()) == len(chr(folding).encode())


def rows_of(foldings):
    """Rows of first, last, step and folding of the first, for pairs in rising order."""
    rows = []
    for char, folding in foldings:
        if rows:
            first, last, step, to = rows[-1]
            gap = char - last
            if folding - to == char - first and (gap == step or first == last and gap <= 2):
                rows[-1] = (first, char, gap, to)
                continue
        rows.append((char, char, 1, folding))
    return rows


def table_of(text):
    """The file with the table, from the text of CaseFolding.txt."""
    version = text.partition("\n")[0].partition("-")[2].removesuffix(".txt")
    rows = rows_of(sorted(pair for pair in simple_foldings(text) if keeps_length(*pair)))
    lines = (f"    (0x{first:X}, 0x{last:X}, {step}, 0x{to:X}),\n" for first, last, step, to in rows)
    return HEAD.format(version=version, count=len(rows)) + "".join(lines) + "];\n"


def main(arguments):
    if not SOURCE.exists():
        print(f"{SOURCE} is missing: install Debian's package unicode-data")
        return 2
    text = SOURCE.read_text()
    if arguments == ["--left"]:
        for char, folding in sorted(simple_foldings(text)):
            if not keeps_length(char, folding):
                print(f"U+{char:04X} {chr(char)} {chr(folding)}")
        return 0
    if arguments == ["--check"]:
        is_same = TABLE.read_text() == table_of(text)
        print("the table has the foldings of the file" if is_same else f"{TABLE} differs from {SOURCE}")
        return 0 if is_same else 1
    if arguments:
        print(__doc__)
        return 2
    TABLE.write_text(table_of(text))
    return 0


if __name__ == "__main__":
    sys.exit(main(sys.argv[1:]))
