#!/usr/bin/env -S python3 -B
"""Writes the tables of docs/DEFINITIONS.md anew, from the comments in the files of specs.

  checks/definitions_page.py

A heading of the page names a crate and files of its specs, the first with its folder and the others in the same one.
The table below it gets a row for each definition in these files: its name, the comment above it, and the fields of a
record. A name that has a row keeps its place, and the arguments that stand there; the others come last.

A table with examples is a choice of such definitions: its rows and examples are written by hand, and stay. Only the
comments are written anew. A definition that has a row there gets none in a later table. All else on the page stays.
"""
import re
from pathlib import Path

from judged import answer_help

answer_help()

PATH = "docs/DEFINITIONS.md"

# A definition in a file of specs: the comment above it, its name, and what follows, up to an empty line.
DEFINITION = re.compile(
    r"((?:^ *-- .*\n)*)^ *(?:abbrev pub|unfoldable pub(?! use)|pub (record|data)) ([^\s:(]+)((?:.*\n)(?:.+\n)*)", re.M
)
FIELD = re.compile(r"^ +pub ([^\s:]+) :", re.M)
WITH_EXAMPLES = "| Name | Meaning | Example |\n|---|---|---|\n"
TABLE = re.compile(rf"^(\| Name \| Meaning \|\n\|---\|---\|\n|{re.escape(WITH_EXAMPLES)})((?:\|.*\n)*)", re.M)

# The comment of a row with an example where no file that the heading names has the definition.
MISSING = "there is no such definition"


def sections_of(page):
    """The parts of the page below its headings, each with the paths of the files that the heading names."""
    for part in re.split(r"^(?=##)", page, flags=re.M):
        codes = re.findall(r"`([^`]*)`", part.partition("\n")[0])
        files = [code for code in codes if code.endswith(".antt")]
        folder = f"crates/{codes[0]}/{files[0].rpartition('/')[0]}/" if files else ""
        yield part, [folder + file.rpartition("/")[2] for file in files]


def definitions_in(text):
    """The names of the definitions of a file, each with its comment in one line, and with the fields of a record."""
    for comment, kind, name, rest in DEFINITION.findall(text):
        said = " ".join(line.strip().removeprefix("-- ") for line in comment.splitlines())
        fields = ", ".join(f"`{field}`" for field in FIELD.findall(rest)) if kind == "record" else ""
        yield name, f"{said}. Fields: {fields}" if fields else said


def name_in(row):
    """The name of the definition of a row."""
    return re.match(r"\| `([^\s`]+)", row)[1]


def with_examples(rows, said):
    """The rows with examples, with the comments that are said of the names."""
    for row in rows:
        yield f"{row.split(' | ')[0]} | {said.get(name_in(row), MISSING)} | {row.rpartition(' | ')[2]}"


def with_all(rows, said):
    """A row for each name of which something is said, those that have a row first."""
    cells = {name_in(row): row.split(" | ")[0] for row in rows}
    for name in [*cells, *(name for name in said if name not in cells)]:
        if name in said:
            yield f"{cells.get(name, f'| `{name}`')} | {said[name]} |\n"


def written(page, texts):
    """The page with its tables written anew, by the texts of the files by their paths."""
    parts, shown = [], set()
    for part, paths in sections_of(page):
        said = {name: comment for path in paths for name, comment in definitions_in(texts.get(path, ""))
                if (path, name) not in shown}
        table = TABLE.search(part)
        if table:
            rows, chosen = table[2].splitlines(keepends=True), table[1] == WITH_EXAMPLES
            shown |= {(path, name_in(row)) for path in paths for row in rows if chosen}
            new = with_examples(rows, said) if chosen else with_all(rows, said)
            part = part[: table.end(1)] + "".join(new) + part[table.end() :]
        parts.append(part)
    return "".join(parts)


if __name__ == "__main__":
    top = Path(__file__).resolve().parent.parent
    texts = {str(path.relative_to(top)): path.read_text("utf-8") for path in top.glob("crates/*/specs/**/*.antt")}
    page = (top / PATH).read_text("utf-8")
    (top / PATH).write_text(written(page, texts), "utf-8")
