"""Reads docs/CALLING.md: the commands that make a repository with a program, and the contracts that it quotes.

In the section with the heading PROGRAM stand the commands that make a repository, in a block `sh`, and runs of the
program, in blocks `console`: lines that begin with `$ ` are commands, and those below one are what it prints.
"""
import functools
import re
from collections import namedtuple

from rattle_source import words_of

PATH = "docs/CALLING.md"
PROGRAM = "## A program in a repository of its own"

# The commands, and the runs, each a command with what it prints.
Page = namedtuple("Page", "commands runs")

BLOCK = re.compile(r"^```(?P<kind>\w*)\n(?P<text>.*?)^```$", re.M | re.S)


@functools.lru_cache(maxsize=None)
def blocks_of(text):
    """The blocks of a text: for each its kind, and what it holds."""
    return [(found["kind"], found["text"]) for found in BLOCK.finditer(text)]


def page_of(text):
    """The program of a page."""
    blocks = blocks_of(text.partition(f"\n{PROGRAM}\n")[2].partition("\n## ")[0])
    commands, consoles = ("".join(block for kind, block in blocks if kind == it) for it in ("sh", "console"))
    return Page(commands, [run.partition("\n")[::2] for run in re.split(r"^\$ ", consoles, flags=re.M)[1:]])


def contract_of(code):
    """The signature of a function, and its clauses, of the text that stands before its body."""
    signature, *clauses = re.split(r"^(?= *(?:requires|ensures)\b)", code, flags=re.M)
    return " ".join(words_of(signature)), [" ".join(words_of(clause)) for clause in clauses]


def quotes_of(text):
    """The functions that the blocks `text` of a page quote, each indented: its signature, and its clauses."""
    for block in (block for kind, block in blocks_of(text) if kind == "text"):
        indented = re.sub(r"^\S.*\n", "", block, flags=re.M)
        for function in re.split(r"^(?= *(?:pub )?fn )", indented, flags=re.M)[1:]:
            yield contract_of(function)
