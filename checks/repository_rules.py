"""The rules on the repository as a whole, beside its code. Each yields what breaks it, of the texts by their paths."""
import functools
import os
import re

import calling_page
import definitions_page
import search_rules
from calling_page import blocks_of, contract_of, quotes_of
from rattle_source import code_of, functions_in, without_tests

# The only proofs that are walked by hand: a walk elsewhere could forge a count of steps.
WALKS = {
    "crates/literal_base/proofs/count/Tally/new/Proof.antt": "a tally has no field that code sees",
    "crates/literal_base/proofs/count/Tally/plus/Proof.antt": "a tally has no field that code sees",
    "crates/literal_base/proofs/search/Span/of_mut/Proof.antt": "what a slice ends as that was lent in part",
    "crates/literal_packed/proofs/api/Builder/add/Proof.antt": "what a builder ends as that was lent on",
    "crates/literal_packed/proofs/api/Builder/extend/Proof.antt": "what a builder ends as that was lent on",
}

# Words by which a text would lean on a paper that its reader does not have.
CITATIONS = re.compile(
    r"\b(?:T|D|W|R|L|E|C|P)[0-9]{1,2}\b"
    r"|\b(?:[Dd]ocument|[Pp]aper|[Rr]equest|[Dd]emand|[Ii]ssue|[Ss]ection|[Rr]ow) [0-9]"
    r"|\b(?:theorems|requests|readings)\.md\b"
    r"|\bthe" r" papers?\b"
)

# What is not read, by its path from the top: git's own, what is built, digests, and what Python keeps of the checks.
# Elsewhere a folder of such a name is one of proofs, of a function that is called so.
NOT_READ = re.compile(
    r"\.git|dist/\w+-(?:linux|linux-gnu|windows)|checks/refused"
    r"|(?:crates/\w+/|bindings/)?out|bindings/rust/(?:lib|target)"
    r"|(?:checks|bindings/(?:c|\w+/\w+))/__pycache__|.*\.so|dist/.*\.whl"
)

LONGEST_FILE, LONGEST_README = 800, 130
LIBRARY_MODULE = re.compile(r"crates/(literal_\w+)/src/(?!lib\.rt|\w*tests\.rt)(\w+)\.rt")

# What the root of a crate uses of a module, and what a module uses of the root.
EXPORTS = re.compile(r"^(?:pub )?use (\w+)::(\w+|\{[^}]*\});", re.M)
OF_ROOT = re.compile(r"\bcrate::(?:(\w+)|\{([^}]*)\})")
# How a script answers --help: by checks/judged.py, or by printing its first comment.
HELPS = re.compile(r"""^(?:from|import) (?:judged|workspace)\b|^\[ "\$\{1-\}" != --help \] \|\| exec sed """, re.M)
WIDE = re.compile(r"^.{121,}")
MISSING = re.compile(re.escape(f"| {definitions_page.MISSING} |"))

# Where an example on the page for callers, of code or of a proof, may stand.
EXAMPLES = {
    "rust": re.compile(r"crates/\w+/src/(?:\w+/)*tests\.rt|crates/(?:literal_examples|test_contracts)/src/\w+\.rt"
                       r"|crates/marker/src/main\.rt"),
    "antt": re.compile(r"crates/\w+/proofs/.*\.antt"),
}


# The crates that show how the others are called, and how a text cites the lemmas of a crate.
SHOWING = re.compile(r"crates/(literal_examples|literal_promise|marker|search_promise|test_contracts)/.*")
CITED = re.compile(r"\b(literal_\w+)(?:\.|::)proofs(?:\.|::)lemmas(?:\.|::)(\w+)")


def texts_of(root, below=""):
    """The texts of the files in a folder, by their paths from the top."""
    texts = {}
    for entry in sorted(os.scandir(os.path.join(root, below)), key=lambda it: it.name):
        path = os.path.join(below, entry.name)
        if NOT_READ.fullmatch(path):
            continue
        if entry.is_dir():
            texts.update(texts_of(root, path))
        else:
            with open(entry.path, encoding="utf-8", newline="") as file:
                texts[path] = file.read()
    return texts


def handles(texts):
    """No handle is allowed."""
    if texts.get("HANDLES") != "Handles allowed: none.\n":
        yield "HANDLES has to hold the one line 'Handles allowed: none.'"


def places(texts):
    """Code, definitions and proofs stand in crates of crates.txt alone: the kit's gate refuses them elsewhere."""
    crates = "|".join(re.findall(r"^\w+", texts["crates.txt"], re.M))
    place = re.compile(rf"crates/(?:{crates})/(?:src/.*\.rt|(?:specs|proofs)/.*\.antt)")
    for path in texts:
        if path.endswith((".rt", ".antt")) and not place.fullmatch(path):
            yield f"{path} is in no crate of crates.txt"


def walks(texts):
    """Proofs by hand stand where they are listed."""
    for path in texts:
        if path.endswith("/Proof.antt") and path not in WALKS:
            yield f"a proof by hand: {path}"


def citations(texts):
    """No text cites what its reader does not have."""
    for path, text in texts.items():
        for number, cited in lines_with(CITATIONS, text):
            yield f"{path}:{number}: {cited}"


@functools.lru_cache(maxsize=None)
def lines_with(pattern, text):
    """The numbers of the lines of a text in which a pattern stands, with what stands there."""
    found = [(number, pattern.search(line)) for number, line in enumerate(text.splitlines(), 1)]
    return [(number, there.group(0)) for number, there in found if there]


def sizes(texts):
    """No file is long, README.md is short, and no line is wide but headings and rows of tables in documents."""
    for path, text in texts.items():
        most = LONGEST_README if path == "README.md" else LONGEST_FILE
        if path.endswith((".rt", ".antt", "README.md")) and len(text.splitlines()) > most:
            yield f"{path} has {len(text.splitlines())} lines"
        if path.endswith((".rt", ".antt", ".md")) or path.startswith(("checks/", "dist/")) or path == "test":
            for number, line in lines_with(WIDE, text):
                if not (path.endswith(".md") and line.startswith(("|", "#"))):
                    yield f"{path}:{number}: more than 120 columns"


def helps(texts):
    """Each script but the two that start programs answers --help: with its doc string, or with its first comment."""
    for path, text in texts.items():
        if re.match(r"#!/.*(?:sh|python3)\b", text) and path not in ("litfind", "litscan") and not HELPS.search(text):
            yield f"{path} does not answer --help: import checks/judged.py, or begin as ./install"


def lemmas(texts):
    """Where the crates show how others are called, they cite lemmas of these only from `Callers.antt`, and from files
    whose first comment says that they are for callers."""
    for path, text in texts.items():
        shown = SHOWING.fullmatch(path)
        for crate, name in CITED.findall(text) if shown else ():
            comment = texts.get(f"crates/{crate}/proofs/lemmas/{name}.antt", "").split("\nuse ")[0]
            if crate != shown[1] and name != "Callers" and "For callers." not in comment.replace("\n-- ", " "):
                yield f"{path} cites {crate}'s lemmas in {name}, which are not for callers"


def unsafe(texts):
    """No code is unsafe. The word stands at the exports of the crate for C alone."""
    for path, text in texts.items():
        exports = "#[unsafe(no_mangle)]" if path.startswith("crates/literal_c/src/") else ""
        if path.endswith(".rt") and "unsafe" in text and re.search(r"\bunsafe\b", code_of(text).replace(exports, "")):
            yield f"{path}: unsafe code"


def circles(texts):
    """In a library no module uses one that uses it, near or far, also by a name that the root exports."""
    used = {}
    for path, text in texts.items():
        found = LIBRARY_MODULE.fullmatch(path)
        if found:
            root = code_of(texts[f"crates/{found[1]}/src/lib.rt"])
            owners = {name: module for module, names in EXPORTS.findall(root) for name in re.findall(r"\w+", names)}
            code = code_of(without_tests(text))
            names = re.findall(r"\w+", " ".join(map("".join, OF_ROOT.findall(code))))
            used[found.groups()] = {(found[1], owners.get(name, name)) for name in names}
    left = {it: names & used.keys() - {it} for it, names in used.items()}
    while free := {it for it, names in left.items() if not names}:
        left = {it: names - free for it, names in left.items() if it not in free}
    for crate, module in left:
        yield f"crates/{crate}/src/{module}.rt uses modules that use each other"


def definitions(texts):
    """docs/DEFINITIONS.md is as checks/definitions_page.py writes it, and names each file of definitions but those that
    models and private functions alone cite. Each definition has a comment, and each row with an example a definition.
    """
    page = texts[definitions_page.PATH]
    written = definitions_page.written(page, texts)
    if written != page:
        yield f"{definitions_page.PATH} says otherwise than the files of specs: run checks/definitions_page.py"
    for number, _ in lines_with(MISSING, written):
        yield f"{definitions_page.PATH}:{number}: {definitions_page.MISSING}"
    named = {path for part, paths in definitions_page.sections_of(page) for path in paths
             if definitions_page.WITH_EXAMPLES not in part}
    for path, text in texts.items():
        found = list(definitions_page.definitions_in(text)) if re.match(r"crates/\w+/specs/.*\.antt$", path) else []
        if found and path not in named and not re.search(r"/Inside\b", path) and "/test_compared/" not in path:
            yield f"{path} is named by no heading of {definitions_page.PATH}"
        for name in (name for name, comment in found if not comment):
            yield f"{path}: {name} has no comment"


@functools.lru_cache(maxsize=None)
def plain_lines(text):
    """The lines of a text without what they are indented by."""
    return "\n".join(line.strip() for line in text.splitlines())


@functools.lru_cache(maxsize=None)
def comments_of(text):
    """The comments of documentation of a source."""
    return "\n".join(re.sub(r"^\s*//[/!] ?", "", line) for line in text.splitlines() if re.match(r"\s*//[/!]", line))


def examples(texts):
    """Each example in a document or a comment of documentation stands, line for line, in a function that is a test, or
    is a whole program. On the page for callers it may stand in a function that shows how the crates are called, or in
    the program that `checks/used` proves, and each of a proof stands in a proof file."""
    held = {kind: [plain_lines(text) for path, text in texts.items() if place.fullmatch(path)]
            for kind, place in EXAMPLES.items()}
    programs = [text for path, text in texts.items() if path.endswith("/src/main.rt")]
    tests = [plain_lines(test) for path, text in texts.items() if path.endswith(".rt") for test in tests_of(text)]
    documents = {path: comments_of(text) if path.endswith(".rt") else text
                 for path, text in texts.items() if path.endswith((".rt", ".md"))}
    for path, text in documents.items():
        is_page = path == calling_page.PATH
        for kind, block in blocks_of(text):
            lines = plain_lines(block)
            places = tests if kind == "rust" and not is_page else held.get(kind)
            if places is None or block in programs:
                continue
            if not any(lines in one for one in places):
                yield f"{path}: an example stands in no test, caller or proof: {lines.splitlines()[0]}"


@functools.lru_cache(maxsize=None)
def tests_of(text):
    """The functions of a source that are tests and stand in no inner module."""
    return re.findall(r"^#\[test\]\n(.*?)^\}$", text, re.M | re.S)


def quotes(texts):
    """Each contract that a document quotes is that of a function: the signature, and some of the clauses."""
    known = {}
    for path, text in texts.items():
        if re.match(r"crates/\w+/src/.*\.rt$", path):
            for signature, clauses in contracts_in(text, path):
                known.setdefault(signature, []).append(set(clauses))
    for path, text in texts.items():
        for signature, clauses in quotes_of(text) if path.endswith(".md") else ():
            if not any(set(clauses) <= those for those in known.get(signature, ())):
                yield f"{path}: no function has this contract: {signature}"


@functools.lru_cache(maxsize=None)
def contracts_in(text, path):
    """The signatures and clauses of the functions of a source that have a body."""
    heads = [text[it.head : it.start] for it in functions_in(text, path.split("/", 2)[2])]
    return [contract_of(re.sub(r"^ *//.*\n", "", head, flags=re.M)) for head in heads]


RULES = [handles, places, walks, citations, sizes, helps, lemmas, circles, unsafe, definitions, examples, quotes]


def broken_rules(texts):
    """What breaks each rule, these and those on searches, by the rule's name."""
    sources = search_rules.sources_of(texts)
    found = {rule.__name__: list(rule(texts)) for rule in RULES}
    return found | {rule.__name__: list(rule(sources)) for rule in search_rules.RULES}
