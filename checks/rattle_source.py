"""Reads Rattle sources: which of a text is code, and its functions: their names, as a check reports them, and where
their bodies stand."""
import functools
import re
from collections import namedtuple

# A function: its word `fn` stands at text[head], and its body, with both braces, is text[start:end].
Function = namedtuple("Function", "name head start end")

COMMENT_OR_LITERAL = re.compile(
    r'//[^\n]*|/\*.*?\*/|\bb?r(#*)".*?"\1|"(?:\\.|[^"\\])*"' r"|'(?:\\[^\n]{1,8}?|[^\\'\n])'", re.S
)
LENGTH_OF_AN_ARRAY = re.compile(r";(?=[^][{};]*\])")
ITEM = re.compile(r"\b(?:(?:mod|trait)\s+(?P<module>\w+)|fn\s+(?P<function>\w+)|impl\b)")
CLAUSE = re.compile(r"\b(?:requires|ensures|ghost)\b")
BODY_OR_END = re.compile(r"[{;]")
BRACKETS = {"(": ")", "[": "]", "{": "}"}
BRACKET = re.compile(r"[][(){}]")

# What contracts and proofs alone see, up to its terms in braces, and what stands before a further term.
FOR_CONTRACTS = re.compile(
    r"\b(?:(?P<whole>ghost\s+use\b[^;]*)|(?P<ghost>ghost\s+\w+)|(?:requires|ensures)\b\*?\s*\w*)"
)
TERM = re.compile(r"\s*(?P<sign>[:=]?)\s*(?=\{)")
SEPARATOR = re.compile(r"\s*[;,]?")
COMMENT_LINE = re.compile(r"^[ \t]*\0[ \t]*\n", re.M)
END_OF_LINE = re.compile(r"[ \t\0]+$", re.M)
BLANK_LINES = re.compile(r"\n(?:[ \t]*\n)+")
END_OF_ITEM = re.compile(r"(?:\S.*)?[;}]|#!.*")
TESTS = re.compile(r"#\[cfg\(test\)\]\s*mod\s+\w+\s*(?=\{)")


def blanked(text, start, end):
    """The text with blanks in place of a part, line for line."""
    return text[:start] + re.sub(r"[^\n]", " ", text[start:end]) + text[end:]


@functools.lru_cache(maxsize=None)
def code_of(text):
    """The text with blanks in place of comments, strings and characters."""
    return COMMENT_OR_LITERAL.sub(lambda found: re.sub(r"[^\n]", " ", found[0]), text)


def without_tests(text):
    """The text with blanks in place of its inner modules of tests."""
    for found in TESTS.finditer(code_of(text)):
        text = blanked(text, found.start(), closing(code_of(text), found.end()))
    return text


def bare_rattle(text):
    """A Rattle text without comments, blank lines and tests, each literal on one line."""
    text = COMMENT_OR_LITERAL.sub(lambda it: "\0" if it[0][:2] in ("//", "/*") else it[0].replace("\n", "\u2424"),
                                  without_tests(text) + "\n")
    return END_OF_LINE.sub("", BLANK_LINES.sub("\n", COMMENT_LINE.sub("", text))).replace("\0", "")


def items_of(text):
    """The items of a bare Rattle text, in the toolchain's layout."""
    item = []
    for line in text.split("\n"):
        item += [line] if line.strip() else []
        if END_OF_ITEM.fullmatch(line):
            yield "\n".join(item)
            item = []
    yield "\n".join(item)


def names_in(text):
    """The names that a text can have, of code or of the logic."""
    return {*re.findall(r"\w+", text), *re.findall(r"[^\s(){}:.,;]+", text)}


@functools.lru_cache(maxsize=None)
def plain_code(text):
    """The code alone: no comment, no text, no clause or ghost item, no module of tests."""
    code, at = code_of(without_tests(text)), 0
    while found := FOR_CONTRACTS.search(code, at):
        at = found.end()
        while not found["whole"] and (term := TERM.match(code, at)):
            at = closing(code, term.end())
            if not found["ghost"]:
                break
        if found["whole"] or found["ghost"]:
            at = SEPARATOR.match(code, at).end()
        code = blanked(code, found.start(), at)
    return code


def words_of(code):
    """The words and signs of code, without commas before closing brackets, so that its layout tells nothing."""
    return re.findall(r"\w+|[^\w\s]", re.sub(r",(?=\s*[)\]}])", "", code))


@functools.lru_cache(maxsize=None)
def functions_in(text, path):
    """Returns the functions of the file at this path of a crate that have a body, in their order."""
    code = LENGTH_OF_AN_ARRAY.sub(" ", code_of(text))
    # (src/lib.rt stands for no module, src/a/b.rt for `a` and `b`)
    modules = [name for name in re.sub(r"^src/|(\b(lib|main|mod))?\.rt$", "", path).split("/") if name]
    return list(functions_below(code, 0, len(code), modules))


def functions_named(functions, name):
    """Returns the functions with a name, or with the last segments of one."""
    return [it for it in functions if f"::{it.name}".endswith(f"::{name}")]


def functions_below(code, at, end, modules):
    """Gives the functions between two places, all in these modules."""
    while item := ITEM.search(code, at, end):
        start = body_or_end(code, item, end)
        at = end if start == end else start + 1 if code[start] == ";" else closing(code, start)
        if start == end or code[start] == ";":
            continue
        if item["function"]:
            yield Function("::".join([*modules, item["function"]]), item.start(), start, at)
        else:
            module = item["module"] or name_of_impl(code[item.end() : start])
            yield from functions_below(code, start + 1, at - 1, [*modules, module])


def body_or_end(code, item, end):
    """Returns where an item's brace or semicolon is, past the braces of a function's clauses, or the end."""
    at = item.end()
    while found := BODY_OR_END.search(code, at, end):
        if found[0] == ";" or not item["function"] or not CLAUSE.search(code, at, found.start()):
            return found.start()
        at = closing(code, found.start())
    return end


def closing(code, at):
    """Returns the place after the bracket that closes the one at a place."""
    opening, depth = code[at], 0
    for bracket in BRACKET.finditer(code, at):
        depth += (bracket[0] == opening) - (bracket[0] == BRACKETS[opening])
        if not depth:
            return bracket.end()
    return len(code)


def name_of_impl(head):
    """Returns what a check calls an impl, as SpanFromRangeUsize for `From<ops::Range<usize>> for Span`."""
    parameters_of = re.match(r"\s*<((?:[^<>]|<[^<>]*>)*)>", head)
    unnamed = re.findall(r"(?:^|,)\s*(?:const\s+)?(\w+)", parameters_of[1]) if parameters_of else []
    head = head[parameters_of.end() :] if parameters_of else head
    trait, _, type_name = head.partition(" where ")[0].rpartition(" for ")
    words = re.findall(r"\w+", re.sub(r"'\w+|\w+\s*::", "", f"{type_name} {trait}"))
    return "".join(word[0].upper() + word[1:] for word in words if word not in unnamed)
