"""The rules on the code of searches: that bytes of a haystack and entries of buckets are read where that is counted,
and that a search counts in the tally that it is given.

They catch mistakes: each goes by names, and whoever means to get round one can. Against intent there is review.

A rule takes the sources and yields for each place that breaks it the file and the line, what holds, and what to do.
Functions are named by the last two parts of their names, as a check reports them. Where one of these is renamed or
moves, its name here does too; no other function of the sources is named here.
"""
import functools
import hashlib
import re

from rattle_source import BRACKETS, closing, functions_in, plain_code, without_tests, words_of

# Crates whose code may have a haystack in hand.
SEARCH_CRATES = ("literal_packed", "literal_fingerprints", "literal_prefilters", "literal_rows", "literal_leftmost",
                 "literal_occurrences", "literal_words", "literal_pieces", "literal_search")

HERE = " (checks/search_rules.py)"

COUNT = "crates/literal_base/src/count.rt"
RABIN_KARP = "crates/literal_packed/src/rabinkarp.rt"
ENTRIES = "crates/literal_packed/src/rabinkarp/entries.rt"
CONFIRMING = "crates/literal_prefilters/src/prefilter/confirming.rt"

# The functions that may make a tally: for the hashes of patterns, or for a search that is given none.
MAKERS = (
    "Builder::build", "Searcher::find_in", "Searcher::find_iter", "Prefilter::find_in", "ConfirmingSearch::find_in",
    "Search::find_in", "Search::match_in", "Search::find_all_in", "MatchesIterator::next", "StartsIterator::next",
    "Search::replace_all", "Search::replace_stream", "Search::replace_stream_with", "StreamMatchesIterator::next",
    "WholeWords::find_in", "WholeWords::replace_stream", "WholeWords::replace_stream_with",
    "WholeWordMatchesIterator::next", "WholeWordStreamMatchesIterator::next",
    "WholeWords::find_text_in", "WordMatchesBySidesIterator::next",
    "Overlapping::earliest_end", "Overlapping::count_overlapping_in", "OverlappingMatchesIterator::next",
    "OverlappingStreamMatchesIterator::next",
    "Prepared::first_candidate_in", "Prepared::count_of_byte_in", "Prepared::find_in",
    "PreparedMatches::next_match", "PreparedShortMatches::next_match",
    "PreparedOverlapping::earliest_end", "PreparedOverlapping::count_overlapping_in",
    "PreparedOverlappingMatches::next_match", "PreparedOverlapping::walk",
    "PreparedWords::find_in", "PreparedWordMatches::next_match",
    "PreparedWords::find_in_by_sides", "PreparedWordMatchesBySides::next_match",
)

# Where each step ticks, once in each function, and a sum of the words of its body as it was reviewed, if it was. The
# functions that compare or scan read bytes of a haystack.
TICKS = {
    "crates/literal_packed/src/pattern.rt": {"Patterns::matches_at": ("tick_compared", "726bd5dd96cb")},
    RABIN_KARP: {"Rolling::push": ("tick_hashed", "ebc0e88b6d30"), "Rolling::roll": ("tick_hashed", "5b80638e8bc9")},
    ENTRIES: {"BucketEntries::entry": ("tick_entries", "95314473946b")},
    "crates/literal_fingerprints/src/lanes.rt": {
        "lanes::load": ("tick_scanned", "81399e5b4db7"), "lanes::load_rest": ("tick_scanned", "5dc63c131184"),
        "lanes::byte_at": ("tick_scanned", "20400241e889"),
    },
    "crates/literal_fingerprints/src/wide.rt": {"wide::load_wide": ("tick_scanned", "34f300c94c73")},
    "crates/literal_prefilters/src/prefilter/byte_table.rt": {"ByteTable::find": ("tick_scanned", "9327f693401c")},
    CONFIRMING: {"confirming::confirm": ("tick_tried", ""), "confirming::confirm_by_table": ("tick_tried", "")},
    "crates/literal_rows/src/walk.rt": {
        "Table::code_at": ("tick_scanned", "25dd60819038"), "walk::class_by": ("tick_scanned", "5af4fe0d0b4f"),
    },
    "crates/literal_words/src/word_search.rt": {"Words::is_word_at": ("tick_scanned", "0a7b06daaf24")},
}
READS = ("tick_compared", "tick_scanned")

# What parameters are called that hold what a search reads: a haystack, and its sides. SIDES_OF makes the sides of a
# `text`, before any search.
READ_NAMES, SIDES_OF = ("haystack", "sides"), "crates/literal_words/src/word_text.rt"

# What parameters are called that hold bytes of patterns, one or all, or what is put in their place, and how bytes are
# typed.
PATTERN_NAMES = ("pattern", "patterns", "bytes", "by_id", "lists", "classes", "replacements")
BYTES = re.compile(r"\b([a-z]\w*)\s*:[^,):]*(?:\[u8\]|\bVec<u8>|\bstr\b)")

# The types that may keep a slice of bytes: a haystack, patterns, or what C hands over of either.
KEEPERS = (
    "FindIter", "Matches", "ShortMatches", "PreparedMatches", "PreparedShortMatches", "OverlappingMatches",
    "PreparedOverlappingMatches", "Input", "Pattern", "SearchRequest", "Pieces", "AnySearch", "WordText",
    "WordMatchesBySides", "PreparedWordMatchesBySides",
)

# The fields of `BucketEntries` that tell nothing of an entry, and the functions that may name the others: the one that
# reads an entry, and those that make and copy it.
PLAIN_FIELDS = ("starts", "longer", "single")
ENTRY_READERS = ("BucketEntries::entry", "BucketEntries::new", "BucketEntries::try_clone")

# How a haystack is used: its length is asked for, it is cut into another, bytes of it are hashed with a tally or copied
# where matches are replaced, or it is handed on, whole or cut, as an argument. So are its sides.
ARGUMENTS = r"\((?:[^()]|\((?:[^()]|\(\))*\))*\)"
READ = f"(?:{'|'.join(READ_NAMES)})"
LENGTH = re.compile(rf"\b{READ}\s*\.\s*(?:len|is_empty)\(\)")
BOUND = re.compile(rf"\blet ({READ}) = &?(?:self\s*\.\s*)?\1(?:\[[^][]*\.\.[^][]*\])?;")
HASHED = re.compile(r"\.(?:push|roll)\((?:haystack\[[^][]*\],\s*)+tally\)")
COPIED = re.compile(r"\b(?:text\.(?:extend_from_slice|push_str)\(|write\(found, )&haystack\[[^][]*\](?=[,)])")
HANDED = re.compile(
    rf"(?<=[(,{{])\s*&?(?:self\s*\.\s*)?{READ}(?:\[[^][]*\.\.[^][]*\]|\.as_bytes\(\))?\s*(?=[,)}}])"
)


class Source:
    """A source file outside of tests: its text, its code without what contracts and tests alone see, its functions."""

    def __init__(self, path, text):
        self.path, self.text, self.code = path, without_tests(text), plain_code(text)
        self.functions = functions_in(self.text, path.split("/", 2)[2])
        self.is_of_searches = path.split("/")[1] in SEARCH_CRATES

    def at(self, place, why):
        """A message on a place of the file."""
        return f"{self.path}:{self.text.count(chr(10), 0, place) + 1}: {why}"

    def places_of(self, word):
        """The places in the code of a word, as a pattern, each with the function that it lies in, or None."""
        for found in re.finditer(word, self.code):
            yield found.start(), next((it for it in self.functions if it.start <= found.start() < it.end), None)

    def types(self):
        """The structs and enums: the name, the place, and the fields or variants of each."""
        for found in re.finditer(r"\b(?:struct|enum)\s+(\w+)[^{(;]*", self.code):
            has_fields = self.code[found.end() :][:1] in BRACKETS
            end = closing(self.code, found.end()) if has_fields else found.end()
            yield found[1], found.start(), self.code[found.end() : end]


def short(function):
    """The last two parts of a function's name."""
    return "::".join(function.name.split("::")[-2:]) if function else "no function"


def sources_of(texts):
    """The sources outside of tests, callers and examples, of the texts of a repository by their paths."""
    code = {path: text for path, text in texts.items() if re.match(r"crates/\w+/src/.*\.rt$", path)}
    tests = [r"crates/(?:test_\w+|literal_examples|litscan)/"]
    for path, text in code.items():
        folder = re.sub(r"(?:/(?:lib|main|mod))?\.rt$", "", path)
        tests += [rf"{folder}/{name}(?:\.rt|/)" for name in re.findall(r"#\[cfg\(test\)\]\s*mod\s+(\w+);", text)]
    return [source_of(path, text) for path, text in code.items() if not re.match("|".join(tests), path)]


source_of = functools.lru_cache(maxsize=None)(Source)


def tallies(sources):
    """A search counts in the tally that it is given: none makes another, or calls a search that makes one."""
    for source in sources:
        makers = set(MAKERS)
        for place, function in source.places_of(r"\bTally::new\("):
            if short(function) not in makers:
                yield source.at(place, f"a tally is made once in each of MAKERS{HERE}: take a `tally: &mut Tally`")
            makers.discard(short(function))
        for found in re.finditer(rf"\bfind(?:_in|_iter)?({ARGUMENTS})", source.code if source.is_of_searches else ""):
            function = next((it for it in source.functions if it.start <= found.start() < it.end), None)
            has_tally = function and re.search(r"\btally\b", source.code[function.head : function.end])
            if has_tally and "haystack" in found[1] and not re.search(r"\btally,?\s*\)$", found[1]):
                yield source.at(found.start(), "call the search that is given the tally that this function has")


def haystacks(sources):
    """Bytes of a haystack are read where that is counted."""
    taken = [(source, function, name) for source in sources if source.is_of_searches for function in source.functions
             for name in BYTES.findall(source.code[function.head : function.start])]
    for source, function, name in taken:
        if name not in (*READ_NAMES, *PATTERN_NAMES) and (source.path, name) != (SIDES_OF, "text"):
            yield source.at(function.head, (
                f"bytes of a haystack are called `haystack`, and those of patterns {', '.join(PATTERN_NAMES)}: call "
                f"the parameter `{name}` so, or add what it holds to PATTERN_NAMES{HERE}"))
    takers = "|".join({it.name.split("::")[-1] for _, it, name in taken if name in READ_NAMES})
    calls = re.compile(rf"\b(?:{takers})(?:::<[^<>]*>)?{ARGUMENTS}|\b(?:{'|'.join(KEEPERS)}) \{{[^{{}}]*\}}")
    for source in (it for it in sources if it.is_of_searches):
        for function in source.functions:
            if TICKS.get(source.path, {}).get(short(function), [""])[0] not in READS:
                for place in odd_uses(source.code[function.start : function.end], calls, function.name):
                    yield source.at(function.start + place, (
                        "a haystack is asked for its `len()`, cut by a range into another `haystack`, or handed on to "
                        "a function whose parameter is called `haystack`; its bytes are read in `matches_at`, in the "
                        "scan of `ByteTable`, and in `walk` as arguments of `push` or `roll`, with the tally; they are "
                        "copied in `replace_all` and its kin"))


def odd_uses(code, calls, name):
    """The places of a body at which a haystack is used otherwise than it may be."""
    def passed_over(found):
        return re.sub(rf"\b{READ}\b", lambda name: " " * len(name[0]), found[0])

    code = BOUND.sub(passed_over, LENGTH.sub(passed_over, code))
    code = HASHED.sub(passed_over, code) if name.endswith("RabinKarp::walk") else code
    code = COPIED.sub(passed_over, code) if re.search(r"(Search|WholeWords)::replace_all\w*$", name) else code
    code = calls.sub(lambda found: HANDED.sub(passed_over, found[0]), code)
    return [found.start() for found in re.finditer(rf"\b{READ}\b(?!\()", code)]


def entries(sources):
    """An entry of a bucket is read where that is counted. Outside of their module nobody sees them."""
    fields = rf"(?<!\.)\.\s*(?!(?:{'|'.join(PLAIN_FIELDS)})\b)[a-z]\w*\b(?!\s*(?:::<.*>)?\()"
    for source in sources:
        for place, function in source.places_of(fields) if source.path == ENTRIES else ():
            if function and short(function) not in ENTRY_READERS:
                yield source.at(place, (
                    f"fields that hold entries or sums are named in {', '.join(ENTRY_READERS)} alone: read an entry by "
                    f"`entry`, or add a field that holds neither to PLAIN_FIELDS{HERE}"))
        for name, place, kept in source.types() if source.path == RABIN_KARP else ():
            if re.search(r"\[|\bVec\b", kept):
                yield source.at(place, f"`{name}` keeps a list: keep what holds sums of patterns in `BucketEntries`")


def ticks(sources):
    """Each step ticks once, where it is taken, and a place is tried right behind its tick."""
    for source in (it for it in sources if it.path != COUNT):
        left = {name: tick for name, (tick, _) in TICKS.get(source.path, {}).items()}
        for place, function in source.places_of(r"\btick_\w+"):
            if left.pop(short(function), "") != re.match(r"\w+", source.code[place:])[0]:
                yield source.at(place, f"it ticks where TICKS{HERE} has no such tick, or ticks twice: call what ticks")
        for name, tick in left.items():
            yield source.at(0, f"`{tick}` stands once in `{name}`, by TICKS{HERE}: tick before the step is taken")
        for place, function in source.places_of(r"\bbest_at\(|\bmatches_at\(") if source.path == CONFIRMING else ():
            before = re.search(r"tally\.tick_tried\(\);\s*if let Some\(\w+\) = $", source.code[:place])
            if function and not before and short(function) != "confirming::best_at":
                yield source.at(place, "patterns are compared by `if let Some(id) = best_at(` right behind the tick")


def keepers(sources):
    """What is kept of a haystack is kept by an iteration or an input."""
    for source in sources:
        for name, place, fields in source.types():
            if re.search(r"\[u8\]|\bhaystack\b", fields) and name not in KEEPERS:
                yield source.at(place, (
                    f"`{name}` keeps a slice of bytes, as {', '.join(KEEPERS)} alone do: hand it on as an argument"))


def held(sources):
    """What reads and counts stands as it was reviewed."""
    for source in sources:
        for function in source.functions:
            _, reviewed = TICKS.get(source.path, {}).get(short(function), ("", ""))
            body = " ".join(words_of(source.code[function.start : function.end]))
            sum_of_body = hashlib.sha256(body.encode()).hexdigest()[:12]
            if reviewed not in ("", sum_of_body):
                yield source.at(function.head, (
                    f"review what `{short(function)}` reads and counts, and put {sum_of_body} into TICKS{HERE}"))


RULES = [tallies, haystacks, entries, ticks, keepers, held]
