"""Memory that is refused: of a table, all of it, and each request in turn."""
import ctypes
import gc
import os
import resource
import sys
import unittest
from pathlib import Path

from literal_search import Search

from lent import Column
from shared import tearDownModule

try:
    from _testcapi import remove_mem_hooks, set_nomemory
except ImportError:
    set_nomemory = None
# If a request for the call of a function in Python is refused, CPython 3.12 and 3.13 crash, also when `re` makes the
# call, and 3.10 raises a SystemError.
CAN_REFUSE = set_nomemory and sys.version_info[:2] == (3, 11)

WORDS = [b"apple", b"maple", b"Snapple"]
REQUESTS = 60


class Lent:
    """A column whose capsules are there already: ctypes raises another error if it is refused memory."""

    def __init__(self, texts):
        self.column = Column(texts, b"vu")
        self.capsules = self.column.__arrow_c_array__()

    def __arrow_c_array__(self, requested_schema=None):
        return self.capsules


class Name(str):
    """A subclass, whose characters Python has elsewhere than those of a str."""


def calls_of(searcher, text, new):
    """Each call that takes one text."""
    yield from (searcher.find, searcher.findall, searcher.findall_strings, searcher.find_columns, searcher.count)
    yield from (searcher.split, lambda text: list(searcher.finditer(text)))
    yield lambda text: searcher.sub(new, text)
    yield lambda text: searcher.subn([new] * len(searcher.patterns), text)
    yield lambda text: searcher.sub(lambda match: match.group(), text)
    yield lambda text: [it.__reduce__() for it in searcher.findall(text)]
    if not searcher.whole_words:
        searcher.find_overlapping(text)
        yield from (searcher.find_overlapping, searcher.count_overlapping, searcher.find_earliest)
        yield lambda text: searcher._so_far(text, 0, 0, True, 0, None)
        yield lambda text: searcher._so_far(text, 0, 0, False, 1, None)
        yield lambda text: searcher._so_far(text, 0, 0, True, 2, new)


def refused(call, request):
    """The answer of a call of which a request is refused, or None if it says that."""
    set_nomemory(request, request + 1)
    try:
        return call()
    except MemoryError:
        return None
    finally:
        remove_mem_hooks()


@unittest.skipUnless(CAN_REFUSE, "this Python has no _testcapi, or is not 3.11")
class EachRequest(unittest.TestCase):
    """By CPython's own means for tests."""

    def check(self, call, held, sweeps=10, few=8):
        """That every answer is right or a MemoryError, and that nothing stays held. Python keeps a few objects, or for
        some calls some hundreds, for later ones."""
        wanted, counts = repr(call()), [sys.getrefcount(it) for it in held]
        for sweep in range(sweeps + 2):
            answers = [refused(call, request) for request in range(REQUESTS)]
            self.assertEqual({repr(it) for it in answers if it is not None} - {wanted}, set())
            del answers
            if sweep == 1:
                gc.collect()
                blocks = sys.getallocatedblocks()
        gc.collect()
        self.assertLess(sys.getallocatedblocks(), blocks + few)
        self.assertEqual([sys.getrefcount(it) for it in held], counts)

    def test_texts(self):
        for words, text in ((["a"], "a ab" * 9), (["a"], "aé\udcff"), (["é", "a"], "É a" * 9), (["é"], Name("aé\udcff")),
                            ([b"a"], bytearray(b"a ab" * 9)), ({"a": [1]}, Name("ab")), (["ab"], "ab-" * 300)):
            for settings in ({}, {"ignore_case": True}, {"whole_words": True}):
                searcher = Search(words, **settings)
                for call in calls_of(searcher, text, text[:1]):
                    self.check(lambda: call(text), [searcher, text])

    def test_columns(self):
        texts, many = ["a", "aé", None, "É a" * 9, "x" * 9000 + "é a"], {"sweeps": 500, "few": 450}
        for words, settings in ((["a"], {}), (["é"], {"ignore_case": True}), (["a"], {"whole_words": True})):
            searcher, lent = Search(words, **settings), Lent(["a", None, "É a" * 9])
            held = [searcher, texts[1], texts[3], texts[4]]
            self.check(lambda: searcher._columns_each(texts, False, True, None), held, **many)
            self.check(lambda: searcher._columns_each(lent, True, True, None), [searcher, lent], **many)

    def test_characters_that_are_new(self):
        """In each text stands a letter that stood in none before."""
        searcher = Search(["a"], whole_words=True)
        for request in range(REQUESTS):
            text = "a" + chr(0xAC00 + request)
            self.assertIn(refused(lambda: searcher.findall(text), request), ([], None))

    def test_patterns(self):
        for words in (["a", "bc"], ["é", Name("ab")], [b"a", memoryview(b"bc")], ["x" * 700]):
            held = [it for it in words if len(it) > 1]  # (Python shares the others)
            self.check(lambda: Search.__new__(Search)._prepare(words, 0, True, False, False, None, None), held)
            kept = memoryview(Search(words, ignore_case=True)._prepared)
            self.check(lambda: Search.__new__(Search)._prepare(words, 0, True, False, False, kept, None), [*held, kept])

            def is_in():
                searcher = Search.__new__(Search)
                searcher._prepare(words, 0, True, False, False, None, None)
                return words[-1] in searcher, len(searcher), [*searcher] == list(words)

            self.check(is_in, held)


class Refused(unittest.TestCase):
    def test_what_the_library_asks_for(self):
        """There is room for what the module asks for, and not for the table."""
        used = int(Path("/proc/self/statm").read_text().split()[0]) * resource.getpagesize()
        most, hard = resource.getrlimit(resource.RLIMIT_AS)
        resource.setrlimit(resource.RLIMIT_AS, (used + (96 << 20), hard))
        self.addCleanup(resource.setrlimit, resource.RLIMIT_AS, (most, hard))
        with self.assertRaisesRegex(MemoryError, "no memory for a search"):
            Search([bytes(range(100)) * 10000])

    @unittest.skipUnless("refuse.so" in os.environ.get("LD_PRELOAD", ""), "run by bindings/test")
    def test_all_requests_refused(self):
        """By an allocator before the C library's, which refuses while the environment says so."""
        process, searcher, text = ctypes.CDLL(None), Search(WORDS), b"apple" * 10000
        of_words, folds, accented = Search(["a"], whole_words=True), Search(["É"], ignore_case=True), "é a" * 10000
        column = Column([accented], b"u")
        self.assertEqual(of_words.count(accented), 1)  # (only the last is no part of `aé`)
        for call in (lambda: Search([b"%d" % it for it in range(2000)]), lambda: searcher.findall(text),
                     lambda: of_words.find(accented), lambda: of_words.findall(accented), lambda: folds.find(accented),
                     lambda: folds.find_columns_each([accented]), lambda: folds.find_columns_each(column),
                     lambda: of_words.find_columns_each(column)):
            with self.assertRaises(MemoryError):
                process.setenv(b"REFUSED_REQUEST", b"0", 1)
                try:
                    call()
                finally:
                    process.unsetenv(b"REFUSED_REQUEST")
        self.assertEqual((searcher.count(text), of_words.count(accented)), (10000, 1))


if __name__ == "__main__":
    unittest.main()
