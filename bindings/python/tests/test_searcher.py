"""What the module answers: rows worked by hand, random cases against a plain search, and its ways to refuse."""
import array
import copy
import ctypes
import doctest
import json
import os
import pickle
import random
import re
import sys
import tempfile
import time
import unittest
from io import StringIO
from itertools import islice
from types import SimpleNamespace

import literal_search
from literal_search import Kind, Match, Search

import plain
from shared import tearDownModule

TEXT = b"Nobody likes maple in their apple flavored Snapple."
WORDS = [b"apple", b"maple", b"Snapple"]
FIRST, LONGEST = Kind.LEFTMOST_FIRST, Kind.LEFTMOST_LONGEST


def load_tests(loader, tests, pattern):
    """Adds the examples of the documentation."""
    tests.addTests(doctest.DocTestSuite(literal_search))
    return tests


class Loud(str):
    """One whose methods aren't those of a str."""

    def encode(self, *_):
        raise AssertionError("nobody calls this")

    __getitem__ = join = __iter__ = __add__ = __str__ = encode


class LoudBytes(bytes):
    """One whose methods aren't those of bytes."""

    __getitem__ = join = __iter__ = __add__ = __bytes__ = Loud.encode


class Rows(unittest.TestCase):
    def test_all_matches(self):
        found = Search(WORDS).findall(TEXT)
        self.assertEqual(found, [(1, 13, 18), (0, 28, 33), (2, 43, 50)])
        self.assertEqual(found[0].span(), (13, 18))
        self.assertEqual((found[0].pattern, found[0].start, found[0].end), (1, 13, 18))
        self.assertEqual(repr(found[0]), "Match(pattern=1, start=13, end=18)")
        self.assertEqual(pickle.loads(pickle.dumps(found)), found)

    def test_kinds(self):
        self.assertEqual(Search([b"ab", b"abc"]).find(b"xabc"), Match(0, 1, 3))
        self.assertEqual(Search([b"ab", b"abc"], LONGEST).find(b"xabc"), Match(1, 1, 4))
        self.assertEqual(Search([b"ab", b"ab"], LONGEST).find(b"ab"), Match(0, 0, 2))

    def test_sets_have_no_order(self):
        for words in ({"Sam", "Samwise"}, frozenset([b"Sam"])):
            with self.assertRaisesRegex(TypeError, "a set has no order"):
                Search(words)
        self.assertEqual(Search({"Sam", "Samwise"}, LONGEST).find("Samwise").span(), (0, 7))
        self.assertEqual(Search({"Samwise": 1, "Sam": 2}.keys()).find("Samwise").span(), (0, 7))

    def test_a_word_in_the_beginning_of_another(self):
        self.assertEqual(Search(["a", "baa"], LONGEST).findall("ba"), [Match(0, 1, 2)])
        self.assertEqual(Search([b"abcd", b"bc"], LONGEST).findall(b"abcabcd"), [Match(1, 1, 3), Match(0, 3, 7)])

    def test_case(self):
        self.assertIsNone(Search([b"AB"]).find(b"ab"))
        self.assertEqual(Search([b"AB"], ignore_case=True).find(b"xaB"), Match(0, 1, 3))
        self.assertIsNone(Search([b"\xc4"], ignore_case=True).find(b"\xe4"))  # (no letters of ASCII)
        self.assertIsNone(Search(["Ä"], ignore_case="ascii").find("ä"))
        self.assertEqual(Search(["ÄA"], ignore_case="ascii").find("äaÄa"), Match(0, 2, 4))

    def test_bounds_are_those_of_a_slice(self):
        for text in (b"abxabab", "abxabab", "äöxäöäö", "🐍öx🐍ö🐍ö"):
            searcher = Search([text[:2]])
            for start in (None, 0, 1, 2, 5, 7, 9, -1, -3, -99, 2**70, -(2**70)):
                for end in (None, 0, 2, 6, 7, 99, -1, -5, -99, 2**70, -(2**70)):
                    low, high, _ = slice(start, end).indices(7)
                    wanted = plain.find_all([text[:2]], False, False, text, low, max(low, high))
                    self.assertEqual(searcher.findall(text, start, end), wanted, (text, start, end))
                    self.assertEqual(list(searcher.finditer(text, start, end=end)), wanted)
                    self.assertEqual(searcher.find(end=end, start=start, text=text), (*wanted, None)[0])
                    self.assertIs(searcher.is_match(text, start, end), bool(wanted))
                    self.assertEqual(searcher.count(text, start, end), len(wanted))
                    self.assertEqual(searcher.find_overlapping(text, start, end=end), wanted)
                    self.assertEqual(list(searcher.finditer_overlapping(text, start, end=end)), wanted)
                    self.assertEqual(searcher.count_overlapping(text, start, end=end), len(wanted))
                    self.assertEqual(searcher.find_earliest(text, start, end=end), (*wanted, None)[0])
                    self.assertEqual(list(searcher.finditer_earliest(text, start, end=end)), wanted)

    def test_many_pages(self):
        for text in (b"ab" * 30000, "äb" * 30000):
            searcher = Search([text[1:2]])
            wanted = list(range(1, 60000, 2))
            self.assertEqual([it.start for it in searcher.finditer(text)], wanted)
            self.assertEqual([it.start for it in searcher.findall(text)], wanted)
            self.assertEqual(searcher.count(text), 30000)

    def test_each(self):
        lines = [b"an apple", b"", b"none", b"Snapple, maple"]
        self.assertEqual(Search(WORDS).find_each(lines), [(0, 3, 8), None, None, (2, 0, 7)])
        self.assertEqual(Search(WORDS).find_each(iter([])), [])
        self.assertEqual(Search(WORDS).findall_each(lines), [[(0, 3, 8)], [], [], [(2, 0, 7), (1, 9, 14)]])
        self.assertEqual(Search(["ö"]).find_each(["äö", "o"]), [(0, 1, 2), None])
        self.assertEqual(Search(WORDS).count_each(iter(lines)), [1, 0, 0, 2])

    def test_cells_of_columns(self):
        class Strings(bytearray):
            """An array of strings, as numpy has them."""
            dtype = SimpleNamespace(kind="S")

            def __iter__(self):
                return iter([b"maple", b"-"])

        self.assertEqual(Search(WORDS).count_each(Strings(b"maple-")), [1, 0])
        for searcher, text in (Search(["a"]), "a"), (Search([b"a"]), b"a"), (Search([]), b"a"):
            cells = [None, text, float("nan")]
            found = searcher.find(text)
            self.assertEqual(searcher.find_each(cells, skip_missing=True), [None, found, None])
            self.assertEqual(searcher.findall_each(cells, True), [[], [found] if found else [], []])
            self.assertEqual(searcher.count_each(cells, skip_missing=True), [0, int(found is not None), 0])
            for cell in cells[0], cells[2]:
                self.assertRaises(TypeError, searcher.find_each, [cell])
            self.assertRaises(TypeError, searcher.find_each, [1.5], skip_missing=True)

    def test_split(self):
        searcher = Search([b", ", b","])
        self.assertEqual(searcher.split(b"a, b,c,"), [b"a", b"b", b"c", b""])
        self.assertEqual(searcher.split(bytearray(b"a, b,c,"), 2), [b"a", b"b", b"c,"])
        self.assertEqual(searcher.split(b""), [b""])
        self.assertEqual(searcher.split(maxsplit=1, text=b"a,b,c"), [b"a", b"b,c"])
        self.assertEqual(Search(["ö"]).split("äöüö"), ["ä", "ü", ""])

    def test_no_patterns(self):
        for kind in Kind:
            for ignore_case in (False, True):
                searcher = Search([], kind, ignore_case)
                for text in (b"abc", "äbc", bytearray(b"abc")):
                    self.assertIsNone(searcher.find(text))
                    self.assertEqual((searcher.findall(text), searcher.count(text)), ([], 0))
                    self.assertEqual((searcher.split(text), searcher.subn([], text)), ([text], (text, 0)))

    def test_lone_surrogates(self):
        """Each is a character of a text, as in the name of a file."""
        text = os.fsdecode(b"\xffa\xed\xa0\x80ba\xfe") + "\ud83d\ude00"
        for searcher in (Search(["a", "b", "\U0001f600"]), Search(["B", "A"], ignore_case=True)):
            spans = [it.span() for it in re.compile("[ab]").finditer(text)]
            self.assertEqual([it.span() for it in searcher.findall(text)], spans)
            self.assertEqual([it.span() for it in searcher.find_overlapping(text)], spans)
            self.assertEqual([it.span() for it in searcher.finditer_stream(StringIO(text))], spans)
            self.assertEqual([it.group() for it in searcher.finditer(text, 2, -1)], ["b", "a"])
            self.assertEqual(searcher.sub("\ud800", text), re.sub("[ab]", "\ud800", text))
            self.assertEqual(searcher.split(text), re.split("[ab]", text))
            self.assertEqual([it and it.span() for it in searcher.find_each(["\udc80", "\udc80b"])], [None, (1, 2)])
        self.assertEqual(Search(["b"], whole_words=True).findall("\ud800b\udc00 bb"), [(0, 1, 2)])

    def test_lists_of_any_length(self):
        for kind in Kind:
            for ignore_case in (False, True):
                for count in (1, 128, 129, 2000, 20000):
                    words = [b"%05d" % i for i in range(count)]
                    found = Search(words, kind, ignore_case).find(b"x%05d" % (count - 1))
                    self.assertEqual(found, Match(count - 1, 1, 6))

    def test_a_large_table(self):
        """Its length turns out when it is written."""
        pattern = bytes(range(100)) * 2000
        searcher = Search([pattern, b"b"])
        self.assertGreater(len(searcher._prepared), 1 << 26)
        self.assertEqual(searcher.findall(b"b" + pattern), [(1, 0, 1), (0, 1, 1 + len(pattern))])

    def test_all_bytes(self):
        every = bytes(range(256))
        for byte in range(256):
            self.assertEqual(Search([bytes([byte])]).find(every), Match(0, byte, byte + 1))
        self.assertEqual(len(Search([b"\0", b"\xff"]).findall(every * 2)), 4)


class Matches(unittest.TestCase):
    """What a match knows."""

    def test_what_was_matched(self):
        for text in ("xÄpple, äPPLE🐍apple", "x Apple, apple"):
            searcher = Search(["äpple", "apple"], ignore_case=True)
            found = searcher.findall(text)
            self.assertEqual([it.group() for it in found], re.findall("(?i:[äa]pple)", text))
            self.assertEqual([it.value for it in found], [searcher.patterns[it.pattern] for it in found])
        shorts = array.array("H", b"xxabcd..")
        for text in (b"xxabcd", bytearray(b"xxabcd"), memoryview(b"-xxabcd")[1:], shorts, memoryview(shorts)):
            match = Search([b"abc"]).find(text)
            self.assertEqual((match.group(), type(match.group()), match.value), (b"abc", bytes, b"abc"))
        self.assertEqual(match.group(0), b"abc")
        self.assertRaises(IndexError, match.group, 1)
        self.assertRaises(TypeError, match.group, 0, 0)

    def test_strings(self):
        for text in ("xÄpple, äPPLE🐍apple", "x Apple, apple", "äpple" * 5000):
            for searcher in (Search(["äpple", "apple"]), Search([Loud("äpple"), "aPPle"], ignore_case=True),
                             Search([Loud("äpple"), Loud("apple")])):
                found = searcher.findall_strings(text, 1, -1)
                self.assertEqual(found, [it.group() for it in searcher.findall(text, 1, -1)])
                self.assertEqual({type(it) for it in found} - {str}, set())
        shorts = array.array("H", b"xxAbcd..")
        for text in (b"xxAbcd..", bytearray(b"xxAbcd.."), shorts, memoryview(shorts)):
            self.assertEqual(Search([b"abc", b"D"], ignore_case=True).findall_strings(text), [b"Abc", b"d"])

    def test_columns(self):
        """Below, at and above a number that is written at once."""
        for count in (0, 1, 255, 256, 257, 9000):
            for text in ("ä€a" * count + "ä", "bca" * count):
                searcher = Search(["a", "ä€", "cb"])
                found = searcher.findall(text, 1, -1)
                columns = searcher.find_columns(text, start=1, end=-1)
                self.assertEqual(list(zip(*columns)), found)
                self.assertEqual([(it.typecode, len(it)) for it in columns], [("q", len(found))] * 3)
        self.assertEqual([it.tolist() for it in Search([b"bc", b"b"]).find_columns(bytearray(b"abcb"))],
                         [[0, 1], [1, 3], [3, 4]])

    def test_of_a_text_that_changes(self):
        text = bytearray(b"xxabc")
        match = Search([b"abc"]).find(text)
        text[2:3] = b"z"
        self.assertEqual(match.group(), b"zbc")
        text.pop()
        with self.assertRaisesRegex(ValueError, "too short"):
            match.group()

    def test_of_a_mapping(self):
        values = {"apple": 1, "maple": None, "äpp": ["x"]}
        searcher = Search(values)
        self.assertEqual(searcher.patterns, tuple(values))
        text = "maple äpp apple"
        found = [searcher.findall(text), list(searcher.finditer(text)), searcher.find_overlapping(text)]
        for all_found in (*found, searcher.findall_each([text])[0], [searcher.find(text)] + found[0][1:]):
            self.assertEqual([it.value for it in all_found], [None, ["x"], 1])
        self.assertIs(searcher.find_earliest("äpp").value, values["äpp"])
        self.assertEqual(searcher.sub(lambda it: f"<{it.value}>", text), "<None> <['x']> <1>")
        self.assertEqual(Search({}).findall("a"), [])

    def test_of_a_mapping_that_changes(self):
        class Changing(dict):
            def values(self):
                return []

            def items(self):
                return [*super().items()]

        self.assertEqual(Search(Changing(a=1)).find("xa").value, 1)
        for values in ((), (1, 2), [1]):
            with self.assertRaises(ValueError):
                Search.__new__(Search)._prepare(("a",), 0, False, False, False, None, values)

    def test_kept_beside_others(self):
        searcher, kept = Search([b"a", b"b"]), []
        for _ in range(30):
            kept += [it for i, it in enumerate(searcher.finditer(b"abcab" * 3)) if i % 4 == 1]
            del kept[::5]
        wanted = {(1, at, at + 1, b"b") for at in (1, 6, 11)}
        self.assertLessEqual({(*it, it.group()) for it in kept}, wanted)
        self.assertEqual(len({id(it) for it in kept}), len(kept))

    def test_searchers_of_mappings(self):
        searcher = Search({b"a": 1, b"b": [2]}, LONGEST, True)
        self.assertEqual(repr(searcher), "Search({b'a': 1, b'b': [2]}, Kind.LEFTMOST_LONGEST, ignore_case=True)")
        for other in (eval(repr(searcher)), pickle.loads(pickle.dumps(searcher)), copy.copy(searcher)):
            self.assertEqual((other, hash(other)), (searcher, hash(searcher)))
            self.assertEqual(other.find(b"B").value, [2])
        self.assertNotEqual(searcher, Search({b"a": 1, b"b": [3]}, LONGEST, True))
        self.assertNotEqual(searcher, Search([b"a", b"b"], LONGEST, True))
        with self.assertRaisesRegex(TypeError, "mapping is not saved"):
            searcher.save("/nowhere/words")

    def test_as_a_tuple(self):
        match = Search(["b"]).find("ab")
        pattern, *span = match
        self.assertEqual((pattern, *span, len(match), match[1], match[-1]), (0, 1, 2, 3, 1, 2))
        self.assertEqual((match, hash(match)), ((0, 1, 2), hash((0, 1, 2))))
        self.assertTrue(isinstance(match, tuple) and match < Match(0, 1, 3) and match == Match(0, end=2, start=1))
        self.assertEqual(("%d %d %d" % match, json.dumps([match])), ("0 1 2", "[[0, 1, 2]]"))
        self.assertEqual((match._fields, Match.__match_args__), (("pattern", "start", "end"),) * 2)
        for given in ((), (1, 2), ("a", 1, 2), (1, 2, 3, 4, 5, 6)):
            with self.assertRaises(TypeError):
                Match(*given)
        with self.assertRaises(TypeError):
            type("Own", (Match,), {})

    def test_copies(self):
        """They have what was matched, and neither the whole text nor the searcher."""
        match = Search({"ä": 5}).find("xä" + "-" * 100)
        for it in (copy.copy(match), copy.deepcopy(match), *(pickle.loads(pickle.dumps(match, i)) for i in range(5))):
            self.assertEqual((it, it.group(), it.value, it.span()), ((0, 1, 2), "ä", 5, (1, 2)))
        self.assertLess(len(pickle.dumps(match)), 90)
        self.assertEqual((Match(1, 2, 3).group(), Match(1, 2, 3).value), (None, None))
        self.assertEqual((Match(1, 2, 3, "x", 7).group(), Match(1, 2, 3, value=8).value), ("x", 8))


class Overlapping(unittest.TestCase):
    def test_rows(self):
        searcher = Search([b"aa", b"a", b"baa", b"a"])
        wanted = [(1, 1, 2), (3, 1, 2), (0, 1, 3), (1, 2, 3), (2, 0, 3), (3, 2, 3)]
        self.assertEqual(searcher.find_overlapping(b"baa"), wanted)
        self.assertEqual(Search(["ö🐍", "🐍", "ö"]).find_overlapping("äö🐍"), [(2, 1, 2), (0, 1, 3), (1, 2, 3)])
        self.assertEqual(Search([b"aA"], ignore_case=True).find_overlapping(b"AAa"), [(0, 0, 2), (0, 1, 3)])
        self.assertEqual(Search([]).find_overlapping("abc"), [])

    def test_words_at_the_cuts(self):
        piece, words = 2**20, [b"abcd", b"bc", b"abcdefgh", b"d", b"xbcd"]
        for at in range(-9, 3):
            text = bytearray(2 * piece + 100)
            text[piece + at : piece + at + 9] = b"abcdefghd"
            text[2 * piece + at : 2 * piece + at + 4] = b"xbcd"
            wanted = [(i, it.start(), it.end()) for i, word in enumerate(words) for it in re.finditer(word, text)]
            wanted.sort(key=lambda it: (it[2], it[0]))
            self.assertEqual(Search(words).find_overlapping(text), wanted)
            self.assertEqual(Search(words).count_overlapping(text), len(wanted))
            self.assertEqual(Search(words).find_earliest(text), wanted[0])

    def test_more_than_there_is_room_for(self):
        words = [b"a" * (i + 1) for i in range(300)] + [b"a"] * 300
        for size in (1, 2, 299, 300, 301, 1000):
            found = Search(words).find_overlapping(b"a" * size)
            fitting = [(i, at - len(word), at) for at in range(1, size + 1) for i, word in enumerate(words)]
            self.assertEqual(found, [it for it in fitting if it[1] >= 0])
            self.assertEqual(list(Search(words).finditer_overlapping(b"a" * size)), found)
            self.assertEqual(Search(words).count_overlapping(b"a" * size), len(found))
        self.assertEqual(len(Search([b"a", b"a" * 5000]).find_overlapping(b"a" * 300000)), 300000 + 295001)

    def test_the_earliest(self):
        """The first pieces are short: here their cuts are."""
        for longest, cuts in ((8, (4096, 12288, 28672)), (5000, (5000, 15000))):
            searcher = Search([b"abcdefgh", b"fgh", b"z" * longest])
            for cut in cuts:
                for at in range(-9, 2):
                    text = bytearray(cut + 10000)
                    text[cut + at : cut + at + 8] = b"abcdefgh"
                    end = cut + at + 8
                    self.assertEqual(searcher.find_earliest(text), (0, end - 8, end))
                    self.assertEqual(searcher.find_earliest(text, cut + at + 1), (1, end - 3, end))
                    self.assertIsNone(searcher.find_earliest(text, 0, end - 1))

    def test_one_earliest_after_another(self):
        chance = random.Random(1)
        for letters in ("ab", "äb"):
            for _ in range(200):
                words = ["".join(chance.choices(letters, k=chance.randint(1, 4))) for _ in range(3)]
                text, searcher = "".join(chance.choices(letters, k=20)), Search(words)
                found, at = [], 0
                while (match := searcher.find_earliest(text, at)) is not None:
                    found.append(match)
                    at = match.end
                self.assertEqual(list(searcher.finditer_earliest(text)), found, (words, text))

    def test_a_long_pattern(self):
        """A page lists again what lies in as many bytes as the longest pattern has, and must not do so for a few more.
        Changing the text tells where a page ends: what was found is still given."""
        size = 1 << 18
        for pattern in (b"b" * 131000, b"a" * 130999 + b"b"):
            searcher, given, pages = Search([b"a", pattern]), 0, 0
            while given < size and pages < 30:
                text = bytearray(b"a" * size)
                matches = searcher.finditer_overlapping(text)
                self.assertEqual(len(list(islice(matches, given + 1))), given + 1)
                text[:] = bytes(size)
                given, pages = given + 1 + len(list(matches)), pages + 1
            self.assertLess(pages, 30)
            self.assertEqual(searcher.count_overlapping(b"a" * size), size)

    def test_a_long_pattern_at_a_cut(self):
        """What stands in front of the cut tells how far back it may begin."""
        cut, pattern = 1 << 20, random.Random(3).randbytes(20000)
        for ignore_case, words in ((False, [pattern, pattern[5000:5600]]), (True, [pattern]), (False, [pattern, b"ab"])):
            searcher = Search(words, ignore_case=ignore_case)
            for before in (1, 510, 511, 512, 513, 5511, 5512, 19999, 20000):
                text = bytearray(cut + 30000)
                text[cut - before : cut - before + len(pattern)] = pattern
                found = [(it.pattern, it.start) for it in searcher.find_overlapping(text) if it.pattern == 0]
                self.assertEqual(found, [(0, cut - before)])
                self.assertEqual(searcher.count_overlapping(text), sum(text.count(it) for it in words))

    def test_size(self):
        searcher, longer = Search(["ab"]), Search(["ab" * 1000, "ä"])
        sizes = sys.getsizeof(searcher), sys.getsizeof(longer)
        self.assertGreaterEqual(sizes[0], len(searcher._prepared))
        self.assertGreaterEqual(sizes[1] - sizes[0], len(longer._prepared) - len(searcher._prepared) + 2000)
        longer.find_overlapping("")
        self.assertEqual(sys.getsizeof(longer) - sizes[1], sys.getsizeof(longer._for_all))
        self.assertTrue("ä" in longer and "ab" in searcher)
        self.assertGreater(sys.getsizeof(searcher), sizes[0] + 100)
        self.assertGreater(sys.getsizeof(Search.__new__(Search)), 0)

    def test_is_prepared_once(self):
        searcher = Search([b"ab", b"b", b"b"], ignore_case=True)
        self.assertIsNone(searcher._for_all)
        self.assertEqual(searcher.find_overlapping(b"AB"), [(0, 0, 2), (1, 1, 2), (2, 1, 2)])
        kept = searcher._for_all
        self.assertEqual(searcher.find_overlapping(b"xb"), [(1, 1, 2), (2, 1, 2)])
        self.assertIs(searcher._for_all, kept)
        self.assertIsNone(pickle.loads(pickle.dumps(searcher))._for_all)


def by_re(words, kind, text, start=0):
    """All whole words, by a regular expression: of equally long ones the first in the list."""
    order = sorted(range(len(words)), key=lambda i: -len(words[i])) if kind == LONGEST else range(len(words))
    one_of = "|".join(f"({re.escape(words[i])})" for i in order)
    found = re.compile(rf"(?<!\w)(?:{one_of})(?!\w)").finditer(text, start)
    return [(order[it.lastindex - 1], it.start(), it.end()) for it in found]


class Words(unittest.TestCase):
    """Whole words."""

    def test_rows(self):
        searcher = Search(["new york", "york"], ignore_case=True, whole_words=True)
        text = "New Yorkers like York and New York."
        self.assertEqual(searcher.findall(text), [(1, 17, 21), (0, 26, 34)])
        self.assertEqual(list(searcher.finditer(text, 18)), [(0, 26, 34)])
        self.assertEqual((searcher.find(text), searcher.count(text)), ((1, 17, 21), 2))
        self.assertEqual((searcher.is_match(text), searcher.is_match("Yorkers, 2york")), (True, False))
        self.assertEqual(searcher.sub("Rome", text), "New Yorkers like Rome and Rome.")
        self.assertEqual(searcher.split(text, 1), ["New Yorkers like ", " and New York."])
        self.assertEqual(searcher.findall_each(["York", "yorker"]), [[(1, 0, 4)], []])
        self.assertIsNone(Search([b"ab"], whole_words=True).find(b"xab", 1))  # (what is in front counts)

    def test_a_word_in_the_beginning_of_another(self):
        for kind, wanted in ((FIRST, [(0, 0, 2)]), (LONGEST, [(1, 0, 5)])):
            self.assertEqual(Search([b"ab", b"ab cd"], kind, whole_words=True).findall(b"ab cd"), wanted)
        self.assertEqual(Search([b"ab", b"ab cd"], whole_words=True).findall(b"abx ab cde"), [(0, 4, 6)])

    def test_random(self):
        chance = random.Random(8)
        for _ in range(4000):
            words = ["".join(chance.choices("ab _-é→", k=chance.randint(1, 4))) for _ in range(chance.randint(1, 4))]
            letters = chance.choice(["aabb  _-", "aabb  _-é→", "ab  é²ß→\u0301\u0663中😀𝐚"])
            text, kind = "".join(chance.choices(letters, k=chance.randint(0, 30))), chance.choice(list(Kind))
            searcher, start = Search(words, kind, whole_words=True), chance.randint(0, len(text))
            wanted = by_re(words, kind, text, start)
            self.assertEqual(searcher.findall(text, start), wanted, (words, text))
            self.assertEqual(searcher.find(text, start), wanted[0] if wanted else None, (words, text))

    def test_word_characters(self):
        searcher = Search(["lan"], whole_words=True)
        self.assertEqual(searcher.findall("élan lan→lan² lan"), [(0, 5, 8), (0, 14, 17)])
        self.assertEqual(list(searcher.finditer("élan lan→lan² lan", 6)), [(0, 14, 17)])
        self.assertEqual((searcher.find("élan", 1), searcher.find("lané", 0, 3)), (None, None))
        self.assertEqual(searcher.find("→lan→", 1, 4), (0, 1, 4))
        self.assertEqual(searcher.sub("-", "élan, lan"), "élan, -")
        every = "".join(map(chr, range(0x110000)))
        with_each = "".join(f"a{it} " for it in every)
        wanted = [i for i, it in enumerate(every) if not re.match(r"\w", it)]
        self.assertEqual([it.start // 3 for it in Search(["a"], whole_words=True).finditer(with_each)], wanted)
        searcher = Search(["ÉTÉ"], ignore_case=True, whole_words=True)
        self.assertEqual(searcher.findall("l'été, étés Été"), [(0, 2, 5), (0, 12, 15)])
        bytes_of = Search(["lan".encode()], whole_words=True)
        self.assertEqual(bytes_of.findall("élan".encode()), [(0, 2, 5)])

    def test_long_texts(self):
        for words in ([b"ab", b"abc d"], [b"ab" * 800, b"ab", b"abc d"]):
            searcher = Search(words, LONGEST, whole_words=True)
            self.assertEqual(searcher.count(b"abc d abx " * 250_000 + b"-ab"), 250_001)
            text = b"abx ab_ x " * 250_000 + b"ab"
            self.assertEqual(searcher.find(text), (words.index(b"ab"), 2_500_000, 2_500_002))
            for cut in range(1_048_570, 1_048_582):
                self.assertEqual(searcher.findall(b" " * cut + b"abc d"), [(words.index(b"abc d"), cut, cut + 5)])
        searcher = Search([b"ab", b"cd", b"ab cd"], LONGEST, whole_words=True)
        for cut in range(1_048_570, 1_048_582):
            self.assertEqual(searcher.findall(b" " * cut + b"ab cd" + b" " * 64), [(2, cut, cut + 5)])

    def test_long_texts_beyond_ascii(self):
        searcher = Search(["abc d", "ab"], whole_words=True)
        for piece in (4096, 3 * 4096, 7 * 4096, 2**20):
            for spaces in range(piece - 10, piece + 4):
                text = "é" + " " * spaces
                self.assertEqual(searcher.find(text + "abc dé abc d"), (0, spaces + 8, spaces + 13))
                self.assertEqual(searcher.findall(text + "éab ab→ab²"), [(1, spaces + 5, spaces + 7)])
                self.assertEqual(searcher.find(text + "→ab→" + "é" * 9000, 9), (1, spaces + 2, spaces + 4))

    def test_copies(self):
        searcher = Search(["ab", "a"], LONGEST, True, True)
        self.assertEqual(repr(searcher), "Search(['ab', 'a'], Kind.LEFTMOST_LONGEST, ignore_case=True, whole_words=True)")
        with tempfile.TemporaryDirectory() as room:
            searcher.save(f"{room}/words")
            loaded = Search.load(f"{room}/words")
        for copied in (loaded, copy.copy(searcher), pickle.loads(pickle.dumps(searcher)), eval(repr(searcher))):
            self.assertEqual((copied, copied.whole_words), (searcher, True))
            self.assertEqual(copied.findall("aba AB"), [(0, 4, 6)])
        self.assertNotEqual(searcher, Search(["ab", "a"], LONGEST, True))
        self.assertFalse(Search(["ab"]).whole_words)

    def test_what_has_no_words(self):
        searcher = Search(["a"], whole_words=True)
        for call in (searcher.find_overlapping, searcher.count_overlapping, searcher.finditer_overlapping,
                     searcher.find_earliest, searcher.finditer_earliest):
            why = "whole words has no calls for overlapping or earliest occurrences: .* characters beside an occurrence"
            with self.assertRaisesRegex(ValueError, why):
                call("a")


class Replacing(unittest.TestCase):
    def test_one(self):
        self.assertEqual(Search(WORDS).sub(b"-", TEXT), b"Nobody likes - in their - flavored -.")
        self.assertEqual(Search(WORDS).sub(bytearray(b"-"), bytearray(TEXT), 1), TEXT.replace(b"maple", b"-"))
        self.assertEqual(Search([b"a"]).sub(b"b", b""), b"")
        self.assertEqual(Search(["ö", "🐍"]).subn("-", "äöü🐍ö", 2), ("ä-ü-ö", 2))
        self.assertEqual(Search([b"a"]).subn(b"", b"banana"), (b"bnn", 3))
        self.assertEqual(Search([b"a"]).sub(text=b"banana", replacement=b"o", count=1), b"bonana")

    def test_long_texts(self):
        for text, word in ("xä🐍a" * 20000, "🐍"), (b"xab" * 20000, b"a"), ("xab" * 20000, "ab"):
            for new in (word[:0], word[:1] * 5):
                self.assertEqual(Search([word]).sub(new, text), text.replace(word, new))
            self.assertEqual(Search([word]).split(text), text.split(word))

    def test_long_texts_of_ascii(self):
        """The answer need not be ASCII, which may turn out late."""
        text = "xab" * 5000
        for new in "é", "🐍ab", "", "-" * 7:
            for count in (1, 5000):
                self.assertEqual(Search(["ab"]).sub(new, text, count), text.replace("ab", new, count))
                self.assertEqual(Search(["ab"]).sub(lambda _: new, text, count), text.replace("ab", new, count))
        for at, new in (0, "-"), (1, "+"), (100, "*"), (4999, "/"):  # (so old memory has none of it)
            news = iter([new if it != at else "é" for it in range(5000)])
            wanted = f"x{new}" * at + "xé" + f"x{new}" * (4999 - at)
            self.assertEqual(Search(["ab"]).sub(lambda _: next(news), text), wanted)
        self.assertEqual(Search(["x", "ab"]).sub(["yz", "é"], text), "yzé" * 5000)
        self.assertEqual(Search(["x", "ab"]).sub(["", ""], text), "")
        self.assertEqual(Search([b"x", b"ab"]).sub([b"", b""], text.encode()), b"")

    def test_lone_surrogates_in_a_replacement(self):
        self.assertEqual(Search(["a"]).sub("\ud83d\udc0d", "xaä"), "x\ud83d\udc0dä")
        self.assertEqual(Search(["a"]).sub(lambda it: "\udfff", "aa", 1), "\udfffa")

    def test_by_a_function(self):
        self.assertEqual(Search([b"a"]).sub(lambda it: b"%d" % it.start, b"abca"), b"0bc3")
        self.assertEqual(Search(["ö"]).sub(lambda it: str(it.start), "äöö"), "ä12")
        self.assertEqual(Search(["b", "Ä"]).sub(lambda it: it.group() * 2, "aÄb"), "aÄÄbb")

    def test_by_the_pattern(self):
        searcher = Search(["cat", "dog"])
        self.assertEqual(searcher.sub(["dog", "cat"], "dogcat"), "catdog")
        self.assertEqual(searcher.sub(("x", "y"), "dogcat", count=1), "ycat")
        for replacements in ([], ["a"], ["a"] * 3):
            with self.assertRaisesRegex(ValueError, "for 2 patterns"):
                searcher.sub(replacements, "no pet")

    def test_of_the_other_type(self):
        for text, replacement in ((b"a", "b"), ("a", b"b"), ("a", 5), (b"a", 5), ("a", None)):
            searcher = Search([text])
            for given in (replacement, [replacement], lambda it: replacement):
                with self.assertRaisesRegex(TypeError, "^a replacement is "):
                    searcher.sub(given, text)
            with self.assertRaises(TypeError):
                searcher.sub(replacement, text[:0])

    def test_subclasses(self):
        """Of their methods none is called, and no answer is of a subclass."""
        for kind, text, words in ((str, Loud("bana"), (Loud("a"), "o", "x")),
                                  (bytes, LoudBytes(b"bana"), (LoudBytes(b"a"), b"o", b"x"))):
            pattern, other, nowhere = words
            searcher, nothing = Search([pattern]), Search([nowhere])
            answers = searcher.split(text), [searcher.sub(other, text)], nothing.split(text), [nothing.sub(other, text)]
            wanted = (["b", "n", ""], ["bono"], ["bana"], ["bana"])
            self.assertEqual([[it if kind is str else it.decode() for it in answer] for answer in answers], [*wanted])
            self.assertEqual({type(it) for answer in answers for it in answer}, {kind})

    def test_counts(self):
        for call in (lambda it: Search([b"a"]).sub(b"", b"a", it), lambda it: Search([b"a"]).split(b"a", it)):
            with self.assertRaises(TypeError):
                call(1.5)
            with self.assertRaisesRegex(ValueError, "negative"):
                call(-1)

    def test_a_text_that_its_function_changes(self):
        text = bytearray(b"a1a2a3" * 100)

        def change(match):
            text[match.end :] = b"zz"
            return b"-"

        self.assertEqual(Search([b"a"]).sub(change, text), b"-1-2-3" * 100)
        self.assertTrue(text.startswith(b"azz"))


class Refusals(unittest.TestCase):
    def test_empty_patterns(self):
        for patterns, index in (([b""], 0), ([b"a", b""], 1), ([b""] * 129, 0), ([""], 0), (["é", "a", "", ""], 2),
                                ({"a": 1, "": 2}, 1)):
            for kind in Kind:
                for ignore_case in (False, True):
                    with self.assertRaisesRegex(ValueError, f"the one at index {index} is empty"):
                        Search(patterns, kind, ignore_case)

    def test_patterns_of_two_types(self):
        with self.assertRaisesRegex(TypeError, "partly"):
            Search(["a", b"b"])

    def test_texts_of_the_other_type(self):
        for pattern, text, word in ((b"a", "a", "encode"), ("a", b"a", "decode"), ("a", bytearray(b"a"), "array: ")):
            it = Search([pattern])
            for call in (it.find, it.findall, it.finditer, it.count, it.is_match, it.find_overlapping, it.split,
                         it.find_earliest, it.finditer_overlapping, it.count_overlapping, lambda text: it.sub("", text)):
                with self.assertRaisesRegex(TypeError, word):
                    call(text)
            with self.assertRaisesRegex(TypeError, word):
                it.find_each([text])

    def test_lone_surrogates(self):
        with self.assertRaisesRegex(ValueError, "lone surrogate"):
            Search(["a\ud800"])

    def test_an_array_of_objects_is_a_list(self):
        searcher, words = Search((ctypes.py_object * 2)("a", "b")), (ctypes.py_object * 2)("xb", "x")
        self.assertEqual(searcher.patterns, ("a", "b"))
        self.assertEqual(searcher.find_each(words), [(1, 1, 2), None])

    def test_one_text_for_a_list(self):
        for text in ("ab", "", b"ab", b"", bytearray(b"ab"), memoryview(b"ab")):
            of_bytes = Search([b"a"])
            for call in (Search, of_bytes.find_each, of_bytes.findall_each, of_bytes.count_each):
                with self.assertRaisesRegex(TypeError, "not one text"):
                    call(text)

    def test_kinds(self):
        with self.assertRaisesRegex(TypeError, "bool"):
            Search([b"a"], True)
        with self.assertRaises(ValueError):
            Search([b"a"], kind=2)

    def test_arguments(self):
        searcher = Search([b"a"])
        for given, named in (((b"",), {}), ((b"", b"", 0, 1), {}), ((b"",), {"replacement": b""}), ((b"", 5), {}),
                             ((), {"text": b""}), ((b"", b""), {"maxsplit": 1}), ((b"", b"", None), {})):
            for call in (searcher.sub, searcher.subn):
                with self.assertRaises(TypeError):
                    call(*given, **named)
        for given, named in (((), {}), ((b"", 1, 2), {}), ((b"",), {"count": 1}), ((b"", b""), {}), ((5,), {})):
            with self.assertRaises(TypeError):
                searcher.split(*given, **named)
        for call in (searcher.find, searcher.findall, searcher.finditer, searcher.count, searcher.is_match,
                     searcher.findall_strings, searcher.find_columns,
                     searcher.find_overlapping, searcher.find_earliest, searcher.finditer_overlapping,
                     searcher.count_overlapping):
            for given, named in (((), {}), ((b"", 0, 1, 2), {}), ((b"",), {"text": b""}), ((b"",), {"pos": 1}),
                                 ((5,), {}), ((None,), {}), ((b"", 1.5), {}), ((b"",), {"end": "1"}), (([b"a"],), {})):
                with self.assertRaises(TypeError):
                    call(*given, **named)
        for it in (5, None, [], (ctypes.py_object * 2)("a", "b")):
            with self.assertRaisesRegex(TypeError, "^a pattern is a str or lends plain bytes, and "):
                Search([it])
        with self.assertRaises(TypeError):
            Search(5)


class Random(unittest.TestCase):
    """Against the plain search, with a seed: short patterns over few letters, so that much overlaps."""

    def cases(self, letters, count):
        chance = random.Random(1)

        def text(longest):
            return letters[0][:0].join(chance.choice(letters) for _ in range(chance.randint(0, longest)))

        for case in range(count):
            patterns = [text(3) or letters[0] for _ in range(chance.randint(1, 4))]
            longest, ignore_case = chance.random() < 0.5, chance.random() < 0.5
            haystack = text(3 if case % 2 else 24)
            start, end = sorted((chance.randint(0, len(haystack)), chance.randint(0, len(haystack))))
            searcher = Search(patterns, Kind(longest), "ascii" if ignore_case else False)
            asked = (patterns, longest, ignore_case, haystack, start, end)
            self.assertEqual(searcher.find(haystack, start, end), plain.find(*asked), asked)
            self.assertEqual(searcher.findall(haystack, start, end), plain.find_all(*asked), asked)
            wanted = plain.find_overlapping(patterns, *asked[2:])
            self.assertEqual(searcher.find_overlapping(haystack, start, end), wanted, asked)
            self.assertEqual(searcher.find_earliest(haystack, start, end), (*wanted, None)[0], asked)
            if case % 16 == 0:
                texts = [haystack, haystack[:0], haystack[start:]]
                wanted = [plain.find(*asked[:3], it, 0, len(it)) for it in texts]
                self.assertEqual(searcher.find_each(texts), wanted, asked)

    def test_bytes(self):
        self.cases([bytes([it]) for it in b"abAB\xc3"], 10000)

    def test_str(self):
        self.cases(list("aAäÄ€🐍"), 10000)


class Pieces(unittest.TestCase):
    """Long texts, which are searched in pieces of 1 MiB, against `re`."""

    PIECE = 2**20

    def compared(self, words, kind, text):
        """The matches, compared with those of `re`."""
        ordered = sorted(words, key=lambda it: -len(it)) if kind == LONGEST else words
        either = "|".join(ordered) if isinstance(text, str) else b"|".join(ordered)
        return self.found(words, kind, text, [(words.index(it[0]), *it.span()) for it in re.finditer(either, text)])

    def found(self, words, kind, text, wanted):
        """The matches, which have to be the wanted ones."""
        searcher = Search(words, kind)
        self.assertEqual(searcher.findall(text), wanted)
        self.assertEqual(searcher.count(text), len(wanted))
        self.assertEqual(searcher.find(text), (*wanted, None)[0])
        return wanted

    def test_words_at_the_cuts(self):
        words = [b"abcd", b"bc", b"abcdefgh", b"efgh", b"h"]
        for at in range(-9, 3):
            for kind in Kind:
                for word in words:
                    text = bytearray(2 * self.PIECE + 64)
                    for cut in (self.PIECE, 2 * self.PIECE):
                        text[cut + at : cut + at + len(word)] = word
                    self.assertGreaterEqual(len(self.compared(words, kind, bytes(text))), 2)

    def test_one_letter(self):
        text = b"eaxe" * (self.PIECE // 2 + 5)
        for words in [b"e"], [b"a", b"e"], [b"q"]:
            self.assertEqual(Search(words).count(text), sum(map(text.count, words)))
        self.assertEqual(Search([b"E"], ignore_case=True).count(text, 3), text.count(b"e", 3))
        self.assertEqual(Search([b"e"], whole_words=True).count(b"e " * self.PIECE + b"ee"), self.PIECE)
        self.assertEqual(Search(["ä"]).count("aä" * self.PIECE), self.PIECE)

    def test_many_matches(self):
        chance = random.Random(4)
        text = b"".join(chance.choices((b"ab", b"abc", b"b", b"cab", b"x" * 7), k=600000))
        for kind in Kind:
            self.compared([b"ab", b"abc", b"bx", b"xxb"], kind, text)

    def test_str(self):
        text = "ä" * (self.PIECE // 2 - 1) + "🐍b" + "€" * self.PIECE + "b🐍"
        for words in (["🐍b"], ["b"], ["🐍", "b"]):
            self.assertGreater(len(self.compared(words, FIRST, text)), 0)

    def test_a_long_word_that_breaks_off(self):
        """At each match the long word could begin too. It stands behind the cut alone."""
        wanted = [(1, at, at + 1) for at in range(self.PIECE + 400)] + [(0, self.PIECE + 400, self.PIECE + 501)]
        for kind in Kind:
            self.found([b"a" * 100 + b"b", b"a"], kind, b"a" * (self.PIECE + 500) + b"b", wanted)

    def test_a_pattern_longer_than_a_piece(self):
        pattern = b"x" * (self.PIECE + self.PIECE // 2)
        text = b"a" + b"x" * 100 + b"y" + b"\0" * self.PIECE + pattern + b"b"
        searcher = Search([pattern, b"b", b"x" * 101])
        start = len(text) - len(pattern) - 1
        self.assertEqual(searcher.findall(text), [(0, start, len(text) - 1), (1, len(text) - 1, len(text))])
        self.assertEqual(searcher.find(text, start), (0, start, len(text) - 1))
        self.assertEqual(searcher.find(text, start + 1), (2, start + 1, start + 102))


class Linear(unittest.TestCase):
    def test_no_pattern_spoils_the_time(self):
        """One search after another looks up 1,000 bytes behind each match. With short patterns alone the time is the
        same (two of them, since one byte alone is counted in another way); the least of some is taken, since other work
        on the machine can take much of one."""
        short, long, text = Search([b"a", b"b"]), Search([b"a" * 1000 + b"b", b"a"]), b"a" * (1 << 20)
        for call in (long.count, lambda it: len(long.findall(it)), lambda it: len(long.split(it)) - 1,
                     lambda it: long.subn(b"", it)[1], lambda it: sum(1 for _ in long.finditer(it))):
            self.assertEqual(call(text), len(text))

        def time_of(searcher):
            began = time.process_time()
            searcher.count(text)
            return time.process_time() - began

        self.assertLess(min(time_of(long) for _ in range(5)), 6 * min(time_of(short) for _ in range(5)))


if __name__ == "__main__":
    unittest.main()
