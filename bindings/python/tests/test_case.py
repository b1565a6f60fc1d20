"""Case beyond ASCII is ignored, with offsets in the text as it is."""
import copy
import io
import pickle
import random
import re
import tempfile
import unittest
from pathlib import Path

from literal_search import Kind, Search

from shared import tearDownModule

TEXT = "Это ПРИМЕР, Été ÉTÉ; Σίσυφος."


class Name(str):
    """A subclass, as the strings of numpy are. Python has its characters elsewhere than those of a str."""


class Case(unittest.TestCase):
    def setUp(self):
        self.searcher = Search(["пример", "ÉTÉ", "ΣΊΣ"], ignore_case=True)

    def test_matches_show_the_text(self):
        matches = list(self.searcher.finditer(TEXT))
        self.assertEqual([it.group() for it in matches], ["ПРИМЕР", "Été", "ÉTÉ", "Σίσ"])
        self.assertEqual(matches, [(0, 4, 10), (1, 12, 15), (1, 16, 19), (2, 21, 24)])
        self.assertEqual(self.searcher.findall_strings("été пример"), ["été", "пример"])
        self.assertEqual(self.searcher.find(TEXT, 11, -8), (1, 12, 15))
        self.assertEqual(self.searcher.count(TEXT), 4)
        self.assertEqual(self.searcher.find_overlapping(TEXT), matches)
        self.assertEqual(self.searcher.find_each(["ÉTÉ", "ete"]), [(1, 0, 3), None])

    def test_what_is_not_replaced_stays(self):
        self.assertEqual(self.searcher.sub(["пр", "an", ""], TEXT), "Это пр, an an; υφος.")
        self.assertEqual(self.searcher.split("ÄÉtÉÖпримерΩ"), ["Ä", "Ö", "Ω"])
        self.assertEqual(self.searcher.sub("-", "ÄÖ"), "ÄÖ")

    def test_no_text_changes(self):
        """Nor does an object of one character or byte, which Python shares, also where an answer is one."""
        for character in map(chr, range(256)):
            for text in (character, Name(character), Name(character * 2)):
                for call in (self.searcher.find, self.searcher.count, self.searcher.findall_strings,
                             self.searcher.find_overlapping, self.searcher.split, lambda it: self.searcher.sub("", it)):
                    call(text)
                self.assertEqual(Search(["--"]).sub("", f"--{character}"), character)
                self.assertEqual(Search([b"--", text.encode()]).sub(bytearray(b"A"), text.encode()), b"A")
        tearDownModule()

    def test_streams(self):
        self.assertEqual(self.searcher.count_stream(io.StringIO(TEXT * 9999)), 4 * 9999)
        out = io.StringIO()
        self.searcher.sub_stream(io.StringIO("Ä " + TEXT), out, "-")
        self.assertEqual(out.getvalue(), "Ä Это -, - -; -υφος.")

    def test_whole_words(self):
        searcher = Search(["été"], ignore_case=True, whole_words=True)
        self.assertEqual(searcher.findall("ÉTÉs, É ÉTÉ"), [(0, 8, 11)])

    def test_other_characters_stay(self):
        for other in "\u212a\u017f\u1e9e":  # (whose foldings have fewer bytes)
            self.assertFalse(Search([other], ignore_case=True).is_match(other.casefold()))
            self.assertTrue(Search([other], ignore_case=True).is_match(other))
        self.assertEqual(self.searcher.find("\udcff ÉTÉ"), (1, 2, 5))
        self.assertTrue(Search(["\U00010400"], ignore_case=True).is_match("\U00010428"))  # (re does not find it)

    def test_ascii_alone(self):
        for searcher in (Search(["éa"], ignore_case="ascii"), Search(["éa".encode()], ignore_case=True)):
            text = "ÉA éA" if searcher.ignore_case == "ascii" else "ÉA éA".encode()
            self.assertEqual(searcher.find(text).pattern, 0)
            self.assertEqual(searcher.count(text), 1)
        self.assertIs(Search([b"a"], ignore_case="ascii").ignore_case, True)
        self.assertIs(Search(["a"], ignore_case=2).ignore_case, True)
        with self.assertRaisesRegex(ValueError, "ignore_case is True, False or \"ascii\", and not 'ASCII'"):
            Search(["a"], ignore_case="ASCII")

    def test_copies_and_files(self):
        searchers = [Search(["Été"], Kind.LEFTMOST_LONGEST, case) for case in (False, True, "ascii")]
        self.assertEqual(len(set(searchers)), 3)
        for searcher in searchers:
            with tempfile.TemporaryDirectory() as room:
                searcher.save(Path(room, "kept"))
                loaded = Search.load(Path(room, "kept"))
            pickled = [pickle.loads(pickle.dumps(searcher, it)) for it in (2, 5)]
            for other in (copy.copy(searcher), loaded, *pickled, eval(repr(searcher))):
                self.assertEqual(other, searcher)
                self.assertIs(type(other.ignore_case), type(searcher.ignore_case))
                self.assertEqual(other.findall("Été ÉTÉ ÉtÉ ÉTé"), searcher.findall("Été ÉTÉ ÉtÉ ÉTé"))
        self.assertEqual([it.count("Été éTé ÉTÉ") for it in searchers], [1, 3, 1])

    def test_random_as_re_does(self):
        chance = random.Random(7)
        letters = "aAbБбÉéßяЯσΣςΔδж €"
        for _ in range(400):
            words = ["".join(chance.choices(letters, k=chance.randint(1, 3))) for _ in range(chance.randint(1, 4))]
            text = "".join(chance.choices(letters, k=chance.randint(0, 60)))
            wanted = [it.span() for it in re.finditer("|".join(map(re.escape, words)), text, re.IGNORECASE)]
            found = Search(words, ignore_case=True).findall(text)
            self.assertEqual([it.span() for it in found], wanted, (words, text))


if __name__ == "__main__":
    unittest.main()
