"""A searcher as a collection of its patterns, and the values of a mapping."""
import unittest
from io import StringIO

from literal_search import Kind, Search

from shared import tearDownModule


class Loud(str):
    """One whose methods aren't those of a str."""

    def encode(self, *_):
        raise AssertionError("nobody calls this")

    __getitem__ = join = __iter__ = __add__ = __str__ = encode


class Collection(unittest.TestCase):
    """A searcher as a collection of its patterns."""

    def test_in_order(self):
        for words in (["b", "a", "b", "ä"], [b"b", b"a"], [], {"x": 1, "a": 2}, [Loud("b"), "a"]):
            searcher = Search(words)
            self.assertEqual((len(searcher), list(searcher), bool(searcher)), (len(words), list(words), bool(words)))
            self.assertTrue(all(it is other for it, other in zip(searcher, searcher.patterns)))
            self.assertEqual(Search(searcher), Search(searcher.patterns))

    def test_contains(self):
        for settings in ({}, {"ignore_case": True}, {"whole_words": True}):
            of_str = Search(["apple", "É", Loud("b")], **settings)
            of_bytes = Search([b"apple", bytearray(b"\xff")], **settings)
            for _ in range(2):
                self.assertEqual([it in of_str for it in ("apple", "É", "b", Loud("apple"), "APPLE", "é", "app", "")],
                                 [True] * 4 + [False] * 4)
                self.assertEqual([it in of_bytes for it in (b"apple", bytearray(b"apple"), b"\xff", b"APPLE", b"")],
                                 [True] * 3 + [False] * 2)
                for other in (5, None, [], ("apple",), {}):
                    self.assertFalse(other in of_str or other in of_bytes)
                self.assertFalse(b"apple" in of_str or "apple" in of_bytes)
        self.assertFalse("" in Search([]) or b"" in Search([]))

    def test_many(self):
        words = [f"{it}w" for it in range(50000)]
        searcher = Search(words)
        self.assertTrue(all(it in searcher for it in words))
        self.assertFalse(any(f"{it}v" in searcher for it in range(50000)))

    def test_repr_of_many(self):
        many = Search([f"{it}\n" for it in range(1000)], Kind.LEFTMOST_LONGEST, True, True)
        self.assertEqual(repr(many), r"<Search of 1000 patterns: '0\n', '1\n', '2\n', ...; Kind.LEFTMOST_LONGEST, "
                                      "ignore_case=True, whole_words=True>")
        settings = "Kind.LEFTMOST_FIRST, ignore_case=False"
        self.assertEqual(repr(Search([b"\xff" * 200])), f"<Search of 1 pattern: {bytes([255]) * 20!r}...; {settings}>")
        first = f"'{'a' * 20}', '{'b' * 20}'..., '{'c' * 20}'..., ..."
        cut = Search([Loud("a" * 20), "b" * 21, "c" * 80, "d"])
        self.assertEqual(repr(cut), f"<Search of 4 patterns: {first}; {settings}>")
        for words in ([], ["é\n"], [b"a" * 12] * 7, {"a": "b" * 90}):
            self.assertEqual(eval(repr(Search(words))), Search(words))
        searcher = Search({"a": "b" * 200, "c": 1})
        self.assertEqual(repr(searcher), f"<Search of 2 patterns: 'a', 'c'; {settings}>")

        class Lines(str):
            def __repr__(self):
                return "two\nlines"

        for words in ({"a": Lines()}, [Lines("a")], [str(it) for it in range(9)], ["x" * 121]):
            self.assertRegex(repr(Search(words)), "^<Search of [0-9]+ patterns?: '.*>$")


class Values(unittest.TestCase):
    def test_replacing(self):
        searcher = Search({"cat": "dog", "dog": "", "bird": Loud("é")}, ignore_case=True)
        for _ in range(2):
            self.assertEqual(searcher.values, ("dog", "", "é"))
            self.assertEqual(searcher.sub(searcher.values, "a Cat, dog, BIRD"), "a dog, , é")
            self.assertEqual(searcher.subn(searcher.values, "dog bird", 1), (" bird", 1))
            searcher.sub_stream(StringIO("cat bird"), out := StringIO(), searcher.values)
            self.assertEqual(out.getvalue(), "dog é")
        searcher = Search({b"a": bytearray(b"x")})
        self.assertEqual(searcher.sub(searcher.values, b"ba"), b"bx")
        searcher.values[0][:] = b"longer"
        self.assertEqual(searcher.sub(searcher.values, b"ba"), b"blonger")
        searcher = Search(["Apple", "é"], ignore_case=True)
        self.assertIs(searcher.values, searcher.patterns)
        self.assertEqual(searcher.sub(searcher.values, "APPLE É"), "Apple é")
        self.assertEqual(Search({}).sub(Search({}).values, "a"), "a")

    def test_by_values_that_are_no_texts(self):
        for text, values in (("a", ["x", 5]), ("a", ["x", b"y"]), (b"a", [b"x", "y"]), ("a", [None, None])):
            searcher = Search(dict(zip([text, text + text], values)))
            for _ in range(2):  # (also if it matches none of them)
                for given in text, text[:0]:
                    with self.assertRaisesRegex(TypeError, "^a replacement is (str|bytes) as the text is, not "):
                        searcher.sub(searcher.values, given)

    def test_values_of_columns(self):
        for words, wanted in (({"b": 5, "a": None}, [None, 5, None]), (["b", "a"], ["a", "b", "a"])):
            searcher = Search(words)
            self.assertEqual([searcher.values[it] for it in searcher.find_columns("abca")[0]], wanted)


if __name__ == "__main__":
    unittest.main()
