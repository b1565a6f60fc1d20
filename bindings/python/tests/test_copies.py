"""Copies of searchers: by pickle, of subclasses, and in files."""
import copy
import os
import pickle
import tempfile
import time
import unittest
import weakref
from pathlib import Path
from types import SimpleNamespace
from unittest import mock

import literal_search
from literal_search import Kind, Search

from shared import tearDownModule

WORDS = [b"apple", b"maple", b"Snapple"]
FIRST, LONGEST = Kind.LEFTMOST_FIRST, Kind.LEFTMOST_LONGEST


class Named(Search):
    """A subclass with an __init__ and an attribute of its own, for the tests of copies."""

    def __init__(self, name, *words):
        super().__init__(words, LONGEST, ignore_case=True)
        self.name = name


class Slotted(Search):
    """A subclass without a dictionary."""

    __slots__ = ("name", "__hidden", "unset")

    def __init__(self, name, hidden):
        super().__init__([b"a"])
        self.name, self.__hidden = name, hidden

    def values(self):
        return self.name, self.__hidden, hasattr(self, "unset")


class Wrong(str):
    """A str that is encoded otherwise by its own method."""

    def encode(self, *_):
        return b"wrong"


class Both(Slotted):
    """One with slots and a dictionary."""


class Copies(unittest.TestCase):
    def test_by_pickle(self):
        for words in ([b"AB"], ["ÄB"], []):
            for protocol in range(pickle.HIGHEST_PROTOCOL + 1):
                searcher = Search(words, LONGEST, True)
                copied = pickle.loads(pickle.dumps(searcher, protocol))
                self.assertEqual((copied.patterns, copied.kind, copied.ignore_case), (tuple(words), LONGEST, True))
                self.assertEqual({copied}, {searcher})
                text = words[0].lower() if words else ""
                self.assertEqual(copied.findall(text), searcher.findall(text))

    def test_by_pickle_out_of_band(self):
        """What is prepared is kept. It is made anew if it is damaged or has another number of patterns."""
        for searcher in (Search(["ÄB", "b"], LONGEST, True), Search({b"AB": 1, b"C": 2}), Named("x", b"ab", b"AC")):
            buffers = []
            pickled = pickle.dumps(searcher, 5, buffer_callback=buffers.append)
            self.assertEqual([bytes(it) for it in buffers], [searcher._prepared])
            self.assertLess(len(pickled), 300)
            with mock.patch.object(literal_search, "_begin", wraps=literal_search._begin) as begin:
                for kept in (buffers, [bytearray(searcher._prepared)]):
                    copied = pickle.loads(pickled, buffers=kept)
                    self.assertEqual((copied, copied._prepared), (searcher, searcher._prepared))
                self.assertEqual([it.args[-1] for it in begin.call_args_list], [searcher._prepared] * 2)
            for other in (b"", b"\0" * 64, Search(["a"])._prepared):
                copied = pickle.loads(pickled, buffers=[other])
                self.assertEqual((copied, copied._prepared), (searcher, searcher._prepared))

    def test_a_token(self):
        """It is equal for equal searchers of one class with equal attributes, and for no others."""
        searchers = [Search(["a", "b"]), Search(["a"]), Search([b"a"]), Search({"a": 1}), Search({"a": 2}),
                     Search(["a"], LONGEST), Search(["a"], ignore_case=True), Search(["a"], whole_words=True),
                     Named("x", b"a"), Named("y", b"a"), Slotted("x", 5), Slotted("x", 6)]
        for i, first in enumerate(searchers):
            tokens = [repr(it.__dask_tokenize__()) for it in searchers]
            self.assertEqual(tokens.index(repr(pickle.loads(pickle.dumps(first)).__dask_tokenize__())), i)

    def test_of_a_subclass(self):
        named = Named("x", b"ab", b"AC")
        for copied in (copy.copy(named), copy.deepcopy(named), pickle.loads(pickle.dumps(named, 0))):
            self.assertIs(type(copied), Named)
            self.assertEqual((copied.name, copied.find(b"ac"), copied), ("x", (1, 0, 2), named))
        self.assertEqual(repr(named), "Named([b'ab', b'AC'], Kind.LEFTMOST_LONGEST, ignore_case=True)")
        self.assertIs(weakref.ref(named)(), named)

    def test_of_a_subclass_with_slots(self):
        for kind in (Slotted, Both):
            slotted = kind("x", 5)
            for copied in (copy.copy(slotted), copy.deepcopy(slotted), pickle.loads(pickle.dumps(slotted))):
                self.assertEqual((type(copied), copied.values()), (kind, ("x", 5, False)))
        slotted.other = 1
        for it in (slotted, Slotted("y", 6), Named("x", b"a"), Search([])):
            own = getattr(it, "__getstate__", lambda: literal_search._state(it))()
            self.assertEqual(literal_search._state(it), own)  # (what Python 3.11 answers, for 3.10)

    def test_comparing(self):
        searcher = Search([b"a"])
        self.assertEqual(eval(repr(searcher)), searcher)
        for given in (([b"b"],), (["a"],), ([b"a"], LONGEST), ([b"a"], FIRST, True)):
            self.assertNotEqual(searcher, Search(*given))
        self.assertIs(Search.__eq__(searcher, 5), NotImplemented)
        self.assertEqual(hash(searcher), hash(Search([bytearray(b"a")])))

    def test_a_searcher_never_changes(self):
        searcher = Search([b"a"])
        for name in ("patterns", "kind", "ignore_case", "whole_words"):
            with self.assertRaises(AttributeError):
                setattr(searcher, name, getattr(searcher, name))
        with self.assertRaisesRegex(RuntimeError, "never changes"):
            searcher.__init__([b"b"])
        self.assertTrue(searcher.is_match(b"a"))

    def test_without_init(self):
        empty = Search.__new__(Search)
        for call in (empty.find, empty.findall, empty.finditer, empty.count, empty.split, empty.find_overlapping):
            with self.assertRaisesRegex(RuntimeError, "__init__"):
                call(b"a")
        for call in (len, iter, list, bool, lambda it: b"a" in it):
            with self.assertRaisesRegex(RuntimeError, "__init__"):
                call(empty)


class Files(unittest.TestCase):
    def setUp(self):
        room = tempfile.TemporaryDirectory()
        self.addCleanup(room.cleanup)
        self.path = Path(room.name, "a file")

    def test_saved(self):
        for words in (WORDS, ["äpple", "ma\ud7ffple"], []):
            for kind in Kind:
                for ignore_case in (False, True):
                    searcher = Search(words, kind, ignore_case)
                    searcher.save(self.path)
                    loaded = Search.load(str(self.path))
                    self.assertEqual(loaded, searcher)
                    text = words[0] if words else ""
                    self.assertEqual(loaded.findall(text + text.upper()), searcher.findall(text + text.upper()))
        self.assertEqual([it.name for it in self.path.parent.iterdir()], [self.path.name])

    def test_of_patterns_of_a_subclass(self):
        Search([Wrong("äb")]).save(self.path)
        self.assertEqual(Search.load(self.path), Search(["äb"]))

    def test_each_damaged_byte_is_noticed(self):
        Search([b"ab"]).save(self.path)
        whole = self.path.read_bytes()
        # (a file that is truncated and written anew each time costs far more)
        with open(self.path, "r+b", buffering=0) as file:
            for at, byte in enumerate(whole):
                os.pwrite(file.fileno(), bytes([byte ^ 1]), at)
                with self.assertRaisesRegex(ValueError, "a file"):
                    Search.load(self.path)
                os.pwrite(file.fileno(), bytes([byte]), at)
        self.assertEqual(Search.load(self.path), Search([b"ab"]))
        for end in (0, 1, 60, len(whole) - 1):
            self.path.write_bytes(whole[:end])
            with self.assertRaisesRegex(ValueError, "damaged"):
                Search.load(self.path)

    def test_a_damaged_search_in_a_sound_file(self):
        """The sum of the file is right, and the library finds what is wrong; or the search is for other patterns, or of
        another kind."""
        searcher = Search([b"ab"])
        whole = literal_search._written(searcher)
        places = literal_search._HEAD.size, literal_search._HEAD.size + len(searcher._prepared) - 1
        files = [whole[:at] + bytes([whole[at] ^ 1]) + whole[at + 1 :] for at in places]
        for other in (Search([b"ab", b"cd"]), Search([b"abc"]), Search([b"ab"], LONGEST)):
            given = {"patterns": (b"ab",), "kind": FIRST, "ignore_case": False, "whole_words": False}
            files.append(literal_search._written(SimpleNamespace(_prepared=other._prepared, **given)))
        for damaged in files:
            self.path.write_bytes(damaged + literal_search._SUM.pack(literal_search.zlib.crc32(damaged)))
            with self.assertRaisesRegex(ValueError, "damaged"):
                Search.load(self.path)

    def test_another_head_in_a_sound_file(self):
        whole, head = literal_search._written(Search([b"ab"])), literal_search._HEAD
        magic, *numbers = head.unpack_from(whole)
        heads = [(b"LITERAL0", *numbers)]
        heads.append((magic, 1 << 40, *numbers[1:]))  # (no kind)
        for at in (3, 4, 5):  # (how many patterns there are, and how many bytes follow)
            for more in (-1, 1, 1 << 40):
                heads.append((magic, *numbers[:at], numbers[at] + more, *numbers[at + 1 :]))
        for it in heads:
            other = head.pack(*it) + whole[head.size :]
            self.path.write_bytes(other + literal_search._SUM.pack(literal_search.zlib.crc32(other)))
            with self.assertRaisesRegex(ValueError, "is not a file that Search.save wrote"):
                Search.load(self.path)

    def test_what_cannot_be_written(self):
        self.path.mkdir()
        with self.assertRaises(OSError):
            Search([b"a"]).save(self.path)
        with mock.patch("os.replace", side_effect=OSError), self.assertRaises(OSError):
            Search([b"a"]).save(self.path.with_name("other"))
        self.assertEqual([it.name for it in self.path.parent.iterdir()], [self.path.name])
        with self.assertRaises(FileNotFoundError):
            Search.load(self.path / "none")

    def test_the_mode_stays(self):
        for mode in (0o600, 0o640, 0o755):
            self.path.touch()
            self.path.chmod(mode)
            Search([b"a"]).save(self.path)
            self.assertEqual(self.path.stat().st_mode & 0o777, mode)
        before = os.umask(0o027)
        self.addCleanup(os.umask, before)
        new = self.path.with_name("new")
        Search([b"a"]).save(new)
        self.assertEqual(new.stat().st_mode & 0o777, 0o640)

    def test_a_link_is_followed(self):
        link = self.path.with_name("link")
        link.symlink_to(self.path.name)
        for word in (b"a", b"b"):  # (first to a file that is not there yet)
            Search([word]).save(link)
            self.assertTrue(link.is_symlink())
            self.assertEqual(Search.load(self.path).patterns, (word,))
        link.unlink()
        link.symlink_to(link.name)
        with self.assertRaises(OSError):
            Search([b"a"]).save(link)
        self.assertTrue(link.is_symlink())

    def test_a_fifo_is_written_into(self):
        file = self.path.with_name("file")
        os.mkfifo(self.path)
        reader = os.open(self.path, os.O_RDONLY | os.O_NONBLOCK)
        self.addCleanup(os.close, reader)
        for path in (self.path, file):
            Search(WORDS).save(path)
        self.assertEqual(os.read(reader, 1 << 16), file.read_bytes())
        self.assertTrue(self.path.is_fifo())

    def test_long_names(self):
        for size in (1, 246, 247, 255):
            path = self.path.with_name("x" * size)
            Search([b"a"]).save(path)
            self.assertEqual(Search.load(path).patterns, (b"a",))
        with self.assertRaises(OSError):
            Search([b"a"]).save(self.path.with_name("x" * 256))

    def test_a_subclass(self):
        named = Named("x", b"ab")
        named.save(self.path)
        self.assertIs(type(Named.load(self.path)), Named)
        self.assertIs(type(Search[bytes].load(self.path)), Search)


if __name__ == "__main__":
    unittest.main()
