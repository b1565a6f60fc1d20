"""Columns to columns: all matches of many texts as arrays, of lists, numpy, pandas and Arrow."""
import ctypes
import errno
import random
import signal
import struct
import subprocess
import sys
import tempfile
import time
import types
import unittest
import warnings
from contextlib import contextmanager
from importlib import import_module
from importlib.util import find_spec
from pathlib import Path

from literal_search import Kind, Search

from lent import DESTROYED, RELEASED, Chunks, Column
from shared import tearDownModule

EXAMPLE = Path(__file__).parent.parent / "examples/join_table.py"
NAN = float("nan")


def rows_of(searcher, texts):
    """What `find_columns_each` has to answer, by `findall` of each text that is none of the missing ones."""
    there = [(row, text) for row, text in enumerate(texts) if isinstance(text, (str, bytes))]
    found = [(row, *it) for row, text in there for it in searcher.findall(text)]
    return tuple(list(it) for it in zip(*found)) if found else ([], [], [], [])


def lists_of(columns):
    return tuple(list(it) for it in columns)


def imported(name):
    """A module, whatever it warns of."""
    with warnings.catch_warnings():
        warnings.simplefilter("ignore")
        return import_module(name)


@contextmanager
def module(name, **has):
    """A module that can be imported meanwhile, and only that."""
    before = sys.modules.get(name)
    sys.modules[name] = types.SimpleNamespace(**has)
    try:
        yield
    finally:
        del sys.modules[name]
        if before:
            sys.modules[name] = before


class Texts(unittest.TestCase):
    def check(self, searcher, texts):
        self.assertEqual(lists_of(searcher.find_columns_each(texts)), rows_of(searcher, texts))

    def test_by_hand(self):
        searcher = Search(["ab", "b", "é"])
        rows = searcher.find_columns_each(["b ab", "", "x", "aéb"])
        self.assertEqual(lists_of(rows), ([0, 0, 3, 3], [1, 0, 2, 1], [0, 2, 1, 2], [1, 4, 2, 3]))
        self.assertEqual([(it.typecode, it.itemsize) for it in rows], [("q", 8)] * 4)
        self.assertEqual(memoryview(rows[2]).tolist(), [0, 2, 1, 2])  # (in place, as numpy takes it)
        self.assertEqual(lists_of(searcher.find_columns_each([])), ([], [], [], []))
        self.assertEqual(lists_of(Search([]).find_columns_each(["a"])), ([], [], [], []))

    def test_settings(self):
        texts = ["New Yorkers, york", "YORK é york", "", "éyork york", "straße Straẞe", "x" * 5000 + " york é"]
        for kind in Kind:
            for ignore_case in False, True, "ascii":
                for whole_words in False, True:
                    self.check(Search(["york", "new", "straẞe"], kind, ignore_case, whole_words), texts)
        self.check(Search([b"york"], ignore_case=True), [it.encode() for it in texts])

    def test_iterables(self):
        searcher = Search([b"a"])
        for texts in (b"a", b"ba"), {b"ba": 1}, iter([b"a"]), (it for it in [b"aa"]):
            given = list(texts) if not isinstance(texts, (tuple, dict)) else texts
            self.check(searcher, given)
        held = bytearray(b"ba")
        rows = searcher.find_columns_each([held, memoryview(b"a")])
        self.assertEqual(lists_of(rows), ([0, 1], [0, 0], [1, 0], [2, 1]))
        held.append(0)  # (it is held no longer)
        with self.assertRaisesRegex(TypeError, "a list of texts is wanted, not one text of type str"):
            Search(["a"]).find_columns_each("a")

    def test_many_rows(self):
        """More than are written at once, and more in one text than a page has."""
        searcher = Search(["a", "ab"])
        self.check(searcher, ["ab a"] * 1000)
        self.check(searcher, ["ab a" * 3000, "a", "é" + "ab" * 5000])
        self.check(Search(["a"], whole_words=True), ["a " * 3000, "é a " * 3000, "a" * 40000])

    def test_random_texts(self):
        chance = random.Random(7)
        for _ in range(60):
            words = ["".join(chance.choices("abä", k=chance.randint(1, 3))) for _ in range(chance.randint(0, 4))]
            texts = ["".join(chance.choices("abäAÄ ", k=chance.randint(0, 9))) for _ in range(chance.randint(0, 30))]
            self.check(Search(words, ignore_case=chance.random() < 0.5, whole_words=chance.random() < 0.3), texts)

    def test_missing(self):
        class NAType:
            pass

        searcher, missing = Search(["a"]), NAType()
        texts = ["a", None, NAN, "ba", missing]
        with module("pandas", NA=missing):
            for call in searcher.find_each, searcher.count_each, searcher.findall_each:
                answers = call(texts, skip_missing=True)
                self.assertEqual([answers[at] for at in (1, 2, 4)], call([""]) * 3)
            self.assertEqual(lists_of(searcher.find_columns_each(texts, skip_missing=True)), rows_of(searcher, texts))
        with self.assertRaisesRegex(TypeError, "at index 4: a text is a str or lends its bytes, and NAType does neither"):
            searcher.find_columns_each(texts, skip_missing=True)
        with self.assertRaisesRegex(TypeError, "at index 1: .* NoneType does neither"):
            searcher.find_columns_each(texts)
        with self.assertRaisesRegex(TypeError, "at index 0: .* float does neither"):
            searcher.find_columns_each([0.5], skip_missing=True)

    def test_errors_name_the_row(self):
        searcher, of_bytes = Search(["a"]), Search([b"a"])
        for of, text, kind, why in ((searcher, b"a", TypeError, "the patterns are str"),
                                    (searcher, 1, TypeError, "a text is"),
                                    (of_bytes, memoryview(b"abcd")[::2], BufferError, "no view with gaps"),
                                    (of_bytes, "a", TypeError, "the patterns are bytes")):
            with self.assertRaisesRegex(kind, f"at index 2: .*{why}"):
                of.find_columns_each([of.patterns[0]] * 2 + [text])
        view = memoryview(b"a")
        view.release()
        with self.assertRaisesRegex(ValueError, "at index 1: .*released"):
            of_bytes.find_columns_each([b"", view])

    def test_other_errors(self):
        def fails():
            yield "a"
            raise ZeroDivisionError

        searcher = Search(["a"])
        with self.assertRaises(ZeroDivisionError):
            searcher.find_columns_each(fails())
        with self.assertRaisesRegex(TypeError, "not iterable"):
            searcher.find_columns_each(5)
        with self.assertRaisesRegex(RuntimeError, "no patterns yet"):
            Search.__new__(Search).find_columns_each(["a"])

    def test_nothing_stays_held(self):
        searcher, text, texts = Search(["a"]), "".join(["a", "b"]), [None, "ab" * 9000, "é"]
        for cells in [text], [text, None], [None, text], texts:
            for skips in False, True:
                before = [sys.getrefcount(it) for it in (searcher, text, cells)]
                for _ in range(100):
                    try:
                        searcher.find_columns_each(cells, skip_missing=skips)
                    except TypeError:
                        pass
                self.assertEqual([sys.getrefcount(it) for it in (searcher, text, cells)], before)

    def test_a_signal_ends_it(self):
        class Ended(Exception):
            pass

        def end(*_):
            raise Ended

        searcher, before = Search(["a"]), signal.signal(signal.SIGVTALRM, end)
        self.addCleanup(signal.signal, signal.SIGVTALRM, before)
        texts, column = [""] * 4_000_000, Column([""], b"u", ())
        offsets = (ctypes.c_int32 * (len(texts) + 1))()
        column.array.length, column.array.null_count = len(texts), 0
        column.buffers[1] = ctypes.addressof(offsets)
        for cells in texts, column:
            start = time.process_time()
            searcher.find_columns_each(cells)
            whole, start = time.process_time() - start, time.process_time()
            signal.setitimer(signal.ITIMER_VIRTUAL, whole / 20)
            with self.assertRaises(Ended):
                searcher.find_columns_each(cells)
            self.assertLess(time.process_time() - start, whole / 2)


class OfArrow(unittest.TestCase):
    def check(self, searcher, chunks, form, skips=False):
        """That each call answers of a stream as of one list."""
        texts = [it for chunk in chunks for it in chunk]
        for call in searcher.find_each, searcher.count_each, searcher.findall_each, searcher.find_columns_each:
            made = Chunks([Column(it, form) for it in chunks], form)
            before = len(RELEASED), len(DESTROYED)
            self.assertEqual(call(made, skip_missing=skips), call(texts, skip_missing=skips))
            self.assertEqual((len(RELEASED), len(DESTROYED)), (before[0] + len(chunks) + 1, before[1] + 1))

    def test_chunks(self):
        searcher = Search(["ab", "b"], ignore_case=True)
        for form in b"u", b"U", b"vu":
            self.check(searcher, [], form)
            self.check(searcher, [[], ["ab"], [], ["B", "a longer text: é, b"], ["é" * 3000 + "ab"]], form)
            self.check(searcher, [["ab", None], [None, "b"]], form, skips=True)
        self.check(Search([b"\x80"]), [[b"a\x80"], [b"", b"\x80" * 20]], b"vz")
        self.check(Search(["é"], whole_words=True), [["é éa", "a é"], ["x"]], b"vu")

    def test_patterns(self):
        made = Chunks([Column(["apple"], b"vu"), Column(["maple", "a pattern of more bytes"], b"vu")], b"vu")
        self.assertEqual(Search(made).patterns, ("apple", "maple", "a pattern of more bytes"))

    def test_rows_are_named(self):
        searcher = Search(["a"])
        made = Chunks([Column(["a", "b"], b"u"), Column(["a", None], b"u")], b"u")
        with self.assertRaisesRegex(TypeError, "at index 3: .*NoneType does neither"):
            searcher.find_columns_each(made)
        damaged = Column(["a", "b"], b"u", ())
        damaged.damage(1, struct.pack("=3i", 0, 2, 1))
        with self.assertRaisesRegex(ValueError, "at index 1: the column is damaged: its offsets decrease"):
            searcher.find_columns_each(damaged)
        with self.assertRaisesRegex(ValueError, "at index 1: 'utf-8' codec can't decode"):
            Search(["a"], whole_words=True).find_columns_each(Column([b"a", b"\xc3\xa9\xff"], b"u"))
        self.assertEqual(lists_of(searcher.find_columns_each(Column([b"a\xff"], b"u"))), ([0], [0], [0], [1]))

    def test_views_of_other_bytes(self):
        long = "a text of more than twelve bytes"
        places = (0, -1), (0, 127), (8, 2), (8, -1), (12, -1), (12, 2)  # (of its length, its buffer, its offset)
        for at, number in places:
            for call in "find_each", "count_each", "findall_each", "find_columns_each":
                damaged = Column([long], b"vu", ())
                damaged.damage(1, struct.pack("=i", number), at)
                with self.assertRaisesRegex(ValueError, "the column is damaged: a view is of bytes that are not there"):
                    getattr(Search(["a"]), call)(damaged)
        for count in 2, 3:  # (no buffers, and then without their lengths)
            damaged = Column([long], b"vu", ())
            damaged.array.n_buffers = count
            with self.assertRaisesRegex(ValueError, "the column is damaged"):
                Search(["a"]).find_columns_each(damaged)

    def test_arrays_without_places(self):
        for form in b"u", b"vu":
            damaged = Column(["a"], form)
            damaged.buffers[1] = None
            with self.assertRaisesRegex(ValueError, "the column is damaged"):
                Search(["a"]).count_each(damaged)
            damaged.array.length = 0
            self.assertEqual(Search(["a"]).count_each(damaged), [])
        for form, text in (b"u", "a"), (b"vu", "a" * 20):
            damaged = Column([text], form, ())
            damaged.buffers[2] = None
            with self.assertRaisesRegex(ValueError, "the column is damaged"):
                Search(["a"]).count_each(damaged)

    def test_streams_that_fail(self):
        searcher = Search(["a"])
        for call in searcher.find_each, searcher.count_each, searcher.findall_each, searcher.find_columns_each:
            for columns, form in ((), errno.EIO), ([Column(["a"], b"u"), errno.EIO], b"u"):
                with self.assertRaisesRegex(OSError, "a reason") as raised:
                    call(Chunks(columns, form))
                self.assertEqual(raised.exception.errno, errno.EIO)
            with self.assertRaisesRegex(OSError, "Input/output error"):
                call(Chunks([errno.EIO], b"u", why=None))
            with self.assertRaises(MemoryError):
                call(Chunks([errno.ENOMEM], b"u"))
            with self.assertRaisesRegex(ValueError, "incorrect name"):
                call(Chunks([], b"u", name=b"other"))
            with self.assertRaisesRegex(TypeError, "this one Arrow's format \\+s"):
                call(Chunks([], b"+s"))
            ended = Chunks([], b"u")
            ended.stream.release = None
            with self.assertRaisesRegex(ValueError, "the column is released"):
                call(ended)

    def test_a_signal_ends_a_stream(self):
        """Of arrays that are too short to look for signals in each."""
        class Ended(Exception):
            pass

        def end(_, frame):
            if frame.f_code is Search.count_each.__code__:  # (not in the stream's own functions)
                raise Ended

        self.addCleanup(signal.signal, signal.SIGVTALRM, signal.signal(signal.SIGVTALRM, end))
        self.addCleanup(signal.setitimer, signal.ITIMER_VIRTUAL, 0)
        signal.setitimer(signal.ITIMER_VIRTUAL, 0.001, 0.001)
        with self.assertRaises(Ended):
            Search(["a"], whole_words=True).count_each(Chunks([Column(["a " * 2000] * 10, b"u")] * 1000, b"u"))

    def test_of_another_type(self):
        with self.assertRaisesRegex(TypeError, "the patterns are bytes, and the text is str"):
            Search([b"a"]).find_columns_each(Chunks([], b"vu"))

    def test_columns_of_objects(self):
        """pandas would copy such a column, or has no package for it."""
        class Series(list):
            def __init__(self, texts, **dtype):
                super().__init__(texts)
                self.dtype = types.SimpleNamespace(**dtype)

            def __arrow_c_stream__(self, requested_schema=None):
                raise ImportError("pyarrow")

        searcher = Search(["a"])
        for dtype in {"hasobject": True}, {"storage": "python"}:
            self.assertEqual(searcher.count_each(Series(["a", "aa"], **dtype)), [1, 2])
            self.assertEqual(list(searcher.find_columns_each(Series(["a"], **dtype))[0]), [0])
        with self.assertRaises(ImportError):
            searcher.count_each(Series(["a"], storage="pyarrow"))


@unittest.skipUnless(find_spec("numpy"), "numpy is not installed")
class OfNumpy(unittest.TestCase):
    def test_arrays(self):
        numpy = imported("numpy")
        texts, searcher = ["a b", "", "éa", "b" * 30], Search(["a", "b"])
        wanted = rows_of(searcher, texts)
        for array in numpy.array(texts), numpy.array(texts, dtype=object):
            self.assertEqual(lists_of(searcher.find_columns_each(array)), wanted)
        array = numpy.array([*texts, None, NAN], dtype=object)
        self.assertEqual(lists_of(searcher.find_columns_each(array, skip_missing=True)), wanted)
        encoded = numpy.array([it.encode() for it in texts])
        self.assertEqual(list(Search([b"b"]).find_columns_each(encoded)[2][:2]), [2, 0])

    def test_nothing_is_copied(self):
        numpy = imported("numpy")
        starts = Search(["a"]).find_columns_each(["ba"])[2]
        numpy.asarray(starts)[0] = 7
        self.assertEqual((starts[0], numpy.asarray(starts).dtype), (7, numpy.int64))


@unittest.skipUnless(find_spec("pandas"), "pandas is not installed")
class OfPandas(unittest.TestCase):
    def test_columns(self):
        pandas = imported("pandas")
        searcher = Search(["a", "b"])
        for dtype in object, "string":
            column = pandas.Series(["a b", None, "éa", pandas.NA, NAN], dtype=dtype)
            found = lists_of(searcher.find_columns_each(column, skip_missing=True))
            self.assertEqual(found, ([0, 0, 2], [0, 1, 0], [0, 2, 1], [1, 3, 2]))

    def test_the_example(self):
        with tempfile.TemporaryDirectory() as folder:
            table, words = Path(folder, "table.csv"), Path(folder, "words.csv")
            table.write_text("city,note\nA,a Fig and a pear\nB,\nC,é fig\nD,figs\n", "utf-8")
            words.write_text("word,value\nfig,3\npear,5\n", "utf-8")
            ran = subprocess.run([sys.executable, EXAMPLE, table, "note", words], capture_output=True, text=True)
        rows = ["A,a Fig and a pear,fig,3,2,5", "A,a Fig and a pear,pear,5,12,16", "C,é fig,fig,3,2,5"]
        self.assertEqual(ran.stdout.splitlines(), ["city,note,word,value,start,end", *rows], ran.stderr)


if __name__ == "__main__":
    unittest.main()
