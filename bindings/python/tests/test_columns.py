"""Columns by Arrow's C data interface."""
import ctypes
import random
import signal
import struct
import time
import unittest

from literal_search import Search

from lent import DESTROYED, Column
from shared import tearDownModule


class Columns(unittest.TestCase):
    def check(self, searcher, texts, forms, skips=False):
        """That the calls answer of columns as they do of a list."""
        for form in forms:
            for skipped in (), ("", None), ["before"] * 9:
                column = Column(texts, form, [it and it.encode() if form[-1:] in b"zZ" else it for it in skipped])
                for call in searcher.find_each, searcher.count_each, searcher.findall_each, searcher.find_columns_each:
                    wanted = call(list(texts), skip_missing=skips)
                    self.assertEqual(call(column, skip_missing=skips), wanted, (call, texts, form))

    def test_texts(self):
        texts = ["a WARN", "", "fine", "ERROR and WARN", "WARNED", "ä WARN", "warn", "x" * 5000 + "ERROR"]
        for ignore_case in False, True, "ascii":
            for whole_words in False, True:
                searcher = Search(["ERROR", "WARN"], ignore_case=ignore_case, whole_words=whole_words)
                self.check(searcher, texts, (b"u", b"U", b"vu"))
        searcher = Search([b"ERROR", b"WARN"])
        self.check(searcher, [it.encode() for it in texts], (b"z", b"Z", b"vz"))
        self.check(searcher, [b"\xff\xfeWARN", b"\x00"], (b"z", b"Z", b"vz"))
        self.check(searcher, [], (b"z", b"Z", b"vz"))
        found = searcher.find_each(Column([b"a WARN"], b"z"))[0]
        self.assertEqual((found.group(), found.value), (b"WARN", b"WARN"))

    def test_folded(self):
        searcher = Search(["straẞe", "пример"], ignore_case=True)
        texts = ["Это ПРИМЕР и пример", "", "ASCII", "ПРИМЕ", "Р", "é" * 3000 + "Пример"]
        self.check(searcher, texts, (b"u", b"U", b"vu"))
        self.assertEqual(searcher.find_each(Column(texts, b"u"))[0].group(), "ПРИМЕР")

    def test_long_texts(self):
        text = "x" * (1 << 20) + "ab"
        self.check(Search(["ba", "a"]), [text, "b", "ä" + text], (b"u", b"U", b"vu"))
        self.check(Search(["ba", "a"], whole_words=True), [text + " ba a"], (b"u",))

    def test_a_signal_ends_a_long_text(self):
        class Ended(Exception):
            pass

        def end(*_):
            raise Ended

        self.addCleanup(signal.signal, signal.SIGVTALRM, signal.signal(signal.SIGVTALRM, end))
        searcher, column = Search(["ab"]), Column(["ab" * (16 << 20)], b"u", ())
        start = time.process_time()
        self.assertEqual(searcher.count_each(column), [16 << 20])
        whole, start = time.process_time() - start, time.process_time()
        signal.setitimer(signal.ITIMER_VIRTUAL, whole / 20)
        with self.assertRaises(Ended):
            searcher.count_each(column)
        self.assertLess(time.process_time() - start, whole / 2)

    def test_methods_of_a_subclass(self):
        """They search no texts of a column, neither short ones nor long ones."""
        class Own(Search):
            def find(self, text):
                return "own"

            count = find

        column, own = Column(["a", "a" * 5000], b"u"), Own(["a"])
        self.assertEqual((own.find_each(column), own.count_each(column)), ([(0, 0, 1)] * 2, [1, 5000]))

    def test_buffers_that_are_not_aligned(self):
        for form in b"u", b"U", b"vu":
            column = Column(["ab", "x" * 20 + "ab", None], form)
            moved = [ctypes.create_string_buffer(b"x" + it, len(it) + 1) for it in column.parts]
            for at, it in enumerate(moved):
                column.buffers[at] = ctypes.addressof(it) + 1
            self.assertEqual(Search(["ab"]).count_each(column, skip_missing=True), [1, 1, 0])

    def test_random_texts(self):
        chance = random.Random(3)
        for _ in range(60):
            words = ["".join(chance.choices("abä", k=chance.randint(1, 3))) for _ in range(chance.randint(0, 4))]
            texts = ["".join(chance.choices("abäAÄ ", k=chance.randint(0, 9))) for _ in range(chance.randint(0, 20))]
            searcher = Search(words, ignore_case=chance.random() < 0.5, whole_words=chance.random() < 0.3)
            self.check(searcher, texts, (b"u", b"U", b"vu"))
            cells = [it if chance.random() < 0.5 else None for it in texts]
            self.check(searcher, cells, (b"u", b"U", b"vu"), skips=True)

    def test_random_long_texts(self):
        """Around the length from which a view names a buffer."""
        chance = random.Random(4)
        for _ in range(20):
            texts = ["".join(chance.choices("abc", k=chance.randint(9, 16))) for _ in range(chance.randint(0, 20))]
            self.check(Search(["a", "bc"]), texts, (b"u", b"vu"))

    def test_missing(self):
        texts = ["a", None, "b", None] * 5
        searcher = Search(["a"])
        self.check(searcher, texts, (b"u", b"U", b"vu"), skips=True)
        for call in searcher.find_each, searcher.count_each, searcher.findall_each:
            with self.assertRaisesRegex(TypeError, "a text is a str or lends its bytes, and NoneType does neither"):
                call(Column(texts, b"u"))
        column = Column(texts, b"u")
        column.array.null_count = 0
        column.buffers[0] = None
        self.assertEqual(searcher.count_each(column)[:3], [1, 1, 0])  # (`a missing text` has one)

    def test_patterns(self):
        self.assertEqual(Search(Column(["apple", "maple"], b"u")), Search(["apple", "maple"]))
        self.assertEqual(Search(Column([b"apple", b"\xff"], b"Z")), Search([b"apple", b"\xff"]))

    def test_refusals(self):
        searcher, of_bytes = Search(["a"]), Search([b"a"])
        for call in "find_each", "count_each", "findall_each":
            with self.assertRaisesRegex(TypeError, "the patterns are str, and the text is bytes"):
                getattr(searcher, call)(Column([b"a"], b"z"))
            with self.assertRaisesRegex(TypeError, "the patterns are bytes, and the text is str"):
                getattr(of_bytes, call)(Column(["a"], b"U"))
            for form in b"i", b"v", b"vU", b"vuz", b"+l", b"":
                with self.assertRaisesRegex(TypeError, "this one Arrow's format"):
                    getattr(searcher, call)(Column(["a"], form))
            with self.assertRaisesRegex(ValueError, "PyCapsule_GetPointer called with incorrect name"):
                getattr(searcher, call)(Column(["a"], b"u", names=(b"arrow_schema", b"other")))
            damaged = Column(["a"], b"u")
            damaged.schema.dictionary = ctypes.addressof(damaged.schema)
            with self.assertRaisesRegex(TypeError, "this one a dictionary of u"):
                getattr(searcher, call)(damaged)
            for field, value in ("n_buffers", 2), ("length", -1), ("offset", -1):
                damaged = Column(["a"], b"u")
                setattr(damaged.array, field, value)
                with self.assertRaisesRegex(ValueError, "the column is damaged"):
                    getattr(searcher, call)(damaged)
            for offsets in (0, 2, 1), (-1, 0, 1):
                damaged = Column(["a", "b"], b"u", ())
                ctypes.memmove(damaged.held[1], struct.pack("=3i", *offsets), 12)
                with self.assertRaisesRegex(ValueError, "its offsets decrease"):
                    getattr(searcher, call)(damaged)
            released = Column(["a"], b"u")
            released.array.release = None
            with self.assertRaisesRegex(ValueError, "the column is released"):
                getattr(searcher, call)(released)

    def test_other_results(self):
        class Lends:
            def __init__(self, lent):
                self.lent = lent

            def __arrow_c_array__(self, requested_schema=None):
                if isinstance(self.lent, Exception):
                    raise self.lent
                return self.lent

        for lent in None, (), (1, 2, 3), [1, 2]:
            with self.assertRaisesRegex(TypeError, "a pair of capsules"):
                Search(["a"]).count_each(Lends(lent))
        with self.assertRaises(ValueError):
            Search(["a"]).count_each(Lends((1, 2)))
        with self.assertRaises(ZeroDivisionError):
            Search(["a"]).count_each(Lends(ZeroDivisionError()))

    def test_bytes_that_are_no_text(self):
        column = Column([b"a\xff", b"b\xff"], b"u", ())
        self.assertEqual(Search(["a"]).count_each(column), [1, 0])
        with self.assertRaises(UnicodeDecodeError):
            Search(["a"]).find_each(column)

    def test_capsules_are_let_go(self):
        column, searcher = Column(["a", "b"], b"u"), Search(["a"])
        for call in searcher.find_each, searcher.count_each, searcher.findall_each:
            before = len(DESTROYED)
            call(column)
            self.assertEqual(len(DESTROYED), before + 2)
        before = len(DESTROYED)
        with self.assertRaises(TypeError):
            searcher.count_each(Column(["a"], b"i"))
        self.assertEqual(len(DESTROYED), before + 2)


if __name__ == "__main__":
    unittest.main()
