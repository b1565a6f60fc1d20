"""Searches in files: in pieces of any size, in files that fail or do not wait, and how much of a text is kept."""
import fcntl
import io
import os
import queue
import random
import tempfile
import time
import unittest
from concurrent.futures import ThreadPoolExecutor
from contextlib import contextmanager
from types import SimpleNamespace

from literal_search import Kind, Match, Search, _stream

import plain
from shared import tearDownModule

LIMIT = 20  # seconds, for what takes no time


class Pieces:
    """A file that gives a text in pieces of a size, and behind them what it is told to: an error, None or a piece."""

    def __init__(self, text, size, *then):
        self.text, self.size, self.at, self.then = text, size, 0, [*then]

    def read(self, most):
        piece = self.text[self.at : self.at + min(self.size, most)]
        self.at += len(piece)
        if piece or not self.then:
            return piece
        last = self.then.pop(0)
        if isinstance(last, Exception):
            raise last
        return last


class Watched(Search):
    """A searcher that keeps how long each part was that it searched."""

    def _so_far(self, part, *given):
        self.__dict__.setdefault("parts", []).append(len(part))
        return super()._so_far(part, *given)


def replaced(searcher, by, text, size):
    """What sub_stream writes."""
    out = io.StringIO() if isinstance(text, str) else io.BytesIO()
    searcher.sub_stream(Pieces(text, size), out, by)
    return out.getvalue()


class Files(unittest.TestCase):
    def cases(self, letters, between):
        chance = random.Random(6)
        for _ in range(400):
            words = [between.join(chance.choices(letters, k=chance.randint(1, 6))) for _ in range(chance.randint(1, 4))]
            text = between.join(chance.choices(letters, k=chance.randint(0, 60)))
            kind, ignore_case = chance.choice(list(Kind)), chance.random() < 0.5
            searcher = Search({word: i + 7 for i, word in enumerate(words)}, kind, ignore_case)
            wanted = plain.find_all(list(searcher.patterns), kind, ignore_case, text, 0, len(text))
            whole = searcher.sub(lambda it: it.group() + it.group(), text)
            for size in (1, 2, 3, 7, 61):
                found = list(searcher.finditer_stream(Pieces(text, size)))
                self.assertEqual(found, wanted, (words, text, size))
                self.assertEqual([(it.group(), it.value) for it in found],
                                 [(text[start:end], searcher._values[pattern]) for pattern, start, end in wanted])
                self.assertEqual(searcher.count_stream(Pieces(text, size)), len(wanted))
                self.assertEqual(replaced(searcher, lambda it: it.group() + it.group(), text, size), whole)

    def test_bytes(self):
        self.cases([b"a", b"b", b"A"], b"")

    def test_str(self):
        self.cases(["a", "A", "ä", "€", "🐍"], "")

    def test_many_matches(self):
        text, searcher = "äb" * 200000, Search(["b"])
        found = searcher.finditer_stream(io.StringIO(text))
        self.assertEqual([it.start for it in found], list(range(1, 400000, 2)))
        self.assertEqual(searcher.count_stream(io.StringIO(text)), 200000)
        self.assertEqual(replaced(searcher, "", text, 1 << 20), "ä" * 200000)

    def test_other_pieces(self):
        for give in (bytearray, memoryview):
            text = give(b"a needle, a needle")
            found = list(Search([b"needle"]).finditer_stream(Pieces(text, 5)))
            self.assertEqual([(type(it.group()), it.span()) for it in found], [(bytes, (2, 8)), (bytes, (12, 18))])

    def test_no_patterns(self):
        for text in (b"text", "text"):
            self.assertEqual(list(Search([]).finditer_stream(Pieces(text, 2))), [])
            self.assertEqual(replaced(Search([]), text, text, 3), text)

    def test_by_the_pattern(self):
        searcher = Search([b"cat", b"dog"])
        self.assertEqual(replaced(searcher, [b"dog", b"cat"], b"cat and dog", 2), b"dog and cat")
        self.assertEqual(replaced(searcher, b"", b"cat and dog", 2), b" and ")

    def test_what_is_searched_and_kept(self):
        """A character at a time, with patterns that are far longer: the parts are few, and no longer than needed."""
        for word, letter in ((b"a" * 5000 + b"b", b"a"), ("🐍" * 5000, "a"), (b"needle", b"x")):
            searcher, longest = Watched([word]), len(word if isinstance(word, bytes) else word.encode())
            self.assertEqual(searcher.count_stream(Pieces(letter * 60000, 1)), 0)
            self.assertLess(sum(searcher.parts), 2 * 60000 + 2 * longest)
            self.assertLess(max(searcher.parts), 2 * longest)
            searcher.parts.clear()
            self.assertEqual(searcher.count_stream(Pieces(letter * 900000, 1 << 30)), 0)
            self.assertLess(max(searcher.parts), 2 * longest + _stream.BLOCK)

    def test_a_match_is_given_once_it_is_known(self):
        file = Pieces(b"needle, and" + b" much more" * 10, 1)
        self.assertEqual(next(Search([b"needle"]).finditer_stream(file)), (0, 0, 6))
        self.assertLess(file.at, 12)


    def test_many_short_reads(self):
        """The time is proportional to their number, with a pattern that is far longer."""
        for word, text in (b"q" * 60000, b"z" * 120000), ("É" * 60000, "é" * 59999 + "z" + "é" * 59999):
            searcher, nowhere = Search([word], ignore_case=True), SimpleNamespace(write=lambda _: None)
            for call in (searcher.finditer_stream, searcher.finditer_overlapping_stream, searcher.count_stream,
                         lambda file: searcher.sub_stream(file, nowhere, word)):
                began = time.process_time()
                answer = call(Pieces(text, 1))
                self.assertFalse(answer and list(answer))
                self.assertLess(time.process_time() - began, 2.5)


class Occurrences(unittest.TestCase):
    def test_as_in_the_whole_text(self):
        chance = random.Random(8)
        for letters in ([b"a", b"b", b"A"], ["a", "A", "ä", "🐍"]):
            empty = letters[0][:0]
            for _ in range(300):
                words = [empty.join(chance.choices(letters, k=chance.randint(1, 5))) for _ in range(chance.randint(0, 4))]
                text = empty.join(chance.choices(letters, k=chance.randint(0, 40)))
                searcher = Search({word: i + 7 for i, word in enumerate(words)}, ignore_case=chance.random() < 0.5)
                wanted = searcher.find_overlapping(text)
                for size in (1, 2, 7, 61):
                    found = list(searcher.finditer_overlapping_stream(Pieces(text, size)))
                    self.assertEqual(found, wanted, (words, text, size))
                    self.assertEqual([(it.group(), it.value) for it in found], [(it.group(), it.value) for it in wanted])

    def test_what_is_kept(self):
        searcher = Watched([b"a" * 100, b"b"])
        self.assertEqual(len(list(searcher.finditer_overlapping_stream(Pieces(b"xb" * 1000, 60)))), 1000)
        self.assertEqual((searcher.parts[:3], max(searcher.parts)), ([60, 60 + 120, 99 + 120], 99 + 120))

    def test_more_than_there_is_room_for(self):
        text, searcher = "äab" * 20000, Search(["äab", "ab", "b"])
        found = searcher.finditer_overlapping_stream(io.StringIO(text))
        self.assertEqual(list(found), searcher.find_overlapping(text))

    def test_a_file_that_fails(self):
        found = Search(["ab", "b"]).finditer_overlapping_stream(Pieces("xab", 2, OSError("gone")))
        self.assertEqual([next(found), next(found)], [(0, 1, 3), (1, 2, 3)])
        self.assertRaisesRegex(OSError, "gone", next, found)
        self.assertRaises(BlockingIOError, list, Search(["a"]).finditer_overlapping_stream(Pieces("xa", 2, None)))


class Pipes(unittest.TestCase):
    """Files that make a reader wait: if it waits too long, a test closes the pipe."""

    @contextmanager
    def pipe(self, buffering):
        """A pipe, with buffers or without, and a thread."""
        reader, writer = os.pipe()
        with open(reader, "rb", buffering) as file, ThreadPoolExecutor(1) as pool:
            try:
                yield file, lambda part: os.write(writer, part), pool.submit
            finally:
                os.close(writer)

    def test_what_is_known_is_given_before_the_next_read_waits(self):
        """A match as soon as the longest pattern would fit, and an occurrence as soon as it is read, however short reads
        are."""
        searcher = Search([b"needle", b"z" * 40])
        parts = b"needle" + b"." * 24 + b"needle" + b"." * 14, b"." * 14 + b"needle"
        for buffering in (-1, 0):
            for call, wanted in ((searcher.finditer_stream, [[0], [30]]),
                                 (searcher.finditer_overlapping_stream, [[0, 30], [64]])):
                with self.pipe(buffering) as (file, write, begin):
                    found = call(file)
                    for part, starts in zip(parts, wanted):
                        write(part)
                        self.assertEqual([begin(next, found).result(LIMIT).start for _ in starts], starts)

    def test_what_is_replaced_is_written_before_the_next_read_waits(self):
        for buffering in (-1, 0):
            with self.pipe(buffering) as (file, write, begin):
                written = queue.Queue()
                begin(Search([b"needle"]).sub_stream, file, SimpleNamespace(write=written.put), b"pin")
                for part, wanted in (b"a needle", b"a pin"), (b"-needle", b"-pin"):
                    write(part)
                    self.assertEqual(written.get(timeout=LIMIT), wanted)

    def test_a_pipe_that_does_not_wait(self):
        """It has nothing yet, which is not its end."""
        for buffering in (-1, 0):
            with self.pipe(buffering) as (file, write, begin):
                os.set_blocking(file.fileno(), False)
                write(b"a needle")
                found = Search([b"needle"]).finditer_stream(file)
                self.assertEqual(next(found), (0, 2, 8))
                self.assertRaises(BlockingIOError, next, found)

    def test_a_file_in_memory_stays_there(self):
        """One that moves to the disk when it is asked for its number there."""
        with tempfile.SpooledTemporaryFile() as file:
            file.write(b"a needle")
            file.seek(0)
            self.assertEqual(Search([b"needle"]).count_stream(file), 1)
            self.assertFalse(file._rolled)

    def test_a_read_of_its_own(self):
        """It is called, though the class below has another method that reads."""
        class Lower(io.BytesIO):
            def read(self, size):
                return super().read(size).lower()

        changed = io.BufferedReader(io.BytesIO(b"A NEEDLE"))
        changed.read = Lower(b"A NEEDLE").read
        for file in Lower(b"A NEEDLE"), changed:
            self.assertEqual(Search([b"needle"]).count_stream(file), 1)


class Buffers(unittest.TestCase):
    """Files that read into a buffer, after a first whole block."""

    @classmethod
    def setUpClass(cls):
        cls.text = bytes(random.Random(9).choices(b"abc", k=3 * _stream.BLOCK + 77))
        cls.file = tempfile.NamedTemporaryFile()
        cls.addClassCleanup(cls.file.close)
        cls.file.write(cls.text)
        cls.file.flush()

    def open(self, buffering=-1):
        file = open(self.file.name, "rb", buffering)
        self.addCleanup(file.close)
        return file

    def files(self):
        for buffering in (0, -1, 7, 1 << 20):
            yield self.open(buffering)
        yield from (io.BytesIO(self.text), io.BufferedReader(io.BytesIO(self.text)), Pieces(self.text, _stream.BLOCK))

    def test_as_in_the_whole_text(self):
        block, text = _stream.BLOCK, self.text
        for words in ([b"abcabcabc", text[block - 3 : block + 5]], [text[block - 1 : 2 * block + 1], b"cccccccc"],
                      [text[block - 60000 : block + 60000], b"aaaaaaaa"]):
            searcher = Search(words)
            wanted, every = searcher.findall(text), searcher.find_overlapping(text)
            for file, again, other, last in zip(*(self.files() for _ in range(4))):
                found = list(searcher.finditer_stream(file))
                self.assertEqual((found, [it.group() for it in found]), (wanted, [it.group() for it in wanted]))
                self.assertEqual(searcher.count_stream(again), len(wanted))
                searcher.sub_stream(other, out := io.BytesIO(), b"<>")
                self.assertEqual(out.getvalue() == searcher.sub(b"<>", text), True, other)
                self.assertEqual(list(searcher.finditer_overlapping_stream(last)), every)

    def test_behind_what_was_read_before(self):
        for file in self.files():
            before = file.read(5)
            self.assertEqual(Search([b"ab"]).count_stream(file), self.text.count(b"ab", len(before)))

    def test_how_much_is_read(self):
        """A whole block each time, and the file is at its end then."""
        for file in self.open(0), io.BytesIO(self.text):
            searcher = Watched([b"d"])
            self.assertEqual(searcher.count_stream(file), 0)
            self.assertEqual(searcher.parts, [_stream.BLOCK] * 3 + [77, 0])
            self.assertEqual(file.tell(), len(self.text))

    def test_a_class_of_its_own(self):
        """Only its `read` is called."""
        def wrong(self, buffer):
            raise AssertionError

        for kind, of in (io.BytesIO, self.text), (io.FileIO, self.file.name):
            with type("Own", (kind,), {"readinto": wrong})(of) as file:
                self.assertEqual(Search([b"ab"]).count_stream(file), self.text.count(b"ab"))

    def test_a_method_of_its_own(self):
        for file in self.open(0), self.open():
            whole = file.read
            file.read = file.read1 = lambda size: whole(size).replace(b"a", b"A")
            self.assertEqual(Search([b"Ab"]).count_stream(file), self.text.count(b"ab"))

    def test_a_file_that_is_closed(self):
        for file in self.files():
            if not isinstance(file, Pieces):
                found = Search([self.text[:9], b"d"]).finditer_stream(file)
                self.assertEqual(next(found).span(), (0, 9))
                file.close()
                self.assertRaises(ValueError, list, found)

    def test_a_pipe_that_does_not_wait(self):
        for buffering in (-1, 0):
            reader, writer = os.pipe()
            with open(reader, "rb", buffering) as file, open(writer, "wb", 0) as out:
                os.set_blocking(reader, False)
                fcntl.fcntl(writer, fcntl.F_SETPIPE_SZ, 4 * _stream.BLOCK)
                out.write(self.text)
                searcher, found = Search([b"abcabcabc"]), []
                with self.assertRaises(BlockingIOError) as raised:
                    found.extend(searcher.finditer_stream(file))
                self.assertEqual((raised.exception.errno, found), (11, searcher.findall(self.text)))


class Refusals(unittest.TestCase):
    def assert_ends(self, searcher, file, error, wanted):
        """What is known from what was read comes before the error, and behind it nothing."""
        matches, found = searcher.finditer_stream(file), []
        with self.assertRaises(error) as raised:
            for match in matches:
                found.append(match)
        self.assertEqual((found, list(matches)), (wanted, []))
        return raised.exception

    def test_a_file_that_fails(self):
        searcher, why = Search([b"a", b"bcd"]), OSError(5, "broken")
        for size in (1, 2, 40):
            file = Pieces(b"a bc a....bc", size, why, b"d")
            self.assertIs(self.assert_ends(searcher, file, OSError, [(0, 0, 1), (0, 5, 6)]), why)
        # (the last byte makes it known, and is not searched before reading fails)
        file = Pieces(b"axxxxxxx", 7, why)
        self.assert_ends(Search([b"a", b"bcdefghi"]), file, OSError, [(0, 0, 1)])
        out = io.BytesIO()
        with self.assertRaises(OSError):
            searcher.sub_stream(Pieces(b"a bc a....bc", 1, why), out, b"-")
        self.assertTrue(b"- bc -....bc".startswith(out.getvalue()) and out.getvalue().startswith(b"- bc -"))
        with self.assertRaises(OSError):
            searcher.count_stream(Pieces(b"a", 1, why))

    def test_a_file_that_does_not_wait(self):
        searcher = Search([b"a"])
        self.assertEqual(self.assert_ends(searcher, Pieces(b"xaxx", 9, None), BlockingIOError, [(0, 1, 2)]).errno, 11)
        self.assertRaises(BlockingIOError, searcher.count_stream, Pieces(b"xaxx", 9, None))

    def test_what_is_no_text(self):
        for words, file in (([b"a"], Pieces("a", 1)), (["a"], Pieces(b"a", 1)), ([b"a"], Pieces(b"", 1, 5)),
                            ([b"a"], b"a"), ([b"a"], None)):
            with self.assertRaises((TypeError, AttributeError)):
                list(Search(words).finditer_stream(file))

    def test_whole_words(self):
        """Refused before anything is read or asked for."""
        words, file = Search(["a"], whole_words=True), Pieces("a", 1)
        for call in (words.finditer_stream, words.finditer_overlapping_stream, words.count_stream):
            self.assertRaises(ValueError, call, file)
        self.assertRaises(ValueError, words.sub_stream, file, io.StringIO(), "b")
        self.assertEqual(file.at, 0)

    def test_what_replaces_nothing(self):
        searcher, out = Search([b"a"]), io.BytesIO()
        for by, error in ((None, TypeError), (True, TypeError), ("b", TypeError), ([], ValueError),
                          (lambda it: 1 // 0, ZeroDivisionError), (lambda it: "b", TypeError)):
            self.assertRaises(error, searcher.sub_stream, Pieces(b"xa", 1), out, by)
        self.assertRaises(AttributeError, searcher.sub_stream, Pieces(b"xa", 1), None, b"b")

    def test_a_list_is_checked_once(self):
        """However many parts there are, and if another stream has another list meanwhile."""
        class Listed(list):
            asked = 0

            def __iter__(self):
                self.asked += 1
                return super().__iter__()

        class Between(Pieces):
            def read(self, size):
                others.append(replaced(searcher, ["", "z"], "ab", 1))
                return super().read(size)

        searcher, by, out, others = Search(["a", "b"]), Listed(["x", "y"]), io.StringIO(), []
        self.assertEqual(replaced(searcher, by, "ab-ba" * 10, 3), "xy-yx" * 10)
        self.assertEqual(by.asked, 1)
        searcher.sub_stream(Between("ab-ba" * 10, 3), out, by)
        self.assertEqual((out.getvalue(), set(others)), ("xy-yx" * 10, {"z"}))

    def test_a_long_list_takes_no_time_for_each_part(self):
        words, times = [f"w{it}x" for it in range(40000)], []
        searcher, text = Search(words), "w17x and more words " * 1000
        for by in (lambda _: "y"), words:
            start = time.process_time()
            replaced(searcher, by, text, 50)
            times.append(time.process_time() - start)
        self.assertLess(times[1], 10 * times[0])

    def test_matches_are_plain(self):
        match = next(Search([b"a"]).finditer_stream(Pieces(b"xa", 1)))
        self.assertEqual((type(match), match.group(), match.value), (Match, b"a", b"a"))


if __name__ == "__main__":
    unittest.main()
