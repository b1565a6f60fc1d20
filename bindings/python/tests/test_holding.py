"""How texts are held, who runs meanwhile, and how a search ends by a signal."""
import array
import ctypes
import functools
import gc
import mmap
import operator
import re
import signal
import sys
import tempfile
import threading
import time
import tracemalloc
import unittest
import weakref
from collections import deque
from concurrent.futures import ThreadPoolExecutor
from contextlib import contextmanager, suppress
from io import BytesIO, StringIO
from itertools import chain, islice, product

from literal_search import Search

from shared import tearDownModule

TEXT = b"Nobody likes maple in their apple flavored Snapple."
WORDS = [b"apple", b"maple", b"Snapple"]
RAISED = functools.partial(ctypes.CDLL(None)["raise"], signal.SIGINT)  # (Python sees the signal later)
CALLED, RELEASED, JOINED = map(operator.methodcaller, ("__call__", "release", "join"))
TRIES, LONG = 40, 1 << 34


class Text(str):
    """A str that can hold something."""


class Block(bytearray):
    """Bytes that can hold something."""


def calls_of(searcher):
    """Each call that takes one text."""
    yield from (searcher.find, searcher.is_match, searcher.findall, searcher.count, searcher.split)
    yield from (searcher.findall_strings, searcher.find_columns)
    yield from (searcher.find_overlapping, searcher.count_overlapping, searcher.find_earliest)
    yield lambda text: list(searcher.finditer(text))
    yield lambda text: list(searcher.finditer_overlapping(text))
    yield lambda text: searcher.sub(b"-", text)
    yield lambda text: searcher.find_each([text])
    yield lambda text: searcher.findall_each([text])
    yield lambda text: searcher.count_each([text])


def streams_of(searcher):
    """Each call that takes a file, by what it gives."""
    file_of = lambda text: StringIO(text) if isinstance(text, str) else BytesIO(text)
    yield lambda text: list(searcher.finditer_stream(file_of(text)))
    yield lambda text: searcher.count_stream(file_of(text))
    yield lambda text: searcher.sub_stream(file_of(text), BytesIO(), lambda it: it.group())


def asked_of(searcher):
    """For each call that can take long, a function that makes it for lists of arguments, and iterates over the answers.
    It is C alone: so no signal is handled between the end of a call and its answer."""
    calls = [searcher.find, searcher.is_match, searcher.findall, searcher.findall_strings, searcher.find_columns]
    calls += [searcher.count, searcher.split, searcher.find_overlapping, searcher.count_overlapping]
    calls += [searcher.find_earliest, functools.partial(searcher.sub, b"")]
    yield from (functools.partial(map, call) for call in calls)
    yield lambda *given: map(next, map(searcher.finditer, *given), [None])
    yield lambda *given: map(next, map(searcher.finditer_overlapping, *given), [None])


def held_lock():
    lock = threading.Lock()
    lock.acquire()
    return lock


@contextmanager
def zeros(size):
    """So many bytes, which take no memory."""
    with mmap.mmap(-1, size, flags=mmap.MAP_PRIVATE | mmap.MAP_ANONYMOUS, prot=mmap.PROT_READ) as mapped:
        yield mapped


def kibibytes_read(name):
    """How much of a file was read that is mapped here."""
    with open("/proc/self/smaps", encoding="utf-8") as file:
        return int(re.search(re.escape(name) + r"\n(?:.*\n)*?Rss: +([0-9]+) kB", file.read())[1])


class Buffers(unittest.TestCase):
    def test_kinds_of_buffers(self):
        """Offsets count bytes, whatever the items are."""
        searcher, text = Search(WORDS), TEXT + b"....."
        wanted = [call(text) for call in calls_of(searcher)]
        square = memoryview(text).cast("B", (8, 7))
        with tempfile.TemporaryFile() as file:
            file.write(text)
            file.flush()
            with mmap.mmap(file.fileno(), 0, access=mmap.ACCESS_READ) as mapped:
                self.assertEqual([call(mapped) for call in calls_of(searcher)], wanted)
        for it in (bytearray(text), memoryview(text), memoryview(bytearray(text)), square, memoryview(b"x" + text)[1:],
                   array.array("B", text), array.array("b", text), array.array("H", text), array.array("q", text),
                   array.array("d", text), (ctypes.c_uint16 * 28).from_buffer_copy(text), memoryview(text).cast("I")):
            self.assertEqual([call(it) for call in calls_of(searcher)], wanted, it)

    def test_a_field_named_as_objects_are(self):
        class Pair(ctypes.Structure):
            _fields_ = [("O", ctypes.c_uint16), ("other", ctypes.c_uint16)]

        text = (Pair * 2).from_buffer_copy(b"xxabcdyy")
        self.assertEqual(Search([b"abcd", Pair.from_buffer_copy(b"cdyy")]).findall(text), [(0, 2, 6)])
        self.assertEqual(Search([Pair.from_buffer_copy(b"cdyy")]).findall(text), [(0, 4, 8)])

    def test_no_bytes(self):
        for text in (b"", bytearray(), memoryview(b""), array.array("q")):
            self.assertIsNone(Search([b"a"]).find(text))
            self.assertEqual(Search([b"a"]).findall(text), [])

    def test_what_is_no_text(self):
        columns = memoryview(bytes(16)).cast("B", (4, 4))
        for it in (memoryview(b"abcabc")[::2], memoryview(b"abc")[::-1], columns[::2], (ctypes.py_object * 2)(1, 2),
                   memoryview((ctypes.py_object * 2)(1, 2))):
            for call in calls_of(Search([b"a"])):
                with self.assertRaisesRegex(BufferError, "plain bytes, one after another"):
                    call(it)

    def test_given_back_by_each_call(self):
        text = bytearray(TEXT)
        for call in (*calls_of(Search(WORDS)), *calls_of(Search([b"zebra"]))):
            call(text)
            text += b"."
        for given in ((text, "1"), (text, 1, 2, 3), (text, 0, 1.5)):
            for call in (Search(WORDS).find, Search(WORDS).findall, Search(WORDS).finditer):
                self.assertRaises(TypeError, call, *given)
                text += b"."

    def test_a_function_that_fails(self):
        text = bytearray(b"aa")
        try:
            Search([b"a"]).sub(lambda it: 1 // 0, text)
        except ZeroDivisionError:
            text.clear()  # (while the error holds the frame of `sub`)
        self.assertEqual(text, b"")


class Leaks(unittest.TestCase):
    def test_what_two_threads_prepare_at_once(self):
        """One of the arrays is kept, and the other is not."""
        tracemalloc.start()
        self.addCleanup(tracemalloc.stop)
        searcher = Search([b"ab" * (1 << 18)])
        before, start = tracemalloc.get_traced_memory()[0], threading.Barrier(4)
        with ThreadPoolExecutor(4) as pool:
            found = pool.map(lambda _: (start.wait(), searcher.find_overlapping(b"ab"))[1], range(4))
            self.assertEqual(list(found), [[]] * 4)
        more = tracemalloc.get_traced_memory()[0] - before
        self.assertLess(more, 1.5 * len(searcher._for_all))

    def test_no_call_keeps_memory(self):
        """Neither one that answers, nor one that refuses what it is given."""
        calls = [*calls_of(Search(WORDS)), *calls_of(Search(["apple", "ä"]))]
        calls += [*streams_of(Search(WORDS)), *streams_of(Search(["apple", "ä"]))]
        calls.append(lambda it: Search([it, b"b"]).find_overlapping(b"ab"))
        calls += [Search(["a"]).__contains__, Search([b"a"]).__contains__, lambda it: it in Search([it])]
        texts = [TEXT, bytearray(TEXT * 3), TEXT.decode(), "ä" + TEXT.decode() + "äppleä"]
        texts += [memoryview(TEXT)[::2], "\ud800", 5]

        def all_calls():
            for call in calls:
                for text in texts:
                    with suppress(TypeError, ValueError, BufferError):
                        call(text)

        tracemalloc.start()
        self.addCleanup(tracemalloc.stop)
        all_calls()
        before = tracemalloc.get_traced_memory()[0]
        for _ in range(300):
            all_calls()
        gc.collect()
        self.assertLess(tracemalloc.get_traced_memory()[0] - before, 3000)


class Iterators(unittest.TestCase):
    def test_held_from_the_call_to_the_last_match(self):
        text = bytearray(b"a" * 100)
        matches = Search([b"a"]).finditer(text)
        with self.assertRaises(BufferError):
            text.clear()  # (before the first match)
        next(matches)
        with self.assertRaises(BufferError):
            text.clear()
        self.assertEqual(len(list(matches)), 99)
        text.clear()
        self.assertEqual(list(matches), [])

    def test_how_far_ahead_matches_are_found(self):
        """Some thousands; with a long pattern more, so that few bytes are looked up again."""
        for longest, most in ((1000, 1 << 12), (1 << 15, 1 << 13)):
            text = bytearray(b"a" * (1 << 14))
            matches = Search([b"a" * longest + b"b", b"a"]).finditer(text)
            deque(islice(matches, 32 + 4096 + 1), 0)  # (what the pages before have, and one more)
            text[:] = bytes(len(text))
            self.assertEqual(sum(1 for _ in matches), most - 1)
        searcher = Search([b"a"])
        for call, most in ((searcher.finditer, 1 << 12), (searcher.finditer_overlapping, 1 << 15)):
            text = bytearray(b"a" * (3 * most))
            matches = call(text)
            deque(islice(matches, most + most // 2), 0)
            text[:] = bytes(len(text))
            self.assertLess(sum(1 for _ in matches), most)

    def test_given_back_when_it_is_gone(self):
        text = bytearray(b"a" * 100)
        matches = Search([b"a"]).finditer(text)
        next(matches)
        del matches
        text.clear()

    @unittest.skipIf(sys.version_info < (3, 12), "this Python calls no __release_buffer__")
    def test_given_back_once(self):
        """Though it goes on when its text is released."""
        class Lent:
            data, released = bytearray(b"aa"), 0

            def __buffer__(self, flags):
                return memoryview(self.data)

            def __release_buffer__(self, view):
                self.released += 1
                self.left = list(self.matches)
                view.release()

        text = Lent()
        text.matches = Search([b"a"]).finditer(text)
        self.assertEqual(len(list(text.matches)), 2)
        self.assertEqual((text.released, text.left), (1, []))
        text.data.clear()

    def test_given_back_by_the_collector(self):
        class Held(Search):
            """It can hold its own iterator."""

        text, searcher = bytearray(b"a" * 100), Held([b"a"])
        searcher.matches = searcher.finditer(text)
        del searcher
        gc.collect()
        text.clear()

    def test_cycles_are_collected(self):
        """Through a text, or a pattern, that holds what holds it."""
        for kind, given in ((Text, "a"), (Block, b"a")):
            text, word = kind(given), kind(given)
            text.holds = Search([given]).finditer(text)
            other = kind(given)
            other.holds = Search([given]).find(other)
            values = {given: kind(given)}
            searcher = values[given].holds = Search(values)
            gone = [weakref.ref(it) for it in (text, other, searcher)]
            if kind is Text:
                word.holds = Search([word])
                self.assertIn(word, word.holds)
                gone.append(weakref.ref(word.holds))
            del text, other, word, values, searcher
            gc.collect()
            self.assertEqual([it() for it in gone], [None] * len(gone))

    def test_cycles_of_streams(self):
        """Through a value, and only then the collector looks at a match."""
        for kind, given, file in (Text, "a", StringIO), (Block, b"a", BytesIO):
            for call in "finditer_stream", "finditer_overlapping_stream":
                plain, holds = Search([given]), kind(given)
                (match,) = getattr(plain, call)(file(given))
                held = [it for it in gc.get_referents(match) if it is not type(match)]
                self.assertEqual([gc.is_tracked(it) for it in (match, *held)], [False, False])
                (holds.holds,) = getattr(Search({given: holds}), call)(file(given))
                self.assertIs(holds.holds.value, holds)
                gone = weakref.ref(holds)
                del holds
                gc.collect()
                self.assertIsNone(gone())

    def test_asked_while_it_is_at_work(self):
        """By the handler of a signal that it sees."""
        matches = Search([b"\0"]).finditer(bytes(100000))
        self.addCleanup(signal.signal, signal.SIGINT, signal.signal(signal.SIGINT, lambda *_: next(matches)))
        with self.assertRaisesRegex(ValueError, "another thread is at work"):
            list(map(CALLED, [RAISED, functools.partial(next, matches)]))

    def test_side_by_side(self):
        """Threads may share an iterator: each match is given once."""
        matches, found = Search([b"\0"]).finditer(bytes(300000)), []

        def take():
            while True:
                try:
                    found.append(next(matches).start)
                except StopIteration:
                    return
                except ValueError:  # (another one is at work on it)
                    time.sleep(0)

        threads = [threading.Thread(target=take) for _ in range(4)]
        for thread in threads:
            thread.start()
        for thread in threads:
            thread.join()
        self.assertEqual(sorted(found), list(range(300000)))


class Threads(unittest.TestCase):
    def test_side_by_side(self):
        searcher = Search(WORDS)
        texts = [TEXT * (i + 1) for i in range(40)]
        with ThreadPoolExecutor(4) as pool:
            counts = list(pool.map(lambda it: len(searcher.findall(it)), texts))
        self.assertEqual(counts, [3 * (i + 1) for i in range(40)])

    def test_others_run_while_a_search_is_prepared(self):
        """In one of many tries, since the machine may be busy. No thread can take over between the calls of `map`."""
        word = b"ab" * (1 << 18)
        for _ in range(TRIES):
            lock, times = held_lock(), []
            other = threading.Thread(target=lambda: (lock.acquire(), times.append(time.perf_counter())))
            other.start()
            prepared = functools.partial(Search.__new__(Search)._prepare, (word,), *[0] * 4, None, None)
            *_, ended = chain(map(RELEASED, [lock]), map(CALLED, [prepared, time.perf_counter]))
            other.join()
            if times[0] < ended:
                return
        self.fail("no other thread runs")


class Interrupted(Exception):
    """What the handler of a signal raises."""


class Raising:
    """An offset of 0. No code of Python runs when it is asked for, and it raises a signal."""

    __index__ = staticmethod(RAISED)


class Signals(unittest.TestCase):
    def setUp(self):
        def handle(*_):
            raise Interrupted

        self.addCleanup(signal.signal, signal.SIGINT, signal.signal(signal.SIGINT, handle))

    def interrupted(self, answers):
        """The answers before a signal ends a call. What ends is the call: it has no answer."""
        answered = []
        with self.assertRaises(Interrupted):
            answered.extend(answers)
            self.fail("there was no signal")
        return answered

    def time_until_ended(self, call, given):
        """The processor's time until a signal has ended a call, which it gets after 0.05 seconds."""
        self.addCleanup(signal.signal, signal.SIGPROF, signal.signal(signal.SIGPROF, signal.getsignal(signal.SIGINT)))
        began = time.process_time()
        with self.assertRaises(Interrupted):
            signal.setitimer(signal.ITIMER_PROF, 0.05)
            call(given)
        return time.process_time() - began

    def test_how_far_a_search_goes(self):
        """With a signal that is there when it begins, it reads one piece, and what may be the rest of a match."""
        searcher = Search([b"needle"])
        searcher.find_overlapping(b"")
        for asked in asked_of(searcher):
            with tempfile.NamedTemporaryFile() as file:
                file.truncate(1 << 26)
                with mmap.mmap(file.fileno(), 0, access=mmap.ACCESS_READ) as text:
                    self.assertEqual(self.interrupted(asked([text], [Raising()])), [])
                    self.assertLess(kibibytes_read(file.name), 2048)

    def test_between_pages_of_matches(self):
        searcher, text = Search([b"a" * 1000 + b"b", b"a"]), bytearray(b"a" * (1 << 21))
        for call in (searcher.findall, searcher.count, searcher.find_overlapping, functools.partial(searcher.sub, b"")):
            self.assertEqual(self.interrupted(map(call, [text], [Raising()])), [])
            text += b"a"  # (it is given back)

    def test_between_pages_of_whole_words(self):
        """Many patterns begin at each word, so pieces are shorter."""
        searcher, text = Search([" ".join(it * "a") for it in range(1, 301)], whole_words=True), "a " * (1 << 18)
        for call in searcher.findall, searcher.count:
            self.assertEqual(self.interrupted(map(call, [text], [Raising()])), [])

    def test_of_nested_words(self):
        """Many patterns begin at each place, and none is a whole word. A call goes on for some times as long as it
        searches as many bytes as the longest pattern has."""
        nested, text = ["-a-" * it + "-" for it in range(1, 401)], "-a-" * (1 << 21)
        searcher = Search(nested, whole_words=True)
        began = time.process_time()
        self.assertEqual(searcher.count(text[: len(nested[-1]) - 1]), 0)
        most = max(0.2, 6 * (time.process_time() - began))
        for call, given in product((searcher.find, searcher.count, searcher.findall), (text, text + "é")):
            self.assertLess(self.time_until_ended(call, given), 0.05 + most)

    def test_in_a_part(self):
        """Each page of matches looks up some times as many bytes as the long pattern has."""
        searcher, text = Search([b"a" * (1 << 18) + b"b", b"a"]), b"a" * (1 << 24)
        self.assertLess(self.time_until_ended(searcher.count_stream, BytesIO(text)), 1)

    def test_of_another_thread(self):
        """It waits for a lock, which is released right before the search, so it runs during the search. The text would
        take far longer, and is given back."""
        for asked in asked_of(Search([b"needle"])):
            with zeros(LONG) as text:
                lock = held_lock()
                other = threading.Thread(target=lambda: (lock.acquire(), signal.raise_signal(signal.SIGINT)))
                other.start()
                answers = chain(map(RELEASED, [lock]), asked([text]), map(JOINED, [other]))
                self.assertEqual(self.interrupted(answers), [None])


if __name__ == "__main__":
    unittest.main()
