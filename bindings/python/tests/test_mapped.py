"""Searchers whose files are mapped into memory, also files that change meanwhile."""
import os
import pickle
import struct
import sys
import tempfile
import threading
import unittest
from io import BytesIO
from pathlib import Path

import literal_search
from literal_search import Kind, Search

from shared import tearDownModule
from test_columns import Column

WORDS = [b"apple", b"maple", b"Snapple"]
TEXT = b"Nobody likes maple in their apple flavored Snapple."
AT = literal_search._HEAD.size  # where in a file its array begins


def answers_of(searcher, text):
    """Yields what each call by the mapped array answers, or None if that is damaged."""
    calls = [searcher.find, searcher.findall, searcher.count, searcher.is_match, searcher.split, searcher.find_columns,
             searcher.findall_strings, lambda it: list(searcher.finditer(it)), lambda it: searcher.sub(it[:1], it),
             lambda it: searcher.sub(searcher.values, it), lambda it: [match.value for match in searcher.findall(it)],
             lambda it: searcher.find_each(Column([it], b"z" if isinstance(it, bytes) else b"u"))]
    if not searcher.whole_words and isinstance(text, bytes):
        calls.append(lambda it: [match.value for match in searcher.finditer_stream(BytesIO(it))])
    for call in calls:
        try:
            yield call(text)
        except ValueError:
            yield None


class Mapped(unittest.TestCase):
    def setUp(self):
        room = tempfile.TemporaryDirectory()
        self.addCleanup(room.cleanup)
        self.path = Path(room.name, "a file")

    def places(self):
        """How many parts of the file are mapped here, and how many files are open."""
        mapped = Path("/proc/self/maps").read_text("utf-8", "replace")
        return mapped.count(f"{self.path.parent}/"), len(os.listdir("/proc/self/fd"))

    def test_as_it_is_read(self):
        for words, text in ((WORDS, TEXT), (["äpple", "ma\ud7ffple", "b"], "An ÄPPLE, b äpple"), ([], b"a"),
                            ([b"x" * it for it in range(1, 8)], b"xx xxx")):
            for kind in Kind:
                for settings in ({}, {"ignore_case": True}, {"whole_words": True}, {"ignore_case": "ascii"}):
                    Search(words, kind, **settings).save(self.path)
                    read, mapped = Search.load(self.path), Search.load(os.fspath(self.path), mmap=True)
                    self.assertEqual((type(read._prepared), type(mapped._prepared)), (bytes, memoryview))
                    self.assertEqual((mapped, list(mapped), mapped.kind), (read, words, kind))
                    self.assertEqual([*answers_of(mapped, text)], [*answers_of(read, text)])
                    if not mapped.whole_words:
                        self.assertEqual(mapped.find_overlapping(text), read.find_overlapping(text))

    def test_the_memory_is_that_of_the_file(self):
        before = self.places()
        Search([b"ab" * 5000]).save(self.path)
        searcher = Search.load(self.path, mmap=True)
        self.assertGreater(self.places()[0], before[0])
        self.assertLess(sys.getsizeof(searcher), len(searcher._prepared) // 4)
        self.assertRaises(TypeError, lambda: searcher._prepared.__setitem__(0, 1))
        del searcher
        self.assertEqual(self.places(), before)

    def test_copies(self):
        Search(WORDS, ignore_case=True).save(self.path)
        searcher, buffers = Search.load(self.path, mmap=True), []
        copies = [pickle.loads(pickle.dumps(searcher, protocol)) for protocol in range(6)]
        copies.append(pickle.loads(pickle.dumps(searcher, 5, buffer_callback=buffers.append), buffers=buffers))
        searcher.save(self.path)
        copies += [Search.load(self.path), Search.load(self.path, mmap=True)]
        for it in copies:
            self.assertEqual((it, it.findall(TEXT)), (searcher, searcher.findall(TEXT)))

    def test_another_file_in_its_place(self):
        """What is mapped stays as it was, also if the file is removed."""
        Search([b"a"]).save(self.path)
        searcher = Search.load(self.path, mmap=True)
        Search([b"b", b"c"] * 2000).save(self.path)
        self.assertEqual((searcher.find(b"ba"), Search.load(self.path, mmap=True).find(b"ba")), ((0, 1, 2), (0, 0, 1)))
        self.path.unlink()
        self.assertEqual(searcher.find(b"ba"), (0, 1, 2))

    def test_damaged(self):
        Search(WORDS).save(self.path)
        whole, before = self.path.read_bytes(), self.places()
        parts = [b"", whole[:10], whole[:-1], whole + b"a"]
        parts += [whole[:at] + b"\xaa" + whole[at + 1 :] for at in (0, AT, 200)]
        for part in parts:
            self.path.write_bytes(part)
            with self.assertRaisesRegex(ValueError, "a file' is not a file that Search.save wrote, or it is damaged"):
                Search.load(self.path, mmap=True)
        self.assertEqual(self.places(), before)
        with self.assertRaises(FileNotFoundError):
            Search.load(self.path.with_name("none"), mmap=True)

    def test_what_is_no_regular_file_is_read(self):
        os.mkfifo(self.path)
        writer = threading.Thread(target=Search(WORDS).save, args=[self.path])
        writer.start()
        searcher = Search.load(self.path, mmap=True)
        writer.join()
        self.assertEqual((type(searcher._prepared), searcher), (bytes, Search(WORDS)))

    def test_an_array_between_the_places_of_numbers(self):
        searcher = Search([b"ab"])
        for shift in range(4):
            kept = memoryview(bytes(shift) + searcher._prepared)[shift:]
            made = Search.__new__(Search)
            if shift == 0:
                made._prepare([b"ab"], 0, False, False, False, kept, None)
                self.assertEqual(made.find(b"xab"), (0, 1, 3))
            else:
                with self.assertRaisesRegex(ValueError, "damaged"):
                    made._prepare([b"ab"], 0, False, False, False, kept, None)

    def test_a_file_that_changes(self):
        """Each number of the array is another one after the file was checked. Answers may be wrong, or damage is found;
        but each call returns, and a match has one of the patterns and lies in the text."""
        for words, text, settings in (([b"ab", b"b", b"abc"], b"ab b xabcab", {}), (["é", "éa"], "xéa é, é", {}),
                                      ([b"ab", b"b"], b"ab b ab", {"whole_words": True}),
                                      (["é", "ab"], "é ab É", {"whole_words": True, "ignore_case": True})):
            Search(words, **settings).save(self.path)
            searcher, whole = Search.load(self.path, mmap=True), self.path.read_bytes()
            wanted, count = [*answers_of(searcher, text)], len(searcher._prepared) // 4
            file = os.open(self.path, os.O_WRONLY)
            self.addCleanup(os.close, file)
            for at in range(count):
                for new in (0, 1, 3, 5000, 1 << 31, (1 << 32) - 1):
                    os.pwrite(file, struct.pack("=L", new), AT + 4 * at)
                    for answer in answers_of(searcher, text):
                        self.check(answer, len(words), len(text))
                    os.pwrite(file, whole, 0)
            self.assertEqual([*answers_of(searcher, text)], wanted)

    def test_a_file_with_an_array_for_more_patterns(self):
        """It is whole, but its patterns are not those of the searcher."""
        for words, settings in (([b"y", b"z"], {}), ([b"y", b"z"], {"whole_words": True}), (["y", "z"], {})):
            text = words[1] + words[0]
            Search([words[0] * 200], **settings).save(self.path)
            searcher, other = Search.load(self.path, mmap=True), Search(words, **settings)._prepared
            self.assertLess(len(other), len(searcher._prepared))
            with open(self.path, "r+b") as file:
                file.seek(AT)
                file.write(other)
            for it in (words[1], text):
                for answer in answers_of(searcher, it):
                    self.check(answer, 1, len(it))
            self.assertRaisesRegex(ValueError, "damaged", searcher.find, words[1])
            self.assertRaisesRegex(ValueError, "damaged", searcher.findall, words[1])

    def check(self, answer, patterns, size):
        matches = answer if isinstance(answer, list) else [answer]
        for it in matches:
            if isinstance(it, literal_search.Match):
                self.assertTrue(it.pattern < patterns and 0 <= it.start <= it.end <= size, it)


if __name__ == "__main__":
    unittest.main()
