"""Finds words in the lines of a file, by many processes: many_processes.py FILE WORD...

Prints for each match its line, from 1, its offset there in bytes, and its word. All processes map one saved search.
"""
import multiprocessing
import os
import sys
import tempfile

from literal_search import Kind, Search

SIZE = 1 << 20  # bytes of a chunk, without the rest of its last line


def begin(saved, path):
    """Opens the search and the file in a process of the pool."""
    global searcher, file
    searcher, file = Search.load(saved, mmap=True), open(path, "rb")


def chunks(path):
    """The offsets at which the chunks of a file start."""
    with open(path, "rb") as text:
        while text.peek(1):
            start = text.tell()
            yield start
            text.seek(start + SIZE)
            text.readline()


def matches_in(start):
    """How many lines a chunk has, and for each match its line there from 0, the pattern, its start and its end."""
    file.seek(start)
    lines = (file.read(SIZE) + file.readline()).split(b"\n")
    return len(lines) - 1, [*zip(*searcher.find_columns_each(lines))]


def main(path, *words):
    with tempfile.TemporaryDirectory() as folder:
        saved, line = os.path.join(folder, "words"), 1
        Search([os.fsencode(word) for word in words], Kind.LEFTMOST_LONGEST).save(saved)
        with multiprocessing.get_context("spawn").Pool(initializer=begin, initargs=(saved, path)) as pool:
            for lines, matches in pool.imap(matches_in, chunks(path)):
                for row, pattern, start, _ in matches:
                    print(line + row, start, words[pattern])
                line += lines


if __name__ == "__main__":
    main(*sys.argv[1:])
