"""Times of a search beside Python's `re` and, where it is installed, `ahocorasick` of the package pyahocorasick.

  python3 times.py [MEBIBYTES...]

The text is a str of the machine's source code and pages: half from below /usr/lib/python3, half from below /usr/share,
the files that are UTF-8, of each at most 256 KiB, in the order of their paths, over again if they are too few. The words
are those of 4 letters or more that stand in it most often. For each number of words, with case kept and ignored, one row
tells how many matches there are, and in how many milliseconds `count` counts them, `findall` lists them, and the other
two give them one after another. A second table tells in how many microseconds the first match of a line of 80 characters
is found, all of its matches are replaced, and it is split at them; its last row has a word that no line has. Then follows
what threads bring. Each time is the least of some runs in turns; `re` with more than 16 words has only one mebibyte to
search, for which its time is multiplied. `ahocorasick` knows no case, and replaces and splits nothing: where case is
ignored, the text is made small first, and what it found is put together by slices, which is part of its time.
"""
import collections
import os
import re
import sys
import time
from concurrent.futures import ThreadPoolExecutor

from literal_search import Kind, Search

try:
    import ahocorasick
except ImportError:
    ahocorasick = None

FOLDERS, MOST_OF_A_FILE = ("/usr/lib/python3", "/usr/share"), 1 << 18
COUNTS, RUNS, LINES, WIDTH, THREADS = (1, 3, 16, 128, 2000), 3, 2000, 80, 4


def files(top):
    """The texts in a folder."""
    for folder, folders, names in os.walk(top):
        folders.sort()
        for name in sorted(names):
            try:
                with open(os.path.join(folder, name), encoding="utf-8") as file:
                    yield file.read(MOST_OF_A_FILE)
            except (OSError, UnicodeDecodeError):
                pass


def text_of(size):
    """A text of so many bytes in UTF-8, or a few more."""
    parts = []
    for top in FOLDERS:
        left = size // len(FOLDERS)
        while left > 0:
            for part in files(top):
                parts.append(part.encode()[:left].decode(errors="ignore") + "\n")
                left -= len(parts[-1].encode())
                if left <= 0:
                    break
    return "".join(parts)


def parts_of(automaton, folded, text):
    """What stands between the matches of `ahocorasick`."""
    parts, at = [], 0
    for last, length in automaton.iter_long(folded(text)):
        parts.append(text[at : last + 1 - length])
        at = last + 1
    return [*parts, text[at:]]


def searches(words, ignore_case):
    """For each search its name, what counts the matches of a text, and what finds, replaces and splits in a line."""
    searcher = Search(words, Kind.LEFTMOST_LONGEST, "ascii" if ignore_case else False)
    yield "count", searcher.count, ()
    yield ("findall", lambda text: len(searcher.findall(text)),
           (searcher.find, lambda line: searcher.sub("-", line), searcher.split))
    longest_first = sorted(words, key=len, reverse=True)
    regex = re.compile("|".join(map(re.escape, longest_first)), re.ASCII | re.IGNORECASE if ignore_case else 0)
    yield ("re", lambda text: sum(1 for _ in regex.finditer(text)),
           (regex.search, lambda line: regex.sub("-", line), regex.split))
    if ahocorasick:
        automaton = ahocorasick.Automaton()
        for word in words:
            automaton.add_word(word.lower() if ignore_case else word, len(word))
        automaton.make_automaton()
        folded = str.lower if ignore_case else str
        yield ("ahocorasick", lambda text: sum(1 for _ in automaton.iter_long(folded(text))),
               (lambda line: next(automaton.iter_long(folded(line)), None),
                lambda line: "-".join(parts_of(automaton, folded, line)),
                lambda line: parts_of(automaton, folded, line)))


def seconds(call, *given):
    """How long a call takes, and what it answers."""
    started = time.perf_counter()
    answer = call(*given)
    return time.perf_counter() - started, answer


def each_line(call, lines):
    for line in lines:
        call(line)


def row(words, ignore_case, text):
    """Measures all searches in a long text, in turns."""
    matches, best = 0, {}
    for _ in range(RUNS):
        for name, count, _ in searches(words, ignore_case):
            part = len(text) >> 20 if name == "re" and len(words) > 16 else 1
            took, found = seconds(count, text[: len(text) // part])
            best[name] = min(took * part, best.get(name, took * part))
            matches = found if name == "count" else matches
    return [matches, *(f"{it * 1e3:.0f}" for it in best.values())]


def row_of_lines(words, ignore_case, lines):
    """Measures all calls for a line, in turns."""
    best = {}
    for _ in range(RUNS):
        for name, _, calls in searches(words, ignore_case):
            for i, call in enumerate(calls):
                took, _ = seconds(each_line, call, lines)
                best[i, name] = min(took, best.get((i, name), took))
    return [f"{best[it] / len(lines) * 1e6:.2f}" for it in sorted(best, key=lambda it: it[0])]


def table(heads, rows):
    """Prints a table, each row once it is measured."""
    print(f"| {' | '.join(heads)} |\n{len(heads) * '|---'}|")
    for cells in rows:
        print(f"| {' | '.join(map(str, cells))} |", flush=True)
    print()


def threads(words, text):
    """Measures `count` of pieces of a text, with one thread and with some."""
    searcher, size = Search(words), len(text) // (4 * THREADS) + 1
    parts, best = [text[at : at + size] for at in range(0, len(text), size)], {}
    for _ in range(RUNS):
        for count in (1, THREADS):
            with ThreadPoolExecutor(count) as pool:
                took, _ = seconds(lambda: list(pool.map(searcher.count, parts)))
            best[count] = min(took, best.get(count, took))
    print(f"{len(words)} words, `count` with 1 thread {best[1] * 1e3:.0f} ms, with {THREADS} {best[THREADS] * 1e3:.0f} ms: "
          f"{best[1] / best[THREADS]:.1f} times as fast", flush=True)


def main():
    for size in map(int, sys.argv[1:] or ["8", "64"]):
        text = text_of(size << 20)
        often = collections.Counter(re.findall(r"[A-Za-z]{4,}", text)).most_common(max(COUNTS))
        lines = [text[at : at + WIDTH] for at in range(0, WIDTH * LINES, WIDTH)]
        print(f"\n{size} MiB, {len(text)} characters\n")
        other = ["`re`", "`ahocorasick`"] if ahocorasick else ["`re`"]
        lists = [([word for word, _ in often[:count]], ignore_case) for count in COUNTS for ignore_case in (False, True)]
        named = [(len(words), "ignored" if ignore_case else "kept") for words, ignore_case in lists]
        table(["Words", "Case", "Matches", "`count`", "`findall`", *other],
              ((*name, *row(*it, text)) for name, it in zip(named, lists)))
        table(["Words", "Case", *(head for call in ("find", "sub", "split") for head in (f"`{call}`", *other))],
              ((*name, *row_of_lines(*it, lines)) for name, it in
               zip([*named, ("1, absent", "kept")], [*lists, (["qzxvk"], False)])))
        for count in COUNTS:
            threads([word for word, _ in often[:count]], text)


if __name__ == "__main__":
    main()
