"""Prints where some words stand in the files of a folder and the folders below it: search_folder.py FOLDER WORD...

Each line is the path of a file, the offset of a match in it, and the word. The files are searched side by side, and
printed in the order of their paths. On a terminal a line on standard error tells how far it is.
"""
import argparse
import mmap
import os
import sys
from concurrent.futures import ThreadPoolExecutor

from literal_search import Kind, Search


def paths_in(folder):
    """The regular files below a folder, in the order of their paths."""
    found = []
    for place, _, names in os.walk(folder):
        found += [os.path.join(place, name) for name in names]
    return sorted(path for path in found if os.path.isfile(path) and not os.path.islink(path))


def matches_in(searcher, path):
    """All matches in a file, which is mapped and not read, or what Python says of a file that cannot be."""
    try:
        with open(path, "rb") as file:
            if os.fstat(file.fileno()).st_size == 0:
                return []  # (no file without a byte can be mapped)
            with mmap.mmap(file.fileno(), 0, access=mmap.ACCESS_READ) as text:
                return searcher.findall(text)
    except OSError as why:
        return why


def main():
    parser = argparse.ArgumentParser(description=__doc__, formatter_class=argparse.RawDescriptionHelpFormatter)
    parser.add_argument("folder")
    parser.add_argument("words", nargs="+", metavar="WORD")
    parser.add_argument("-i", "--ignore-case", action="store_true", help="A to Z are the same as a to z")
    parser.add_argument("-t", "--threads", type=int, default=os.cpu_count(), help="searches side by side")
    options = parser.parse_args()
    words = [os.fsencode(word) for word in options.words]
    try:
        searcher = Search(words, Kind.LEFTMOST_LONGEST, options.ignore_case)
    except ValueError as why:
        parser.error(str(why))
    if not os.path.isdir(options.folder):
        parser.error(f"{options.folder} is not a folder")
    paths, count, failed = paths_in(options.folder), 0, 0
    with ThreadPoolExecutor(options.threads) as pool:
        results = pool.map(lambda path: matches_in(searcher, path), paths)
        for done, (path, found) in enumerate(zip(paths, results), 1):
            if isinstance(found, OSError):
                print(f"{path}: {found.strerror}", file=sys.stderr)
                failed, found = failed + 1, []
            for it in found:
                print(f"{path}:{it.start}: {os.fsdecode(words[it.pattern])}")
            count += len(found)
            if sys.stderr.isatty():
                print(f"\r{done} of {len(paths)} files, {count} matches", end="", file=sys.stderr, flush=True)
    if sys.stderr.isatty():
        print(file=sys.stderr)
    return 2 if failed else 0 if count else 1


if __name__ == "__main__":
    sys.exit(main())
