"""Counts words in the files of a folder and the folders below it, by a cluster of Dask: dask_search.py FOLDER WORD...

Each line has a number of matches and the word. The files are read where the workers run, so all of them need the folder.
"""
import argparse
import operator
import os
import sys
from collections import Counter

import dask
import dask.bag
from distributed import Client

from literal_search import Kind, Search


def refuse(why):
    """Raises what os.walk would pass over: a folder that can't be read."""
    raise why


def paths_in(folder):
    """The regular files below a folder."""
    found = [os.path.join(place, name) for place, _, names in os.walk(folder, onerror=refuse) for name in names]
    return sorted(path for path in found if os.path.isfile(path) and not os.path.islink(path))


def counts_in(path, searcher):
    """How often each pattern occurs in a file, by the number of the pattern. An error of a file ends the program."""
    with open(path, "rb") as file:
        return Counter(it.pattern for it in searcher.finditer_stream(file))


def counted(client, searcher, paths):
    """The sum over all files. Each worker gets the searcher once, and builds nothing."""
    there = dask.delayed(client.scatter(searcher, broadcast=True))
    counts = dask.bag.from_sequence(paths).map(counts_in, searcher=there)
    return counts.fold(operator.add, initial=Counter()).compute()


def main():
    parser = argparse.ArgumentParser(description=__doc__, formatter_class=argparse.RawDescriptionHelpFormatter)
    parser.add_argument("folder")
    parser.add_argument("words", nargs="+", metavar="WORD")
    parser.add_argument("-s", "--scheduler", help="the address of a cluster, instead of workers on this machine")
    parser.add_argument("-w", "--workers", type=int, default=os.cpu_count(), help="worker processes on this machine")
    options = parser.parse_args()
    words = [os.fsencode(word) for word in options.words]
    searcher, paths = Search(words, Kind.LEFTMOST_LONGEST), paths_in(options.folder)
    here = {"n_workers": options.workers, "threads_per_worker": 1, "dashboard_address": None}
    with Client(options.scheduler, **({} if options.scheduler else here)) as client:
        counts = counted(client, searcher, paths) if paths else Counter()
    for number, word in enumerate(options.words):
        print(counts[number], word)
    return 0 if counts else 1


if __name__ == "__main__":
    sys.exit(main())
