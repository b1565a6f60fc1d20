"""Finds words in a column of the CSV files of a folder, by a cluster of Dask: dask_columns.py FOLDER COLUMN WORD...

Prints a table as CSV with a row for each match: the file, the row in it, the word, and where it starts and ends in the
cell. Rows and characters are counted from 0. The files are read where the workers run, so all of them need the folder.
"""
import argparse
import os
import sys

import dask
import dask.dataframe
import pandas
from distributed import Client

from literal_search import Kind, Search

COLUMNS = {"file": "object", "row": "int64", "word": "object", "start": "int64", "end": "int64"}


def matches_in(table, column, searcher):
    """The matches in a partition, which is one file. One call finds all of them."""
    rows, patterns, starts, ends = searcher.find_columns_each(table[column])
    files = table["file"].astype("object").take(rows).to_numpy()
    words = pandas.Series(searcher.patterns, dtype="object").take(patterns).to_numpy()
    return pandas.DataFrame({"file": files, "row": rows, "word": words, "start": starts, "end": ends}).astype(COLUMNS)


def found(client, searcher, pattern, column):
    """The matches in all files. Each worker gets the searcher once, and builds nothing."""
    there = dask.delayed(client.scatter(searcher, broadcast=True))
    how = {"usecols": [column], "dtype": str, "keep_default_na": False}
    table = dask.dataframe.read_csv(pattern, blocksize=None, include_path_column="file", **how)
    return table.map_partitions(matches_in, column, there, meta=COLUMNS).compute()


def main():
    parser = argparse.ArgumentParser(description=__doc__, formatter_class=argparse.RawDescriptionHelpFormatter)
    parser.add_argument("folder")
    parser.add_argument("column")
    parser.add_argument("words", nargs="+", metavar="WORD")
    parser.add_argument("-s", "--scheduler", help="the address of a cluster, instead of workers on this machine")
    parser.add_argument("-w", "--workers", type=int, default=os.cpu_count(), help="worker processes on this machine")
    options = parser.parse_args()
    searcher, pattern = Search(options.words, Kind.LEFTMOST_LONGEST), os.path.join(options.folder, "*.csv")
    here = {"n_workers": options.workers, "threads_per_worker": 1, "dashboard_address": None}
    with Client(options.scheduler, **({} if options.scheduler else here)) as client:
        matches = found(client, searcher, pattern, options.column)
    matches.to_csv(sys.stdout, index=False)
    return 0 if len(matches) else 1


if __name__ == "__main__":
    sys.exit(main())
