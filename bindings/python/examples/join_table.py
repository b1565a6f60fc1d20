"""Joins the words in a column of a table to their values, by pandas.

  python3 join_table.py TABLE.csv COLUMN WORDS.csv

WORDS.csv has the columns `word` and `value`. Prints the table as CSV, with a row for each match, whatever its case, of a
whole word in the column, and the columns `word`, `value`, `start` and `end`. Rows without a match are left out.
"""
import sys

import pandas

from literal_search import Kind, Search


def joined(table, column, words):
    """The rows of a table in which words of a Series occur, once for each match, with the value of its word."""
    searcher = Search(words.to_dict(), Kind.LEFTMOST_LONGEST, ignore_case=True, whole_words=True)
    rows, patterns, starts, ends = searcher.find_columns_each(table[column], skip_missing=True)
    values = pandas.DataFrame({"word": searcher.patterns, "value": searcher.values}).take(patterns)
    found = table.take(rows).reset_index(drop=True)
    return found.join(values.assign(start=starts, end=ends).reset_index(drop=True))


def main():
    path, column, words_path = sys.argv[1:]
    words = pandas.read_csv(words_path).set_index("word")["value"]
    joined(pandas.read_csv(path), column, words).to_csv(sys.stdout, index=False)


if __name__ == "__main__":
    main()
