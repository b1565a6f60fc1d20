"""The examples for Dask, on a cluster of two worker processes, where Python has Dask's package `distributed`."""
import subprocess
import sys
import tempfile
import unittest
from importlib.util import find_spec
from pathlib import Path

from shared import tearDownModule

EXAMPLES = Path(__file__).parent.parent / "examples"
LIMIT = 120  # seconds


class Example(unittest.TestCase):
    def run_example(self, *words):
        given = [sys.executable, EXAMPLES / self.name, "-w", "2", *words]
        ran = subprocess.run(given, capture_output=True, text=True, timeout=LIMIT)
        return ran.returncode, ran.stdout, ran.stderr


@unittest.skipUnless(find_spec("distributed"), "Dask is not installed")
class Files(Example):
    name = "dask_search.py"

    def test_counts_are_summed(self):
        with tempfile.TemporaryDirectory() as folder:
            for i in range(40):
                Path(folder, f"{i}.txt").write_text("a maple " * i + "apple maples", "utf-8")
            code, counts, why = self.run_example(folder, "maple", "apple", "maples", "fig")
        self.assertEqual((code, counts), (0, f"{sum(range(40))} maple\n40 apple\n40 maples\n0 fig\n"), why)

    def test_an_empty_folder(self):
        with tempfile.TemporaryDirectory() as folder:
            self.assertEqual(self.run_example(folder, "fig")[:2], (1, "0 fig\n"))
            code, counts, why = self.run_example(f"{folder}/none", "fig")
        self.assertEqual((code, counts), (1, ""), why)
        self.assertIn("FileNotFoundError", why)


@unittest.skipUnless(find_spec("distributed") and find_spec("pandas"), "Dask or pandas is not installed")
class Columns(Example):
    name = "dask_columns.py"

    def test_matches_of_all_files(self):
        with tempfile.TemporaryDirectory() as folder:
            for i, rows in enumerate(("1,é maple", "2,\n3,NA\n4", '5,fog\n6,"a figs,\nfig"', "7,55", "")):
                Path(folder, f"{i}.csv").write_text(f"id,note\n{rows}\n", "utf-8")
            code, table, why = self.run_example(folder, "note", "fig", "maple", "figs", "NA", "5")
        rows = ["0.csv,0,maple,2,7", "1.csv,1,NA,0,2", "2.csv,1,figs,2,6", "2.csv,1,fig,8,11", "3.csv,0,5,0,1",
                "3.csv,0,5,1,2"]
        wanted = ["file,row,word,start,end", *(f"{folder}/{it}" for it in rows)]
        self.assertEqual((code, table.splitlines()), (0, wanted), why)

    def test_nothing_to_find(self):
        with tempfile.TemporaryDirectory() as folder:
            Path(folder, "a.csv").write_text("id,note\n1,maple\n", "utf-8")
            self.assertEqual(self.run_example(folder, "note", "fig")[:2], (1, "file,row,word,start,end\n"))
            for words, wanted in (([folder, "text"], "ValueError"), ([f"{folder}/none", "note"], "no files")):
                code, table, why = self.run_example(*words, "fig")
                self.assertEqual((code, table), (1, ""), why)
                self.assertIn(wanted, why)


@unittest.skipUnless(find_spec("dask"), "Dask is not installed")
class Tokens(unittest.TestCase):
    def test_equal_for_equal_searchers(self):
        said = "from dask.base import tokenize; from literal_search import Search; print(tokenize(Search({0})))"
        tokens = [subprocess.run([sys.executable, "-c", said.format(words)], capture_output=True, text=True).stdout
                  for words in ("['a']", "('a',)", "['b']", "[b'a']")]
        self.assertEqual([tokens.index(it) for it in tokens], [0, 0, 2, 3])
