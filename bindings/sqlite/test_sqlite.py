"""The extension for SQLite, in the SQLite of this Python, and in the program sqlite3 where that is installed.
LITERAL_SQLITE names the extension, and LITERAL_SQLITE_REFUSED the program that refuses memory."""
import json
import os
import random
import re
import shutil
import sqlite3
import subprocess
import sys
import time
import unittest
from pathlib import Path

BINDINGS = Path(__file__).resolve().parent.parent
sys.path.append(str(BINDINGS / "python/tests"))

import plain

EXTENSION = os.environ.get("LITERAL_SQLITE", str(BINDINGS / "out/literal_sqlite.so"))
REFUSED = os.environ.get("LITERAL_SQLITE_REFUSED", "")
LISTS = 8  # that a connection keeps
PAGE = 128  # matches that are found at once


class Extension(unittest.TestCase):
    def setUp(self):
        self.db = sqlite3.connect(":memory:")
        self.addCleanup(self.db.close)
        self.db.enable_load_extension(True)
        self.db.load_extension(EXTENSION)

    def rows(self, sql, *given):
        return self.db.execute(sql, given).fetchall()

    def one(self, sql, *given):
        ((answer,),) = self.rows(f"SELECT {sql}", *given)
        return answer

    def refused(self, why, sql, *given):
        with self.assertRaisesRegex((sqlite3.OperationalError, sqlite3.DataError), why):
            self.rows(sql, *given)

    def matches(self, text, words):
        """What the table has to have, by characters or bytes."""
        given = [it if isinstance(text, str) else it.encode() for it in words]
        found = plain.find_all(given, False, False, text, 0, len(text))
        return [(words[it], it, start + 1, end - start) for it, start, end in found]

    def check(self, text, words, given=None):
        """By a JSON array or, if there is one, by a handle."""
        wanted, given = self.matches(text, words), given or json.dumps(words)
        self.assertEqual(self.rows("SELECT word, pattern, start, length FROM lit_matches(?, ?)", text, given), wanted)
        self.assertEqual(self.one("lit_count(?, ?)", text, given), len(wanted))
        self.assertEqual(self.one("lit_has(?, ?)", text, given), bool(wanted))
        self.assertEqual(self.one("lit_first(?, ?)", text, given), wanted[0][0] if wanted else None)


class Functions(Extension):
    def test_by_hand(self):
        words = '["maple", "apple"]'
        self.assertEqual(self.rows("SELECT * FROM lit_matches('éapple, maple', ?)", words),
                         [("apple", 1, 2, 5), ("maple", 0, 9, 5)])
        self.assertEqual(self.rows("SELECT lit_has(t, ?1), lit_count(t, ?1), lit_first(t, ?1) "
                                   "FROM (SELECT 'an apple, maple' AS t UNION ALL SELECT 'fig')", words),
                         [(1, 2, "apple"), (0, 0, None)])

    def test_texts(self):
        for text in "", "x", "aab", "éaß日🐍a", "a\0b", "ab" * PAGE, "é" * PAGE + "a" * PAGE, "a" * (3 * PAGE):
            for words in [], ["a"], ["b", "ab"], ["é", "🐍a"], ["x" * 40]:
                self.check(text, words)
                self.check(text.encode(), words)

    def test_random_texts(self):
        chance = random.Random(5)
        for _ in range(200):
            words = ["".join(chance.choices("abä", k=chance.randint(1, 3))) for _ in range(chance.randint(0, 5))]
            self.check("".join(chance.choices("abäö ", k=chance.randint(0, 30))), words)

    def test_substr(self):
        """`start` and `length` are as substr and instr count them."""
        text = "日本 maple é🐍 maple"
        rows = self.rows("SELECT substr(?1, start, length), instr(?1, word), start FROM lit_matches(?1, ?2)", text,
                         '["maple", "🐍"]')
        self.assertEqual(rows, [("maple", 4, 4), ("🐍", 11, 11), ("maple", 4, 13)])

    def test_null(self):
        for text, words in (None, '["a"]'), ("a", None), (None, None), (None, "no array"):
            for call in "lit_has", "lit_count", "lit_first":
                self.assertIsNone(self.one(f"{call}(?, ?)", text, words))
            self.assertEqual(self.rows("SELECT * FROM lit_matches(?, ?)", text, words), [])

    def test_numbers_and_blobs(self):
        self.assertEqual(self.rows("SELECT lit_count(1212, '[\"12\"]'), lit_count(1.5, '[\".\"]')"), [(2, 1)])
        self.assertEqual(self.rows("SELECT start, length FROM lit_matches(x'C3A961', '[\"a\"]')"), [(3, 1)])
        self.assertEqual(self.one("lit_count(zeroblob(2000) || 'a', ?)", '["a"]'), 1)
        self.assertEqual(self.one("lit_has(zeroblob(0), ?)", '["a"]'), 0)
        self.assertEqual(self.rows("SELECT typeof(text), typeof(words) FROM lit_matches(x'61', '[\"a\"]')"),
                         [("blob", "text")])

    def test_words_that_are_refused(self):
        for words, why in (("{}", "not a JSON array"), ("5", "not a JSON array"), (5, "not a JSON array"),
                           ("", "not a JSON array"), (" ", "not a JSON array"), (b'["a"]', "not a JSON array"),
                           ('["a"', "malformed JSON"), ('["a", 5]', "the word at index 1 is no text"),
                           ('["a", "b", null]', "the word at index 2 is no text"), ('[["a"]]', "index 0 is no text"),
                           ('["a", ""]', "the word at index 1 is empty"),
                           (r'["a\u0000b"]', "the words have the character"), (r'["\\\u0000"]', "the words have"),
                           ('["a"]\0', "the words have the character")):
            for call in "lit_has(?, ?)", "lit_count(?, ?)", "lit_first(?, ?)", "* FROM lit_matches(?, ?)":
                self.refused(why, f"SELECT {call}", "a", words)
        self.assertEqual(self.one("lit_has('a', ?)", ' \t\n\r[ "a" ]'), 1)
        self.assertEqual(self.one(r"lit_first('\u0000', ?)", r'["\\u0000"]'), r"\u0000")
        self.refused("no query solution", "SELECT * FROM lit_matches('a')")

    def test_a_table_with_the_name_of_a_function(self):
        """No table takes the place of the function by which words are read."""
        self.db.execute("CREATE TABLE json_each(value, type)")
        self.assertEqual(self.one("lit_first('a fig', '[\"fig\"]')"), "fig")

    def test_limits(self):
        self.refused("too big", "SELECT lit_has(zeroblob(1000000001), '[\"a\"]')")
        self.assertEqual(self.one("lit_count(zeroblob(50000000) || 'ab', ?)", '["ab"]'), 1)
        if hasattr(self.db, "setlimit"):
            self.db.setlimit(sqlite3.SQLITE_LIMIT_LENGTH, 1000)
            self.refused("too big", "SELECT lit_has(zeroblob(1001), '[\"a\"]')")

    def test_interrupted(self):
        """While a long list is read."""
        words = json.dumps(["a"] * 10000)
        self.db.set_progress_handler(lambda: 1, 10000)
        self.refused("interrupted", "SELECT lit_has('a', ?)", words)
        self.db.set_progress_handler(None, 0)
        self.assertEqual(self.one("lit_has('a', ?)", words), 1)


class Lists(Extension):
    """Where words come from, and how long they are kept."""

    def test_a_table_of_words(self):
        self.db.executescript("CREATE TABLE words(word); CREATE TABLE texts(text);"
                              "INSERT INTO texts VALUES('é fig'), ('some pear'), (NULL), ('apple')")
        sql = ("SELECT word, start FROM texts, lit_matches(texts.text, (SELECT json_group_array(word) FROM words)) "
               "ORDER BY texts.rowid")
        self.assertEqual(self.rows(sql), [])
        self.db.execute("INSERT INTO words VALUES('fig'), ('pear')")
        self.assertEqual(self.rows(sql), [("fig", 3), ("pear", 6)])
        self.db.execute("DELETE FROM words WHERE word = 'fig'")
        self.assertEqual(self.rows(sql), [("pear", 6)])
        count = "SELECT count(*) FROM texts WHERE lit_has(text, (SELECT json_group_array(word) FROM words))"
        self.assertEqual(self.rows(count), [(1,)])

    def test_many_lists(self):
        """More than are kept, in one statement, again and again."""
        words = [chr(97 + it % 26) * (1 + it // 26) for it in range(5 * LISTS)]
        self.db.execute("CREATE TABLE lists(word)")
        self.db.executemany("INSERT INTO lists VALUES(?)", [(it,) for it in words])
        text = "".join(words)
        wanted = [len(self.matches(text, [it])) for it in words]
        for repeats in 1, 2, LISTS - 1, LISTS, LISTS + 1:
            sql = "SELECT lit_count(?, json_array(word)) FROM lists ORDER BY rowid % ?, rowid"
            order = sorted(range(len(words)), key=lambda it: ((it + 1) % repeats, it))
            self.assertEqual([it for it, in self.rows(sql, text, repeats)], [wanted[it] for it in order])

    def test_a_join_in_any_order(self):
        """The words, or the text, are of a table that comes after this one."""
        self.db.executescript("CREATE TABLE texts(text); INSERT INTO texts VALUES('a fig'), ('a pear');"
                              "CREATE TABLE lists(words); INSERT INTO lists VALUES('[\"fig\"]'), ('[\"a\"]')")
        for tables in "lit_matches(text, words), texts, lists", "lists, lit_matches(text, words), texts":
            rows = self.rows(f"SELECT word FROM {tables}".replace("(text, words)", " AS m") +
                             " WHERE m.text = texts.text AND m.words = lists.words")
            self.assertEqual(sorted(rows), [("a",), ("a",), ("a",), ("fig",)])

    def test_lists_of_one_length(self):
        for words in "a", "b", "a", "c", "b":
            self.assertEqual(self.one("lit_has('ab', ?)", json.dumps([words])), words in "ab")

    def test_cursors_hold_their_lists(self):
        """One whose list is no longer kept, since the rows of an inner table have others."""
        lists = json.dumps([json.dumps([chr(97 + it)]) for it in range(3 * LISTS)])
        sql = ("SELECT a.word, b.word FROM lit_matches('xyx', '[\"x\", \"y\"]') AS a, json_each(?) AS list, "
               "lit_matches('abxyz', list.value) AS b ORDER BY a.rowid")
        rows = self.rows(sql, lists)
        self.assertEqual(len(rows), 3 * len([it for it in range(3 * LISTS) if chr(97 + it) in "abxyz"]))
        self.assertEqual([it for it, inner in rows if inner == "a"], ["x", "y", "x"])
        many = self.db.execute("SELECT word FROM lit_matches(?, '[\"x\"]')", ("x" * (2 * PAGE),))
        next(many)
        for it in range(2 * LISTS):
            self.one("lit_has('a', ?)", json.dumps([str(it)]))
        self.assertEqual(len(many.fetchall()), 2 * PAGE - 1)

    def test_a_statement_holds_its_list(self):
        rows = self.db.execute("SELECT lit_has('a', '[\"a\"]') FROM (SELECT 1 UNION ALL SELECT 2)")
        next(rows)
        for it in range(2 * LISTS):
            self.one("lit_has('a', ?)", json.dumps([str(it)]))
        self.assertEqual(rows.fetchall(), [(1,)])

    def test_many_words(self):
        words = [f"word {it}." for it in range(3000)]
        self.assertEqual(self.rows("SELECT pattern FROM lit_matches(?, ?)", "".join(words[::-1]), json.dumps(words)),
                         [(it,) for it in range(2999, -1, -1)])

    def test_words_in_views_and_triggers(self):
        self.db.executescript("""
            CREATE TABLE texts(text CHECK(NOT lit_has(text, '["bad"]')), count AS (lit_count(text, '["a"]')));
            CREATE VIEW found AS SELECT word FROM texts, lit_matches(texts.text, '["a"]');
            INSERT INTO texts VALUES('a banana')""")
        self.assertEqual(self.rows("SELECT count, (SELECT count(*) FROM found) FROM texts"), [(4, 4)])
        with self.assertRaises(sqlite3.IntegrityError):
            self.db.execute("INSERT INTO texts VALUES('bad')")


class Named(Extension):
    """Lists with a name and a version."""

    def listed(self, name, version, *words):
        return self.one("lit_list(?, ?, ?)", name, version, json.dumps(words))

    def test_by_hand(self):
        self.assertEqual(self.listed("fruit", 3, "fig", "pear"), "version 3 of fruit")
        self.assertEqual(self.rows("SELECT *, words FROM lit_matches('é pear, figs', 'version 3 of fruit')"),
                         [("pear", 1, 3, 4, "version 3 of fruit"), ("fig", 0, 9, 3, "version 3 of fruit")])
        for text in "", "x", "a fig, 日pear":
            self.check(text, ["fig", "pear"], "version 3 of fruit")
            self.check(text.encode(), ["fig", "pear"], "version 3 of fruit")

    def test_a_version_is_read_once(self):
        fruit = self.listed("fruit", 3, "fig")
        self.assertEqual(self.listed("fruit", 3, "apple"), fruit)
        self.assertEqual(self.one("lit_list('fruit', 3, 'no array')"), fruit)
        self.check("an apple and a fig", ["fig"], fruit)

    def test_a_version_replaces_another(self):
        kept, old, new = self.listed("x", 7, "y"), self.listed("fruit", 4, "fig"), self.listed("fruit", 3, "pear")
        self.check("a fig and a pear", ["pear"], new)
        self.check("xy", ["y"], kept)
        for call in "lit_has(?, ?)", "lit_count(?, ?)", "lit_first(?, ?)", "* FROM lit_matches(?, ?)":
            self.refused("nor a list that is kept", f"SELECT {call}", "a", old)
        self.check("a fig and a pear", ["fig", "pear"], self.listed("fruit", 4, "fig", "pear"))

    def test_names_and_versions(self):
        """No two are confused."""
        names = "", "a", "a\0b", "a\0c", "A", "é", "1", "1 of a", "version 1 of a", '["a"]', " "
        keys = [(name, 1) for name in names]
        keys += [(f"v{it}", it) for it in (0, -1, 2**63 - 1, -2**63)]
        handles = [self.listed(*key, f"word{it:02}") for it, key in enumerate(keys)]
        self.assertEqual(len(set(handles)), len(keys))
        for it, handle in enumerate(handles):
            self.check("".join(f"word{it:02}" for it in range(len(keys))), [f"word{it:02}"], handle)
        self.assertEqual(self.one("lit_list(1, 1, '[]')"), handles[6])

    def test_many_names(self):
        """The time for each does not grow with their number. They are found in any order."""
        def listed(numbers):
            start = time.process_time()
            handles = [self.listed(f"list {it * 4999 % 8000}", 1, f"<{it}>") for it in numbers]
            return time.process_time() - start, handles

        few, first = listed(range(1000))
        _, others = listed(range(1000, 7000))
        many, last = listed(range(7000, 8000))
        self.assertLess(many, 4 * few)
        handles = list(enumerate(first + others + last))
        random.Random(3).shuffle(handles)
        for it, handle in handles:
            self.assertEqual(self.rows("SELECT lit_first(?, ?)", f"<{it}", handle), [(None,)])
            self.assertEqual(self.rows("SELECT lit_first(?, ?)", f"<{it}>", handle), [(f"<{it}>",)])

    def test_many_lists_in_a_join(self):
        """In either order, twice, and then with more words for one of them."""
        words = [(f"list {it}", 1, f"{it:03}{more}") for it in range(5 * LISTS) for more in "ab"]
        self.db.executescript("CREATE TABLE words(list, version, word); CREATE TABLE texts(text);")
        self.db.executemany("INSERT INTO words VALUES(?, ?, ?)", words)
        self.db.executemany("INSERT INTO texts VALUES(?)", [(f"{it:03}a {2 * it:03}b",) for it in range(50)])
        lists = ("WITH lists AS MATERIALIZED (SELECT list, lit_list(list, version, json_group_array(word)) AS words "
                 "FROM words GROUP BY list, version) SELECT list, text FROM")
        for _ in range(2):
            texts = [it for it, in self.rows("SELECT text FROM texts")]
            words = self.rows("SELECT * FROM words")
            wanted = sorted({(name, text) for name, _, word in words for text in texts if word in text})
            for tables in "lists CROSS JOIN texts", "texts CROSS JOIN lists", "lists, texts":
                self.assertEqual(sorted(self.rows(f"{lists} {tables} WHERE lit_has(text, words)")), wanted)
            self.db.execute("UPDATE words SET version = 2 WHERE list = 'list 3'")
            self.db.execute("INSERT INTO words VALUES('list 3', 2, '010')")

    def test_refused(self):
        for version in "3", 3.0, b"3":
            self.refused("the version is no integer", "SELECT lit_list('fruit', ?, '[]')", version)
        self.listed("", 1, "fig")
        for words in "version 1 of none", "version 1 of", "version 1 o", "version ", "", b"", "version of ", "version 1":
            self.refused("nor a list that is kept", "SELECT lit_has('a', ?)", words)
        fruit = self.listed("fruit", 3, "fig")
        for words, why in (("[5]", "index 0 is no text"), ("[", "malformed JSON"), (fruit, "not a JSON array"),
                           (b'["a"]', "not a JSON array"), (5, "not a JSON array")):
            self.refused(why, "SELECT lit_list('fruit', 4, ?)", words)
            self.refused("nor a list that is kept", "SELECT lit_has('a', ?)", "version 4 of fruit")
        self.check("a fig", ["fig"], fruit)

    def test_null(self):
        for key in (None, 1, "[]"), ("a", None, "[]"), ("a", 1, None), (None, "1", 5):
            self.assertIsNone(self.one("lit_list(?, ?, ?)", *key))
        self.refused("nor a list that is kept", "SELECT lit_has('a', 'version 1 of a')")

    def test_a_replaced_version_is_held(self):
        """By a cursor, and by a statement."""
        fruit = self.listed("fruit", 1, "fig")
        cursor = self.db.execute("SELECT word, words FROM lit_matches(?, ?)", ("fig" * (2 * PAGE), fruit))
        rows = self.db.execute("SELECT lit_first('a fig', ?) FROM (SELECT 1 UNION ALL SELECT 2)", (fruit,))
        self.assertEqual((next(cursor), next(rows)), (("fig", fruit), ("fig",)))
        self.listed("fruit", 2, "pear")
        self.assertEqual(set(cursor.fetchall()), {("fig", fruit)})
        self.assertEqual(rows.fetchall(), [("fig",)])

    def test_only_in_queries(self):
        self.db.execute("CREATE VIEW lists AS SELECT lit_list('fruit', 1, '[\"fig\"]')")
        self.refused("unsafe use of lit_list", "SELECT * FROM lists")


class Page(Extension):
    def test_examples(self):
        """Those of README.md, in their order."""
        self.db.executescript("""
            CREATE TABLE texts(text); INSERT INTO texts VALUES('a fig, a pear'), ('apple'), ('é pears');
            CREATE TABLE prices(word, price); INSERT INTO prices VALUES('fig', 3), ('pear', 5);
            CREATE TABLE lists(name, words); INSERT INTO lists VALUES('one', '["fig"]'), ('two', '["pear", "e"]');
            CREATE TABLE list_words(list, version, word); INSERT INTO list_words VALUES('one', 1, 'fig')""")
        page = Path(__file__).with_name("README.md").read_text("utf-8")
        given = ";".join(re.findall("```sql\n(.*?)```", page, re.DOTALL)).split(";")
        self.assertEqual([sorted(self.rows(it)) for it in given if it.strip()], [
            [("a fig, a pear",), ("é pears",)],
            [(1, "fig", 3, "fig"), (1, "pear", 10, "pear"), (3, "pear", 3, "pear")],
            [(1, 3), (1, 5), (3, 5)],
            [(1, "one"), (1, "two"), (2, "two"), (3, "two")],
            [(1, "one")]])


class Programs(unittest.TestCase):
    @unittest.skipUnless(shutil.which("sqlite3"), "the program sqlite3 is not installed")
    def test_sqlite3(self):
        given = f".load {EXTENSION}\nSELECT word, start FROM lit_matches('a fig', json_array('fig'));\n"
        options = {**os.environ, "ASAN_OPTIONS": "detect_leaks=1"}  # (under sanitizers)
        ran = subprocess.run(["sqlite3"], input=given, capture_output=True, text=True, env=options)
        self.assertEqual((ran.returncode, ran.stdout), (0, "fig|3\n"), ran.stderr)

    @unittest.skipUnless(REFUSED, "run by bindings/test")
    def test_lists_that_are_replaced(self):
        """They are freed: two hundred need more than 200 MiB."""
        said = f"""
import resource, sqlite3
db = sqlite3.connect(":memory:")
db.enable_load_extension(True)
db.load_extension({EXTENSION!r})
before = int(open("/proc/self/statm").read().split()[1])
for it in range(200):
    assert db.execute("SELECT lit_has(?1, ?2)", ("x", '["' + "ab" * 40000 + '", "%d"]' % it)).fetchone() == (0,)
grown = (int(open("/proc/self/statm").read().split()[1]) - before) * resource.getpagesize()
assert grown < 100 << 20, grown
"""
        ran = subprocess.run([sys.executable, "-c", said], capture_output=True, text=True)
        self.assertEqual((ran.returncode, ran.stderr), (0, ""))

    @unittest.skipUnless(REFUSED, "run by bindings/test")
    def test_refused_memory(self):
        plain_ones = {name: value for name, value in os.environ.items() if name != "LD_PRELOAD"}
        ran = subprocess.run([REFUSED, EXTENSION], capture_output=True, text=True, env=plain_ones)
        self.assertEqual((ran.returncode, ran.stdout), (0, "ok\n"))


if __name__ == "__main__":
    unittest.main()
