"""The functions for PostgreSQL, on a temporary server without a network. Its programs refuse to run as root: then they
run as the user `postgres`. LITERAL_POSTGRESQL names the library."""
import csv
import io
import os
import random
import shutil
import subprocess
import sys
import tempfile
import unittest
from pathlib import Path

BINDINGS = Path(__file__).resolve().parent.parent
sys.path.append(str(BINDINGS / "python/tests"))

import plain

LIBRARY = os.environ.get("LITERAL_POSTGRESQL", str(BINDINGS / "out/literal_postgresql.so"))
FUNCTIONS = Path(__file__).with_name("functions.sql")
PLAIN = {name: value for name, value in os.environ.items() if not name.startswith(("PG", "LD_"))}
PLAIN["MALLOC_PERTURB_"] = "165"  # (the C library then writes into memory that is freed)
USER = {"user": "postgres", "group": "postgres", "extra_groups": []} if os.geteuid() == 0 else {}
PAGE = 128  # matches that are found at once
LIMIT = 60  # seconds for a program
SETTINGS = "-c listen_addresses='' -c fsync=off -c shared_buffers=16MB -c logging_collector=off -c autovacuum=off"


def bindir():
    """Where the programs of the server are."""
    program = os.environ.get("PG_CONFIG", "pg_config")
    return subprocess.run([program, "--bindir"], capture_output=True, text=True, check=True).stdout.strip()


class Server:
    """A server that has its data and its socket in a folder."""

    def __init__(self):
        self.room, self.bin = tempfile.mkdtemp(prefix="literal-"), bindir()
        if USER:
            shutil.chown(self.room, USER["user"], USER["group"])
        self.library = shutil.copy(LIBRARY, f"{self.room}/literal_postgresql.so")
        os.chmod(self.library, 0o644)
        try:
            self.run("initdb", "--no-sync", "-A", "trust", "-E", "UTF8", "--locale=C", "-U", "tester", "-D", self.data)
            self.run("pg_ctl", "-w", "-D", self.data, "-l", f"{self.room}/log", "-o", f"-k {self.room} {SETTINGS}",
                     "start")
        except BaseException:
            self.stop()
            raise

    @property
    def data(self):
        return f"{self.room}/data"

    def run(self, program, *words):
        how = {"stdin": subprocess.DEVNULL, "stdout": subprocess.PIPE, "stderr": subprocess.STDOUT, "timeout": LIMIT}
        ran = subprocess.run([f"{self.bin}/{program}", *words], text=True, cwd=self.room, env=PLAIN, **how, **USER)
        if ran.returncode != 0:
            raise AssertionError(f"{program}: {ran.stdout}")

    def stop(self):
        if os.path.exists(f"{self.data}/postmaster.pid"):
            self.run("pg_ctl", "-D", self.data, "-m", "immediate", "stop")
        shutil.rmtree(self.room)

    def psql(self, sql, *words, database="postgres"):
        """The status of psql, its rows, and what it wrote of errors."""
        given = [f"{self.bin}/psql", "-Xqt", "--csv", "-v", "ON_ERROR_STOP=1", "-h", self.room, "-U", "tester"]
        ran = subprocess.run([*given, *words, database], input=sql, capture_output=True, text=True, timeout=LIMIT,
                             env={**PLAIN, "PGCLIENTENCODING": "UTF8"})
        return ran.returncode, list(csv.reader(io.StringIO(ran.stdout))), ran.stderr


def setUpModule():
    global server
    server = Server()
    unittest.addModuleCleanup(server.stop)
    declare("postgres")


def declare(database):
    code, _, why = server.psql("", "-v", f"library={server.library}", "-f", FUNCTIONS, database=database)
    if code != 0:
        raise AssertionError(why)


def quoted(text):
    return "'" + text.replace("'", "''") + "'"


def array(words):
    return f"ARRAY[{', '.join(map(quoted, words))}]::text[]"


class Functions(unittest.TestCase):
    def rows(self, sql):
        code, rows, why = server.psql(sql)
        self.assertEqual(code, 0, why)
        return rows

    def refused(self, why, sql):
        code, _, said = server.psql(sql)
        self.assertEqual(code, 3, said)
        self.assertIn(why, said)

    def check(self, *cases):
        """Each case is a text and words."""
        sql, wanted = "", []
        for number, (text, words) in enumerate(cases):
            found = plain.find_all(words, False, False, text, 0, len(text))
            given = f"({quoted(text)}, {array(words)})"
            sql += f"SELECT {number}, lit_has{given}, lit_count{given}; SELECT * FROM lit_matches{given};\n"
            wanted.append([str(number), "t" if found else "f", str(len(found))])
            wanted += [[words[it], str(it + 1), str(start + 1), str(end - start)] for it, start, end in found]
        self.assertEqual(self.rows(sql), wanted)

    def test_by_hand(self):
        self.assertEqual(self.rows("SELECT * FROM lit_matches('éapple, maple', ARRAY['maple', 'apple'])"),
                         [["apple", "2", "2", "5"], ["maple", "1", "9", "5"]])
        self.assertEqual(self.rows("SELECT lit_has('a fig', '{pie,fig}'), lit_count('a fig, figs', '{pie,fig}'), "
                                   "lit_has('a pea', '{pie,fig}')"), [["t", "2", "f"]])

    def test_texts(self):
        texts = "", "x", "aab", "éaß日🐍a", "ab" * PAGE, "é" * PAGE + "a" * PAGE, "a" * (3 * PAGE)
        lists = [], ["a"], ["b", "ab"], ["é", "🐍a"], ["x" * 40]
        self.check(*((text, words) for text in texts for words in lists))

    def test_random_texts(self):
        chance = random.Random(5)
        self.check(*(("".join(chance.choices("abäö ", k=chance.randint(0, 30))),
                      ["".join(chance.choices("abä", k=chance.randint(1, 3))) for _ in range(chance.randint(0, 5))])
                     for _ in range(200)))

    def test_substr(self):
        """`start` and `length` are as substr and strpos count, and `pattern` is an index of the array."""
        sql = ("SELECT substr(text, start, length), strpos(text, word), start, words[pattern] FROM (SELECT "
               "'日本 maple é🐍 maple' AS text, ARRAY['maple', '🐍'] AS words) AS it, lit_matches(text, words)")
        self.assertEqual(self.rows(sql), [["maple", "4", "4", "maple"], ["🐍", "11", "11", "🐍"],
                                          ["maple", "4", "13", "maple"]])

    def test_null(self):
        for given in "NULL, '{a}'", "'a', NULL", "NULL, NULL":
            self.assertEqual(self.rows(f"SELECT lit_has({given}), lit_count({given})"), [["", ""]])
            self.assertEqual(self.rows(f"SELECT * FROM lit_matches({given})"), [])

    def test_words_that_are_refused(self):
        for call in "lit_has", "lit_count", "lit_matches":
            for words, why in (("'{a,NULL}'", "word 2 is NULL"), ("'{a,b,\"\"}'", "word 3 is empty"),
                               ("'{{a,b},{c,d}}'", "the array of words has several dimensions"),
                               ("ARRAY[repeat('abcdefghijklmnopqrstuvwxyz', 3000000)]", "need too large a table")):
                self.refused(why, f"SELECT {call}('a', {words})")

    def test_a_column_of_lists(self):
        """Lists change from row to row, some are of one length, and some are compressed or stored elsewhere."""
        sql = """
            CREATE TEMP TABLE texts(id serial, text text); CREATE TEMP TABLE lists(id serial, words text[]);
            INSERT INTO texts(text) VALUES ('a fig'), ('some pears'), (NULL), ('one fig, two figs'),
                (repeat('fig', 1000));
            INSERT INTO lists(words) VALUES ('{fig}'), ('{two}'), ('{}'), ('{one,pear}'), ('{fig}'),
                (ARRAY(SELECT 'fig' || it FROM generate_series(1, 9999) AS it) || ARRAY['pears']);
            SELECT lists.id, texts.id, lit_count(text, words) FROM TABLES WHERE lit_has(text, words) ORDER BY 1, 2;
            SELECT lists.id, texts.id, count(*) FROM TABLES, lit_matches(text, words) GROUP BY 1, 2 ORDER BY 1, 2"""
        wanted = "1 1 1, 1 4 2, 1 5 1000, 2 4 1, 4 2 1, 4 4 1, 5 1 1, 5 4 2, 5 5 1000, 6 2 1"
        for tables in "lists CROSS JOIN texts", "texts CROSS JOIN lists":
            self.assertEqual(self.rows(sql.replace("TABLES", tables)), 2 * [it.split() for it in wanted.split(", ")])

    def test_an_error_within_a_function(self):
        """After it, the same call finds by the list of before, and by others."""
        sql = """
            DO $$ DECLARE words text[]; BEGIN
                FOREACH words SLICE 1 IN ARRAY ARRAY[['fig', 'x'], ['fig', ''], ['fig', 'x'], ['y', 'z']] LOOP
                    BEGIN
                        RAISE WARNING 'found %', lit_count('fig, fig', words);
                    EXCEPTION WHEN invalid_parameter_value THEN
                        RAISE WARNING 'refused';
                    END;
                END LOOP;
            END $$"""
        code, _, said = server.psql(sql)
        self.assertEqual((code, [it.split(":  ")[1] for it in said.splitlines() if "WARNING" in it]),
                         (0, ["found 2", "refused", "found 2", "found 0"]))

    def test_memory_of_lists_is_reused(self):
        """Of a thousand lists, each with a search of half a megabyte, a call keeps one."""
        sql = """
            SELECT sum(count), bool_and(is_little) FROM (
                SELECT lit_count('fig', ARRAY[repeat('abcdefghij', 1000) || it]) AS count, CASE WHEN it = 1000 THEN
                    (SELECT sum(used_bytes) < 50000000 FROM pg_backend_memory_contexts) END AS is_little
                FROM generate_series(1, 1000) AS it OFFSET 0) AS rows"""
        self.assertEqual(self.rows(sql), [["0", "t"]])

    def test_a_search_for_many_rows(self):
        """It is not in memory that is freed after each row: that is filled with other bytes."""
        words = "ARRAY(SELECT 'word' || it FROM generate_series(1, 500) AS it) || '{77,99}'"
        found = [it for it in range(1, 2001) if "77" in str(it) or "99" in str(it)]
        sql = f"SELECT count(*), max(it) FROM generate_series(1, 2000) AS it WHERE lit_has(it::text, {words})"
        self.assertEqual(self.rows(sql), [[str(len(found)), str(found[-1])]])

    def test_a_constant_text(self):
        """Constant words are not compared from row to row, and others are."""
        sql = ("SELECT it, lit_count('fig', ARRAY[it]), lit_count(words => ARRAY[it], text => 'fig'), "
               "lit_count(it, '{fig}'), lit_count(words => '{fig}', text => it) FROM unnest(ARRAY['f', 'fig']) AS it, "
               "lit_has('fig', ARRAY[it]) AS is_there WHERE is_there")
        self.assertEqual(self.rows(sql), [["f", "1", "1", "0", "0"], ["fig", "1", "1", "1", "1"]])
        self.assertEqual(self.rows("SELECT count(*) FROM unnest(ARRAY['f', 'g', 'x']) AS it WHERE "
                                   "lit_has('fig', ARRAY[it])"), [["2"]])

    def test_indexes(self):
        sql = """
            CREATE TEMP TABLE texts(text text);
            INSERT INTO texts SELECT 'text ' || it FROM generate_series(1, 1000) AS it;
            CREATE INDEX found ON texts ((lit_has(text, '{77,99}')));
            SELECT count(*) FROM texts WHERE lit_has(text, '{77,99}')"""
        self.assertEqual(self.rows(sql), [["38"]])

    def test_parallel_workers(self):
        query = "SELECT count(*) FROM generate_series(1, 1000) AS it WHERE lit_has(it::text, '{77,99}')"
        *plan, count = self.rows(f"SET force_parallel_mode = on; EXPLAIN (COSTS OFF) {query}; {query}")
        self.assertEqual((plan[0], count), (["Gather"], ["38"]))

    def test_encodings(self):
        for encoding, text, start in ("LATIN1", "éa", "2"), ("SQL_ASCII", "éa", "3"), ("EUC_JP", "日a", None):
            name = encoding.lower()
            self.rows(f"CREATE DATABASE {name} TEMPLATE template0 ENCODING '{encoding}' LC_COLLATE 'C' LC_CTYPE 'C'")
            declare(name)
            code, rows, why = server.psql(f"SELECT start FROM lit_matches('{text}', '{{a}}')", database=name)
            self.assertEqual((code, rows), (0, [[start]]) if start else (3, []), why)
            self.assertEqual("the encoding is EUC_JP" in why, start is None)


if __name__ == "__main__":
    unittest.main()
