"""The functions of the header themselves, by arguments of all kinds: which status they answer, and what they write."""
import ctypes
import itertools
import os
import random
import time
import unittest

import library
from library import NUMBERS, Answer, Info, Match, Page

OK, NONE, NO_SEARCHER, BAD_ARGUMENTS = (NUMBERS[it] for it in ("OK", "NONE", "NO_SEARCHER", "BAD_ARGUMENTS"))
TOO_SHORT, DAMAGED, OUT_OF_MEMORY = (NUMBERS[it] for it in ("TOO_SHORT", "DAMAGED", "OUT_OF_MEMORY"))
TEXT = b"Nobody likes maple in their apple flavored Snapple."
WORDS, SPANS = [b"apple", b"maple", b"Snapple"], [(13, 18), (28, 33), (43, 50)]
BEFORE = (7, 8, 9)
CALLS = library.load()


def joined(words):
    """The words as they cross to C."""
    ends = [sum(map(len, words[: i + 1])) for i in range(len(words))]
    return b"".join(words), sum(map(len, words)), (ctypes.c_size_t * len(words))(*ends), len(words)


def prepared(words, kind=0, ignore_case=False):
    """The array of a search, and its length."""
    needed = ctypes.c_size_t()
    assert CALLS.literal_prepare(kind, ignore_case, *joined(words), None, 0, needed) == TOO_SHORT
    array = (ctypes.c_uint32 * needed.value)()
    assert CALLS.literal_prepare(kind, ignore_case, *joined(words), array, needed.value, needed) == OK
    return array, needed.value


def prepared_for_all(words, ignore_case=False):
    """The array of a search for all that occurs, and its length."""
    needed = ctypes.c_size_t()
    assert CALLS.literal_prepare_overlapping(ignore_case, *joined(words), None, 0, needed) == TOO_SHORT
    array = (ctypes.c_uint32 * needed.value)()
    assert CALLS.literal_prepare_overlapping(ignore_case, *joined(words), array, needed.value, needed) == OK
    return array, needed.value


def fields(struct):
    """The values of a struct's fields."""
    return tuple(getattr(struct, name) for name, _ in struct._fields_)


CHECKS = (
    (prepared, CALLS.literal_check_prepared),
    (prepared_for_all, CALLS.literal_check_overlapping),
)


class Statuses(unittest.TestCase):
    def wanted(self, patterns, ends, agree):
        """The status of a call that takes patterns, by the header's words."""
        starts = [0, *ends]
        if not agree or any(a > b for a, b in zip(starts, ends)) or max(starts) > len(patterns):
            return BAD_ARGUMENTS
        return NO_SEARCHER if any(a == b for a, b in zip(starts, ends)) else OK

    def test_arguments(self):
        chance, text = random.Random(2), b"abcabc"
        array, for_all = prepared([b"abc"]), prepared_for_all([b"abc"])
        for _ in range(5000):
            patterns = b"abcabc"[: chance.randint(0, 6)]
            ends = [chance.choice((0, 1, 2, 3, 4, 5, 6, 7, 2**64 - 1)) for _ in range(chance.randint(0, 3))]
            ends = sorted(ends) if chance.random() < 0.8 else ends
            start, end = chance.choice((0, 1, 6, 7)), chance.choice((6, 6, 6, 0, 7, 2**64 - 1))
            kind, valid = chance.choice((0, 1, 2)), start <= end <= 6
            asked = (patterns, len(patterns), (ctypes.c_size_t * 4)(*ends), len(ends))
            found, page, needed = Match(*BEFORE), Page(*BEFORE), ctypes.c_size_t(1)
            room, answers, count = (Match * 2)(found, found), (Answer * 3)(), chance.choice((2, 2, 3))
            lines = (ctypes.c_size_t * 2)(start, end)
            case = (patterns, ends, start, end, kind)
            self.assertEqual(CALLS.literal_can_search(*asked), self.wanted(patterns, ends, True), case)

            status = CALLS.literal_find(kind, False, *asked, text, 6, start, end, found)
            wanted = self.wanted(patterns, ends, kind < 2 and valid)
            self.assertIn(status, (wanted, NONE) if wanted == OK else (wanted,), case)
            self.assertTrue(status == OK or fields(found) == BEFORE, case)

            status = CALLS.literal_find_all(kind, True, *asked, text, 6, start, room, 2, page)
            self.assertEqual(status, self.wanted(patterns, ends, kind < 2 and start <= 6), case)
            self.assertTrue(status == OK or (*fields(page), *fields(room[0])) == (*BEFORE, *BEFORE), case)

            found, page = Match(*BEFORE), Page(*BEFORE)
            room = (Match * 2)(found, found)
            status = CALLS.literal_find_overlapping(True, *asked, text, 6, start, end, room, 2, page)
            self.assertEqual(status, self.wanted(patterns, ends, valid), case)
            self.assertTrue(status == OK or (*fields(page), *fields(room[0])) == (*BEFORE, *BEFORE), case)

            status = CALLS.literal_find_each(kind, True, *asked, text, 6, lines, 2, answers, count)
            self.assertEqual(status, self.wanted(patterns, ends, kind < 2 and count == 2 and valid), case)
            self.assertTrue(status == OK or not any(bytes(answers)), case)

            status = CALLS.literal_prepare(kind, True, *asked, None, 0, needed)
            wanted = self.wanted(patterns, ends, kind < 2)
            self.assertEqual(status, TOO_SHORT if wanted == OK else wanted, case)
            self.assertEqual(needed.value != 1, status == TOO_SHORT, case)

            needed = ctypes.c_size_t(1)
            status = CALLS.literal_prepare_overlapping(True, *asked, None, 0, needed)
            wanted = self.wanted(patterns, ends, True)
            self.assertEqual(status, TOO_SHORT if wanted == OK else wanted, case)
            self.assertEqual(needed.value != 1, status == TOO_SHORT, case)

            self.by_array(array, text, start, end, valid, count)
            page, room = Page(*BEFORE), (Match * 2)(*[Match(*BEFORE)] * 2)
            number = ctypes.c_size_t(7)
            status = CALLS.literal_count_overlapping(True, *asked, text, 6, start, end, number)
            self.assertEqual(status, self.wanted(patterns, ends, valid), case)
            self.assertTrue(status == OK or number.value == 7, case)
            next_at = chance.choice((start, start, 3, end))
            status = CALLS.literal_find_overlapping_from_in(*for_all, text, 6, start, end, next_at, 0, room, 2, page)
            self.assertEqual(status, OK if valid and start <= next_at <= end else BAD_ARGUMENTS)
            self.assertTrue(status == OK or (*fields(page), *fields(room[0])) == (*BEFORE, *BEFORE), case)
            page, room = Page(*BEFORE), (Match * 2)(*[Match(*BEFORE)] * 2)
            status = CALLS.literal_find_overlapping_in(*for_all, text, 6, start, end, room, 2, page)
            self.assertEqual(status, OK if valid else BAD_ARGUMENTS)
            self.assertEqual(page.written, b"abcabc"[start:end].count(b"abc") if valid else BEFORE[0])
            self.assertTrue(valid or (*fields(page), *fields(room[0])) == (*BEFORE, *BEFORE), case)

    def by_array(self, array, text, start, end, valid, count):
        """The same for the functions that take an array."""
        found, page, answers, number = Match(*BEFORE), Page(*BEFORE), (Answer * 3)(), ctypes.c_size_t(7)
        room, lines = (Match * 2)(found, found), (ctypes.c_size_t * 2)(start, end)
        statuses = (
            CALLS.literal_find_in(*array, text, 6, start, end, found),
            CALLS.literal_find_all_in(*array, text, 6, start, end, room, 2, page),
            CALLS.literal_count_in(*array, text, 6, start, end, number),
        )
        if valid:
            self.assertEqual(statuses, (NONE if found.pattern == 7 else OK, OK, OK))
            self.assertEqual((page.written, number.value), (b"abcabc"[start:end].count(b"abc"),) * 2)
        else:
            self.assertEqual(statuses, (BAD_ARGUMENTS,) * 3)
            self.assertEqual((*fields(found), *fields(page), *fields(room[0]), number.value), (*BEFORE * 3, 7))
        status = CALLS.literal_find_each_in(*array, text, 6, lines, 2, answers, count)
        self.assertEqual(status, OK if valid and count == 2 else BAD_ARGUMENTS)
        self.assertTrue(status == OK or not any(bytes(answers)))


class Pages(unittest.TestCase):
    def spans(self, call, room):
        """What pages of some room hold, at most four of them, and the last page."""
        found, page, spans = (Match * 5)(), Page(), []
        for _ in range(4):
            self.assertEqual(call(page.next, found, room, page), OK)
            spans += [(it.start, it.end) for it in found[: page.written]]
            if page.is_last:
                break
        return spans, page.is_last, page.next

    def test_pages(self):
        array = prepared(WORDS)
        for room in (1, 2, 3, 4):
            wanted = SPANS, 1, 50
            by_patterns = lambda at, *lent: CALLS.literal_find_all(0, False, *joined(WORDS), TEXT, len(TEXT), at, *lent)
            by_array = lambda at, *lent: CALLS.literal_find_all_in(*array, TEXT, len(TEXT), at, len(TEXT), *lent)
            self.assertEqual(self.spans(by_patterns, room), wanted)
            self.assertEqual(self.spans(by_array, room), wanted)

    def all_found(self, array, text, room):
        """All matches, by pages with room for so many, and their count."""
        found, page, number, at, all_found = (Match * room)(), Page(), ctypes.c_size_t(), 0, []
        while not page.is_last:
            self.assertEqual(CALLS.literal_find_all_in(*array, text, len(text), at, len(text), found, room, page), OK)
            all_found += [fields(it) for it in found[: page.written]]
            at = page.next
        self.assertEqual(CALLS.literal_count_in(*array, text, len(text), 0, len(text), number), OK)
        self.assertEqual(number.value, len(all_found))
        return all_found

    def test_same_matches(self):
        """Pages and counts are those of one search after another."""
        chance, found = random.Random(7), Match()
        for _ in range(300):
            words = [bytes(chance.choices(b"abA", k=chance.randint(1, 4))) for _ in range(chance.randint(0, 5))]
            text, kind = bytes(chance.choices(b"aabbAc", k=chance.randint(0, 60))), chance.choice((0, 1))
            array, at, wanted = prepared(words, kind, kind == 1), 0, []
            while CALLS.literal_find_in(*array, text, len(text), at, len(text), found) == OK:
                wanted.append(fields(found))
                at = found.end
            for size in (1, 3, 60):
                self.assertEqual(self.all_found(array, text, size), wanted, (words, text, size))

    def test_a_long_word_that_breaks_off(self):
        """At each match the long word could begin too, and does not stand there."""
        array, text = prepared([b"a" * 1000 + b"b", b"a"]), b"a" * 20_000
        self.assertEqual(self.all_found(array, text, 3000), [(1, at, at + 1) for at in range(len(text))])

    def test_no_pattern_spoils_the_time(self):
        """One search after another looks up 1,000 bytes behind each match. With the short word alone the time is about
        the same; the least of some is taken, since other work on the machine can take much of one."""
        size, number, page = 1 << 20, ctypes.c_size_t(), Page()
        text, found, least = b"a" * size, (Match * size)(), []
        for words in ([b"a"], [b"a" * 1000 + b"b", b"a"]):
            array, times = prepared(words), []
            for _ in range(5):
                began = time.process_time()
                self.assertEqual(CALLS.literal_count_in(*array, text, size, 0, size, number), OK)
                self.assertEqual(CALLS.literal_find_all_in(*array, text, size, 0, size, found, size, page), OK)
                times.append(time.process_time() - began)
            self.assertEqual((number.value, page.written, page.is_last), (size, size, 1))
            self.assertEqual(fields(found[size - 1]), (len(words) - 1, size - 1, size))
            least.append(min(times))
        self.assertLess(least[1], 6 * least[0])

    def test_overlapping(self):
        words, text = [b"a", b"aa", b"baa"], b"baabaaa"
        wanted = [(0, 1, 2), (0, 2, 3), (1, 1, 3), (2, 0, 3)]
        wanted += [(0, 4, 5), (0, 5, 6), (1, 4, 6), (2, 3, 6), (0, 6, 7), (1, 5, 7)]
        for_all = prepared_for_all(words)
        by_patterns = lambda *lent: CALLS.literal_find_overlapping(False, *joined(words), text, 7, 0, 7, *lent)
        by_array = lambda *lent: CALLS.literal_find_overlapping_in(*for_all, text, 7, 0, 7, *lent)
        for room, call in itertools.product(range(1, len(wanted) + 2), (by_patterns, by_array)):
            found, page = (Match * 12)(*[Match(*BEFORE)] * 12), Page()
            self.assertEqual(call(found, room, page), OK)
            self.assertEqual([fields(it) for it in found], [*wanted[:room], *[BEFORE] * 12][:12])
            self.assertEqual((page.written, page.is_last), (min(room, 10), room >= 10))
            self.assertEqual(page.next, wanted[min(room, 10) - 1][2])

    def test_every_occurrence_in_pages(self):
        """Pages, each from the last match of the one before on, have the same occurrences as one long page."""
        chance, page, number = random.Random(10), Page(), ctypes.c_size_t()
        for _ in range(300):
            words = [bytes(chance.choices(b"abA", k=chance.randint(1, 5))) for _ in range(chance.randint(0, 6))]
            text = bytes(chance.choices(b"aabbA", k=chance.randint(0, 40)))
            start, end = sorted((chance.randint(0, len(text)), chance.randint(0, len(text))))
            for_all, room = prepared_for_all(words, chance.random() < 0.5), chance.choice((1, 2, 3, 300))
            asked, found = (*for_all, text, len(text), start, end), (Match * 300)()
            self.assertEqual(CALLS.literal_find_overlapping_in(*asked, found, 300, page), OK)
            self.assertEqual(page.is_last, 1)
            wanted, given, at, pattern = [fields(it) for it in found[: page.written]], [], start, 0
            self.assertEqual((CALLS.literal_count_overlapping_in(*asked, number), number.value), (OK, len(wanted)))
            page.is_last = 0
            while not page.is_last:
                status = CALLS.literal_find_overlapping_from_in(*asked, at, pattern, found, room, page)
                self.assertEqual((status, page.written), (OK, min(room, len(wanted) - len(given))))
                given += [fields(it) for it in found[: page.written]]
                self.assertEqual(page.next, given[-1][2] if page.written else at)
                at, pattern = (given[-1][2], given[-1][0] + 1) if given else (at, pattern)
            self.assertEqual(given, wanted, (words, text, start, end, room))

    def test_no_room(self):
        """A page without room for a match is refused, and nothing is written."""
        array, for_all, page, text = prepared(WORDS), prepared_for_all(WORDS), Page(*BEFORE), (TEXT, len(TEXT))
        lent = Match(*BEFORE), 0, page
        statuses = (
            CALLS.literal_find_all(0, False, *joined(WORDS), *text, 0, *lent),
            CALLS.literal_find_overlapping(False, *joined(WORDS), *text, 0, 50, *lent),
            CALLS.literal_find_all_in(*array, *text, 0, 50, *lent),
            CALLS.literal_find_overlapping_in(*for_all, *text, 0, 50, *lent),
            CALLS.literal_find_overlapping_from_in(*for_all, *text, 0, 50, 0, 0, *lent),
            CALLS.literal_find_all_words_in(0, *array, *text, 0, 50, *lent),
            CALLS.literal_find_all_so_far_in(*array, *text, 0, True, *lent),
        )
        self.assertEqual((statuses, fields(lent[0]), fields(page)), ((BAD_ARGUMENTS,) * 7, BEFORE, BEFORE))


class SoFar(unittest.TestCase):
    """A text in pieces, of which no more is held than the header says."""

    def spans(self, array, longest, text, size):
        """All matches in a text that comes in pieces of a size."""
        found, next_at, held, before, spans = Match(), ctypes.c_size_t(), b"", 0, []
        for at in (*range(0, len(text), size), len(text)):
            piece, more = text[at : at + size], at < len(text)
            held += piece
            status, start = OK, 0
            while status == OK:
                status = CALLS.literal_find_so_far_in(*array, held, len(held), start, more, found, next_at)
                if status == OK:
                    spans.append((found.pattern, before + found.start, before + found.end))
                    self.assertEqual(next_at.value, found.end)
                start = next_at.value
            self.assertEqual(status, NONE)
            before, held = before + start, held[start:]
            self.assertLess(len(held), longest if more else 1)
        return spans

    def paged(self, array, longest, text, sizes, room):
        """The same by pages of so many matches, in pieces of the given sizes."""
        found, page, held, before, spans, at = (Match * (room + 1))(), Page(), b"", 0, [], 0
        while at < len(text) or page.is_last == 0:
            at += next(sizes)
            held, more = text[before:at], at < len(text)
            start, page.is_last = 0, 0
            while not page.is_last:
                found[room] = Match(*BEFORE)
                status = CALLS.literal_find_all_so_far_in(*array, held, len(held), start, more, found, room, page)
                self.assertEqual((status, page.is_last, fields(found[room])), (OK, page.written < room, BEFORE))
                ends = [start, *(it.end for it in found[: page.written])]
                first_open = max(ends[-1], len(held) - longest + 1 if more else len(held))
                self.assertEqual(page.next, first_open if page.is_last else ends[-1])
                spans += [(it.pattern, before + it.start, before + it.end) for it in found[: page.written]]
                start = page.next
            before += start
        return spans

    def test_pieces(self):
        chance = random.Random(5)
        for _ in range(300):
            words = [bytes(chance.choices(b"ab", k=chance.randint(1, 5))) for _ in range(chance.randint(1, 4))]
            text, kind = bytes(chance.choices(b"aabbAc", k=chance.randint(0, 60))), chance.choice((0, 1))
            array, room, page = prepared(words, kind, kind == 1), (Match * 60)(), Page()
            self.assertEqual(CALLS.literal_find_all_in(*array, text, len(text), 0, len(text), room, 60, page), OK)
            wanted = [fields(it) for it in room[: page.written]]
            for size in (1, 2, 3, 7, 60):
                self.assertEqual(self.spans(array, max(map(len, words)), text, size), wanted, (words, text, size))
            for most in (1, 3, 60):
                sizes, places = iter(lambda: chance.randint(0, most), None), chance.choice((1, 2, 3, 100))
                self.assertEqual(self.paged(array, max(map(len, words)), text, sizes, places), wanted, (words, text))

    def test_what_is_known(self):
        array, found, next_at = prepared([b"ab", b"abcd"]), Match(*BEFORE), ctypes.c_size_t(7)
        for length, start, more, wanted in (
            (3, 0, True, (NONE, BEFORE, 0)),
            (4, 1, True, (NONE, BEFORE, 1)),
            (4, 5, True, (BAD_ARGUMENTS, BEFORE, 1)),
            (5, 0, True, (OK, (0, 1, 3), 3)),
            (5, 2, True, (NONE, (0, 1, 3), 2)),
            (5, 2, False, (NONE, (0, 1, 3), 5)),
            (3, 0, False, (OK, (0, 1, 3), 3)),
        ):
            status = CALLS.literal_find_so_far_in(*array, b"xabcx", length, start, more, found, next_at)
            self.assertEqual((status, fields(found), next_at.value), wanted, (length, start, more))

    def test_pages_of_what_is_known(self):
        """Of all matches those that stand whatever follows: for each length, with little room and with much."""
        array, text, found, page = prepared([b"ab", b"abcd", b"b"], 1), b"ab abcd b abc", (Match * 9)(), Page()
        matches = [(0, 0, 2), (1, 3, 7), (2, 8, 9), (0, 10, 12)]
        for room in (1, 2, 9):
            for length in range(len(text) + 1):
                known = [it for it in matches if it[1] + 4 <= length][:room]
                end, is_last = max((it[2] for it in known), default=0), len(known) < room
                status = CALLS.literal_find_all_so_far_in(*array, text, length, 0, 7, found, room, page)
                self.assertEqual((status, [fields(it) for it in found[: page.written]]), (OK, known), length)
                self.assertEqual((page.next, page.is_last), (max(end, length - 3) if is_last else end, is_last), length)
        for start, more, wanted in (
            (14, True, (BAD_ARGUMENTS, BEFORE)),
            (13, True, (OK, (0, 13, 1))),
            (11, True, (OK, (0, 11, 1))),
            (11, False, (OK, (1, 13, 1))),
            (0, False, (OK, (4, 13, 1))),
        ):
            page = Page(*BEFORE)
            status = CALLS.literal_find_all_so_far_in(*array, text, 13, start, more, found, 9, page)
            self.assertEqual((status, fields(page)), wanted, (start, more))


class Words(unittest.TestCase):
    """Whole words."""

    TEXT = b"New Yorkers like York and New York City."
    WORDS = [b"york", b"new york", b"new york city"]

    def test_rows(self):
        array, found = prepared(self.WORDS, 1, True), Match()
        for kind, start, end, wanted in (
            (0, 0, 40, (0, 17, 21)),
            (0, 22, 40, (1, 26, 34)),
            (1, 22, 40, (2, 26, 39)),
            (1, 22, 38, (1, 26, 34)),
            (0, 5, 9, None),  # (the bytes next to those that are searched count)
        ):
            status = CALLS.literal_find_word_in(kind, *array, self.TEXT, 40, start, end, found)
            self.assertEqual(status, OK if wanted else NONE)
            self.assertTrue(wanted is None or fields(found) == wanted)

    def test_pages(self):
        array, number, page = prepared(self.WORDS, 1, True), ctypes.c_size_t(), Page()
        for kind, wanted in ((0, [(0, 17, 21), (1, 26, 34)]), (1, [(0, 17, 21), (2, 26, 39)])):
            asked = self.TEXT, 40
            for room in (1, 2, 3):
                found, at, all_found = (Match * room)(), 0, []
                while True:
                    status = CALLS.literal_find_all_words_in(kind, *array, *asked, at, 40, found, room, page)
                    self.assertEqual(status, OK)
                    all_found += [fields(it) for it in found[: page.written]]
                    at = page.next
                    if page.is_last:
                        break
                self.assertEqual(all_found, wanted)
            self.assertEqual(CALLS.literal_count_words_in(kind, *array, *asked, 0, 40, number), OK)
            self.assertEqual(number.value, 2)

    def test_sides(self):
        chance, found, page, number = random.Random(4), (Match * 20)(), Page(), ctypes.c_size_t()
        for _ in range(1000):
            words = [bytes(chance.choices(b"ab ", k=chance.randint(1, 3))) for _ in range(chance.randint(1, 3))]
            text = bytes(chance.choices(b"ab ", k=chance.randint(0, 20)))
            sides = bytes(chance.choices(b"a_-\xc3", k=len(text)))
            taken = chance.choice((sides, None))
            is_word = [it in b"ab_" for it in taken or text] + [False]
            alone = [
                (at, i, at + len(word)) for at in range(len(text)) for i, word in enumerate(words)
                if text.startswith(word, at) and not is_word[at - 1] and not is_word[at + len(word)]
            ]
            wanted, at = [], 0
            for start, i, end in alone:
                if start >= at:
                    wanted, at = [*wanted, (i, start, end)], end
            asked = 0, *prepared(words, 1), text, len(text), taken, len(taken or b""), 0, len(text)
            status = CALLS.literal_find_word_by_sides_in(*asked, found)
            self.assertEqual(status, OK if wanted else NONE)
            self.assertTrue(not wanted or fields(found[0]) == wanted[0])
            self.assertEqual(CALLS.literal_find_all_words_by_sides_in(*asked, found, 20, page), OK)
            self.assertEqual([fields(it) for it in found[: page.written]], wanted, (words, text, taken))
            self.assertEqual(CALLS.literal_count_words_by_sides_in(*asked, number), OK)
            self.assertEqual(number.value, len(wanted))

    def test_sides_of_another_length(self):
        array, found, page, number = prepared(self.WORDS, 1), Match(*BEFORE), Page(*BEFORE), ctypes.c_size_t(7)
        room = (Match * 1)(found)
        for len_of_sides in (1, 39, 41):
            asked = 0, *array, self.TEXT, 40, b"-" * 41, len_of_sides, 0, 40
            self.assertEqual(CALLS.literal_find_word_by_sides_in(*asked, found), BAD_ARGUMENTS)
            self.assertEqual(CALLS.literal_find_all_words_by_sides_in(*asked, room, 1, page), BAD_ARGUMENTS)
            self.assertEqual(CALLS.literal_count_words_by_sides_in(*asked, number), BAD_ARGUMENTS)
        self.assertEqual((*fields(found), *fields(page), *fields(room[0]), number.value), (*BEFORE * 3, 7))

    def test_arguments(self):
        array, found, page, number = prepared(self.WORDS, 1), Match(*BEFORE), Page(*BEFORE), ctypes.c_size_t(7)
        room = (Match * 1)(found)
        for kind, start, end in ((2, 0, 40), (0, 3, 2), (1, 0, 41)):
            asked = kind, *array, self.TEXT, 40, start, end
            self.assertEqual(CALLS.literal_find_word_in(*asked, found), BAD_ARGUMENTS)
            self.assertEqual(CALLS.literal_find_all_words_in(*asked, room, 1, page), BAD_ARGUMENTS)
            self.assertEqual(CALLS.literal_count_words_in(*asked, number), BAD_ARGUMENTS)
        # (an array that is too short, one of the other kind, and that of no word)
        for damaged in (array[0], 5), prepared(self.WORDS, 0), prepared([], 0), prepared_for_all(self.WORDS):
            asked = 0, *damaged, self.TEXT, 40, 0, 40
            self.assertEqual(CALLS.literal_find_word_in(*asked, found), DAMAGED)
            self.assertEqual(CALLS.literal_find_all_words_in(*asked, room, 1, page), DAMAGED)
            self.assertEqual(CALLS.literal_count_words_in(*asked, number), DAMAGED)
        self.assertEqual(CALLS.literal_find_word_in(0, *prepared([], 1), self.TEXT, 40, 0, 40, found), NONE)
        self.assertEqual((*fields(found), *fields(page), *fields(room[0]), number.value), (*BEFORE * 3, 7))


class Arrays(unittest.TestCase):
    def test_a_copy_is_whole(self):
        array, length = prepared(WORDS, 1, True)
        copy = (ctypes.c_uint32 * length)(*array)
        self.assertEqual(CALLS.literal_check_prepared(copy, length), OK)
        found = Match()
        self.assertEqual(CALLS.literal_find_in(copy, length, b"SNAPPLE", 7, 0, 7, found), OK)
        self.assertEqual(fields(found), (2, 0, 7))

    def test_too_short(self):
        array, length = prepared(WORDS)
        for given in (0, 1, length // 2, length - 1):
            room, needed = (ctypes.c_uint32 * length)(), ctypes.c_size_t()
            self.assertEqual(CALLS.literal_prepare(0, False, *joined(WORDS), room, given, needed), TOO_SHORT)
            self.assertEqual((needed.value, any(room)), (length, False))
            self.assertEqual(CALLS.literal_check_prepared(array, given), DAMAGED)

    def test_info(self):
        """It is told of either array, and of as little of it as its lengths need."""
        chance = random.Random(9)
        for _ in range(300):
            words = [bytes(chance.choices(b"abA", k=chance.randint(1, 9))) for _ in range(chance.randint(0, 5))]
            lens = len(words), min(map(len, words), default=0), max(map(len, words), default=0)
            arrays = (0, 0, prepared(words, 0, True)), (0, 1, prepared(words, 1, True)), (1, 0, prepared_for_all(words, True))
            for is_overlapping, kind, (array, length) in arrays:
                info = Info(7, 8, 9, 10, 11)
                self.assertEqual(CALLS.literal_prepared_info(array, length - 1, info), DAMAGED)
                self.assertEqual(fields(info), (7, 8, 9, 10, 11))
                self.assertEqual(CALLS.literal_prepared_info(array, length, info), OK)
                self.assertEqual(fields(info), (*lens, is_overlapping, kind), words)
                array[0] ^= 1
                self.assertEqual(CALLS.literal_prepared_info(array, length, info), DAMAGED)

    def test_each_damaged_word_is_noticed(self):
        for prepare, check in CHECKS:
            array, length = prepare(WORDS)
            for at in range(length):
                array[at] ^= 1
                self.assertEqual(check(array, length), DAMAGED, at)
                array[at] ^= 1
            self.assertEqual(check(array, length), OK)

    def test_two_flipped_bits_are_noticed(self):
        """The top bits of each two words, the check among them, and any bits of two."""
        chance = random.Random(4)
        for prepare, check in CHECKS:
            array, length = prepare(WORDS)
            pairs = [((one, 31), (other, 31)) for one, other in itertools.combinations(range(length), 2)]
            for _ in range(20000):
                one, other = chance.sample(range(length), 2)
                pairs.append(((one, chance.randrange(32)), (other, chance.randrange(32))))
            for pair in pairs:
                for at, bit in pair:
                    array[at] ^= 1 << bit
                self.assertEqual(check(array, length), DAMAGED, pair)
                for at, bit in pair:
                    array[at] ^= 1 << bit
            self.assertEqual(check(array, length), OK)

    def test_lost_words_are_noticed(self):
        """The top bits of all words, and all words behind the version."""
        for prepare, check in CHECKS:
            array, length = prepare(WORDS)
            zeros = (ctypes.c_uint32 * length)(array[0])
            self.assertEqual(check(zeros, length), DAMAGED)
            self.assertTrue(any(it >> 31 for it in array))
            low = (ctypes.c_uint32 * length)(*(it & 0x7FFFFFFF for it in array))
            self.assertEqual(check(low, length), DAMAGED)

    def test_an_array_without_parts_is_damaged(self):
        (array, length), (for_all, longer) = prepared(WORDS), prepared_for_all(WORDS)
        found, page, number = (Match * 2)(), Page(), ctypes.c_size_t()
        answers, lines = (Answer * 1)(), (ctypes.c_size_t * 1)(len(TEXT))
        for lent, given in (None, 0), (for_all, longer), (array, 1), (array, length - 1):
            asked = (lent, given, TEXT, len(TEXT))
            statuses = (
                CALLS.literal_find_in(*asked, 0, len(TEXT), found[0]),
                CALLS.literal_find_so_far_in(*asked, 0, True, found[0], number),
                CALLS.literal_find_all_so_far_in(*asked, 0, True, found, 2, page),
                CALLS.literal_find_all_in(*asked, 0, len(TEXT), found, 2, page),
                CALLS.literal_find_each_in(*asked, lines, 1, answers, 1),
                CALLS.literal_count_in(*asked, 0, len(TEXT), number),
            )
            self.assertEqual(statuses, (DAMAGED,) * 6)
        for lent, given in (None, 0), (array, length), (for_all, 1), (for_all, longer - 1):
            asked = (lent, given, TEXT, len(TEXT))
            self.assertEqual(CALLS.literal_find_overlapping_in(*asked, 0, len(TEXT), found, 2, page), DAMAGED)
            status = CALLS.literal_find_overlapping_from_in(*asked, 0, len(TEXT), 9, 0, found, 2, page)
            self.assertEqual((status, CALLS.literal_count_overlapping_in(*asked, 0, 9, number)), (DAMAGED, DAMAGED))

    def assert_page(self, copy, start, room, page):
        """What a page of four matches by any array is like."""
        self.assertTrue(all(it.pattern < copy[3] for it in room[: page.written]))
        self.assertTrue(page.is_last == 1 or (page.is_last, page.written) == (0, 4))
        self.assertLessEqual(start, page.next)

    def test_a_damaged_array_writes_to_lent_places_alone(self):
        chance, (array, length) = random.Random(3), prepared(WORDS)
        for _ in range(5000):
            copy = (ctypes.c_uint32 * length)(*array)
            for _ in range(chance.randint(1, 3)):
                word = chance.choice((0, 1, 2, 255, 2**31, 2**32 - 1, chance.randrange(2**32)))
                copy[chance.randrange(length)] = word
            room, page, number = (Match * 5)(*[Match(*BEFORE)] * 5), Page(), ctypes.c_size_t()
            answers, lines, one = (Answer * 2)(), (ctypes.c_size_t * 1)(len(TEXT)), Match()
            given = (copy, length, TEXT, len(TEXT))
            statuses = (
                CALLS.literal_find_in(*given, 0, len(TEXT), one),
                CALLS.literal_find_all_in(*given, 0, len(TEXT), room, 4, page),
                CALLS.literal_find_each_in(*given, lines, 1, answers, 1),
                CALLS.literal_count_in(*given, 0, len(TEXT), number),
            )
            self.assertLessEqual(set(statuses), {OK, NONE, DAMAGED})
            self.assertTrue(statuses[0] != OK or one.pattern < copy[3])
            place, more = ctypes.c_size_t(7), chance.random() < 0.5
            status = CALLS.literal_find_so_far_in(*given, 9, more, one, place)
            self.assertTrue(status == DAMAGED or 9 <= place.value <= len(TEXT))
            self.assertTrue(status != OK or (9 <= one.start < one.end == place.value and one.pattern < copy[3]))
            if statuses[1] == OK:
                self.assert_page(copy, page.written, room, page)
            if statuses[2] == OK and answers[0].status == OK:
                self.assertLess(answers[0].found.pattern, copy[3])
            self.assertEqual((fields(room[4]), bytes(answers[1])), (BEFORE, bytes(ctypes.sizeof(Answer))))

    def test_what_a_damaged_array_for_all_finds_lies_inside(self):
        chance, (array, length) = random.Random(4), prepared_for_all([*WORDS, b"e", b"le", b"e"], True)
        seen = set()
        for _ in range(5000):
            copy = (ctypes.c_uint32 * length)(*array)
            for _ in range(chance.randint(1, 3)):
                word = chance.choice((0, 1, 2, 255, 2**31, 2**32 - 1, chance.randrange(2**32)))
                copy[chance.randrange(length)] = word
            room, page = (Match * 5)(*[Match(*BEFORE)] * 5), Page()
            status = CALLS.literal_find_overlapping_in(copy, length, TEXT, len(TEXT), 9, 50, room, 4, page)
            seen.add(status)
            self.assertEqual(fields(room[4]), BEFORE)
            if status == OK:
                found = [fields(it) for it in room[: page.written]]
                self.assertTrue(all(9 <= start < end <= 50 for _, start, end in found), found)
                self.assert_page(copy, 9, room, page)
        self.assertEqual(seen, {OK, DAMAGED})

    def test_what_a_damaged_array_finds_lies_inside(self):
        chance, (array, length) = random.Random(5), prepared([*WORDS, b"e", b"le", b"e"], 1, True)
        seen = set()
        for _ in range(5000):
            copy = (ctypes.c_uint32 * length)(*array)
            for _ in range(chance.randint(1, 3)):
                word = chance.choice((0, 1, 2, 255, 2**31, 2**32 - 1, chance.randrange(2**32)))
                copy[chance.randrange(length)] = word
            room, page = (Match * 5)(*[Match(*BEFORE)] * 5), Page()
            found, known = (Match * 5)(*[Match(*BEFORE)] * 5), Page()
            status = CALLS.literal_find_all_in(copy, length, TEXT, len(TEXT), 9, 50, room, 4, page)
            seen.add(status)
            self.assertEqual(fields(room[4]), BEFORE)
            more = chance.random() < 0.5
            told = CALLS.literal_find_all_so_far_in(copy, length, TEXT[:50], 50, 9, more, found, 4, known)
            self.assertEqual(fields(found[4]), BEFORE)
            for answer, places, it in (status, room, page), (told, found, known):
                if answer == OK:
                    ends = [9, *(it for found in places[: it.written] for it in fields(found)[1:])]
                    self.assertTrue(ends == sorted(ends) and ends[-1] <= 50, ends)
                    self.assert_page(copy, 9, places, it)
        self.assertEqual(seen, {OK, DAMAGED})


class Flags(unittest.TestCase):
    """A flag is a number: 0 is false, and every other number is true, whichever of its bits is set."""

    NUMBERS = 0, 1, 2, 3, 255, 256, 2**31, 2**32 - 1

    def test_ignored_case(self):
        words, text = joined([b"ab"]), (b"xABx", 4)
        for flag in self.NUMBERS:
            found, page, answers, count = (Match * 1)(), Page(), (Answer * 1)(), ctypes.c_size_t(9)
            ends, wanted = (ctypes.c_size_t * 1)(4), int(flag != 0)
            self.assertEqual(CALLS.literal_find(0, flag, *words, *text, 0, 4, found), OK if wanted else NONE)
            self.assertEqual(CALLS.literal_find_all(0, flag, *words, *text, 0, found, 1, page), OK)
            self.assertEqual(page.written, wanted)
            self.assertEqual(CALLS.literal_find_overlapping(flag, *words, *text, 0, 4, found, 1, page), OK)
            self.assertEqual(page.written, wanted)
            self.assertEqual(CALLS.literal_find_each(0, flag, *words, *text, ends, 1, answers, 1), OK)
            self.assertEqual(answers[0].status, OK if wanted else NONE)
            self.assertEqual(CALLS.literal_count_overlapping(flag, *words, *text, 0, 4, count), OK)
            self.assertEqual(count.value, wanted)
            self.assertEqual(CALLS.literal_count_in(*prepared([b"ab"], 0, flag), *text, 0, 4, count), OK)
            self.assertEqual(count.value, wanted)
            array = prepared_for_all([b"ab"], flag)
            self.assertEqual(CALLS.literal_count_overlapping_in(*array, *text, 0, 4, count), OK)
            self.assertEqual(count.value, wanted)

    def test_more(self):
        array, found, at, page = prepared([b"ab"]), Match(), ctypes.c_size_t(), Page()
        for flag in self.NUMBERS:
            self.assertEqual(CALLS.literal_find_so_far_in(*array, b"xxa", 3, 0, flag, found, at), NONE)
            self.assertEqual(at.value, 2 if flag else 3)
            self.assertEqual(CALLS.literal_find_all_so_far_in(*array, b"xxa", 3, 0, flag, found, 1, page), OK)
            self.assertEqual((page.written, page.next), (0, 2 if flag else 3))


@unittest.skipUnless("refuse.so" in os.environ.get("LD_PRELOAD", ""), "run by bindings/test")
class RefusedMemory(unittest.TestCase):
    """With an allocator before the C library's that refuses all requests while the environment says so."""

    def test_all_requests_refused(self):
        process, array, asked = ctypes.CDLL(None), prepared(WORDS), (0, False, *joined(WORDS))
        found, page, answers = Match(*BEFORE), Page(*BEFORE), (Answer * 1)(Answer(7, Match(*BEFORE)))
        room, ends, text = (Match * 1)(found), (ctypes.c_size_t * 1)(5), (TEXT, len(TEXT))
        lent, needed, number = (ctypes.c_uint32 * 4)(*BEFORE), ctypes.c_size_t(7), ctypes.c_size_t(7)
        process.setenv(b"REFUSED_REQUEST", b"0", 1)
        statuses = (
            CALLS.literal_find(*asked, *text, 0, 5, found),
            CALLS.literal_find_all(*asked, *text, 0, room, 1, page),
            CALLS.literal_find_overlapping(*asked[1:], *text, 0, 5, room, 1, page),
            CALLS.literal_find_each(*asked, *text, ends, 1, answers, 1),
            CALLS.literal_prepare(*asked, lent, 4, needed),
            CALLS.literal_prepare_overlapping(*asked[1:], lent, 4, needed),
            CALLS.literal_count_overlapping(*asked[1:], *text, 0, 5, needed),
            CALLS.literal_can_search(*asked[2:]),
            CALLS.literal_check_prepared(*array),
            CALLS.literal_count_in(*array, *text, 0, len(TEXT), number),
        )
        process.unsetenv(b"REFUSED_REQUEST")
        self.assertEqual(statuses, (*7 * [OUT_OF_MEMORY], *3 * [OK]))
        self.assertEqual([fields(it) for it in (found, room[0], answers[0].found, page)], 4 * [BEFORE])
        self.assertEqual((answers[0].status, needed.value, tuple(lent[:3]), number.value), (7, 7, BEFORE, 3))


if __name__ == "__main__":
    unittest.main()
