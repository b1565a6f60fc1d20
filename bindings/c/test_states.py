"""Loops over the states of a search for every occurrence, beside plain ones."""
import ctypes
import random
import unittest

from library import NUMBERS
from test_calls import BAD_ARGUMENTS, CALLS, DAMAGED, NONE, OK, prepared, prepared_for_all

START, MATCH = NUMBERS["START_STATE"], NUMBERS["MATCH_STATE"]


def next_state(array, state, byte):
    """The state after one more byte."""
    after = ctypes.c_uint32()
    assert CALLS.literal_next_state_in(*array, state, byte, after) == OK
    return after.value


def state_after(array, text):
    """The state after a text."""
    state = START
    for byte in text:
        state = next_state(array, state, byte)
    return state


def patterns_at(array, state, start=0, room=9):
    """The status of the call for the patterns of a state, the numbers that it wrote, and how many there are."""
    found, total = (ctypes.c_size_t * (room + 1))(*[7777] * (room + 1)), ctypes.c_size_t(7777)
    status = CALLS.literal_patterns_at_in(*array, state, start, found, room, total)
    return status, [it for it in found if it != 7777], total.value


def walk(array, state, text, start, end):
    """The status of a walk, its state, and where it has stopped."""
    after, at = ctypes.c_uint32(7777), ctypes.c_size_t(7777)
    status = CALLS.literal_walk_in(*array, state, text, len(text), start, end, after, at)
    return status, after.value, at.value


def ending(words, text):
    """The numbers of the words with which a text ends."""
    return [i for i, word in enumerate(words) if text.endswith(word)]


class States(unittest.TestCase):
    def cases(self):
        """Lists of words and texts of two letters, with case kept or ignored, and a byte that no word has."""
        chance = random.Random(7)
        for _ in range(300):
            words = [bytes(chance.choices(b"ab", k=chance.randint(1, 4))) for _ in range(chance.randint(0, 5))]
            text = bytes(chance.choices(b"abABx" if chance.random() < 0.5 else b"ab", k=chance.randint(0, 12)))
            yield words, text, chance.random() < 0.5

    def test_steps(self):
        for words, text, ignore_case in self.cases():
            array, seen = prepared_for_all(words, ignore_case), text.lower() if ignore_case else text
            states = {}
            for end in range(len(text) + 1):
                state, wanted = state_after(array, text[:end]), ending(words, seen[:end])
                self.assertEqual(state >= MATCH, bool(wanted), (words, text[:end]))
                self.assertEqual(patterns_at(array, state), (OK, wanted, len(wanted)), (words, text[:end]))
                begun = [seen[start:end] for start in range(end + 1) if any(it.startswith(seen[start:end]) for it in words)]
                # (two texts lead to one state exactly if they have the same longest suffix that begins a word)
                self.assertEqual(states.setdefault(begun[0] if begun else b"", state), state, (words, text[:end]))
            self.assertEqual(len(set(states.values())), len(states))

    def test_walks(self):
        for words, text, ignore_case in self.cases():
            array, seen = prepared_for_all(words, ignore_case), text.lower() if ignore_case else text
            state, at = START, 0
            while True:
                stop = next((it for it in range(at + 1, len(text) + 1) if ending(words, seen[:it])), None)
                status, after, reached = walk(array, state, text, at, len(text))
                self.assertEqual((status, reached), (NONE, len(text)) if stop is None else (OK, stop), (words, text))
                self.assertEqual(after, state if reached == at else state_after(array, text[:reached]))
                state, at = after, reached
                if stop is None:
                    break

    def test_pages(self):
        array = prepared_for_all([b"a", b"ba", b"cba", b"a"])
        state = state_after(array, b"cba")
        self.assertEqual(patterns_at(array, state, 0, 2), (OK, [0, 1], 4))
        self.assertEqual(patterns_at(array, state, 2, 2), (OK, [2, 3], 4))
        self.assertEqual(patterns_at(array, state, 3, 2), (OK, [3], 4))
        for start in 4, 5, 2**64 - 1:
            self.assertEqual(patterns_at(array, state, start, 2), (OK, [], 4))
        self.assertEqual(patterns_at(array, state, 0, 0), (OK, [], 4))
        total = ctypes.c_size_t()
        self.assertEqual(CALLS.literal_patterns_at_in(*array, state, 0, None, 0, total), OK)
        self.assertEqual(total.value, 4)

    def test_refusals(self):
        array = prepared_for_all([b"ab"])
        numbers, rows = array[0], array[0][4]
        for start, end in (3, 2), (0, 3), (4, 5):
            self.assertEqual(walk(array, START, b"ab", start, end), (BAD_ARGUMENTS, 7777, 7777))
        for state in rows, rows + 1, MATCH - 1, MATCH + rows, 2**32 - 1:
            self.assertEqual(walk(array, state, b"ab", 0, 2), (DAMAGED, 7777, 7777))
            self.assertEqual(patterns_at(array, state), (DAMAGED, [], 7777))
            self.assertEqual(CALLS.literal_next_state_in(*array, state, 97, ctypes.c_uint32()), DAMAGED)
        for other in (numbers, array[1] - 1), (None, 0), prepared([b"ab"]):
            self.assertEqual(walk(other, START, b"ab", 0, 2), (DAMAGED, 7777, 7777))
            self.assertEqual(patterns_at(other, START), (DAMAGED, [], 7777))
            self.assertEqual(CALLS.literal_next_state_in(*other, START, 97, ctypes.c_uint32()), DAMAGED)

    def test_changed_arrays(self):
        """Whatever stands in the array, a walk stops in the span, goes on if it can, and numbers are those of patterns."""
        chance, text = random.Random(5), b"abcababc"
        for _ in range(3000):
            array, length = prepared_for_all([b"ab", b"abc", b"c"])
            for _ in range(chance.randint(1, 3)):
                array[chance.randrange(length)] = chance.choice((0, 1, 2, 7, MATCH, MATCH + 4, 2**32 - 1))
            state, at = chance.choice((START, 4, 8, MATCH + 4)), 0
            while at < len(text):
                status, state, reached = walk((array, length), state, text, at, len(text))
                if status not in (OK, NONE):
                    break
                self.assertTrue(at < reached <= len(text) and (status == OK or reached == len(text)))
                at = reached
                status, found, _ = patterns_at((array, length), state)
                self.assertTrue(status == DAMAGED or all(it < array[3] for it in found))


if __name__ == "__main__":
    unittest.main()
