"""Clash patterns: the recorded counts."""

import struct
import unittest

import recordings
from mlat_solver import Refusal, clash_patterns, patterns


def lent(receptions):
    """The number of a call of the library, and the bytes that it leaves where there were bytes A5."""
    counts = patterns._Counts.from_buffer_copy(b"\xa5" * 56)
    return patterns._clash_patterns(receptions, counts), bytes(counts)


def package(receptions):
    """What the package gives, as the recording has it."""
    return struct.pack("<7Q", *clash_patterns(receptions))


class Patterns(unittest.TestCase):
    """crates/replay_patterns, to the byte."""

    def test_recorded(self):
        told, known = 0, {}
        for k, (receptions, number, after) in enumerate(recordings.pattern_calls()):
            if receptions not in known:  # each up to six is recorded sixty times
                known[receptions] = lent(receptions), recordings.answer(package, receptions)
            found, given = known[receptions]
            self.assertEqual(found, (number, after))
            told += found != recordings.falsified(number, after, k) and found != (number ^ 1, after)
            due = number, b"" if number else after
            self.assertEqual(given, due)
            told += given != recordings.falsified(*due, k)
        self.assertEqual(told, 2 * 540)

    def test_sums(self):
        for receptions in range(7):
            counts = clash_patterns(receptions)
            self.assertEqual((len(counts), sum(counts)), (7, 2 ** (receptions * (receptions - 1) // 2)))
        self.assertEqual(clash_patterns(3), [0, 1, 6, 1, 0, 0, 0])

    def test_beyond(self):
        for receptions in (7, (1 << 32) - 1, 1 << 32, (1 << 64) + 3):
            with self.assertRaises(Refusal) as raised:
                clash_patterns(receptions)
            self.assertEqual(raised.exception.number, 24)
        with self.assertRaises(ValueError):
            clash_patterns(-1)


if __name__ == "__main__":
    unittest.main()
