"""Positions for a display: the recorded items, and those of fixes."""

import collections
import ctypes
import struct
import unittest

import recordings
from mlat_solver import Fix, Multiples, Refusal, Wire, asterix, read, read_asterix, to_asterix, to_wire
from mlat_solver import write_asterix

#: `Refusal` 23.
BEYOND = 23


def lent(kind, given, after):
    """The number of a call of the library, and the bytes that it leaves where there were bytes A5."""
    memory = ctypes.create_string_buffer(b"\xa5" * len(after), len(after))
    if kind == 2:
        return asterix._read_asterix(given, len(given), asterix._Numbers.from_buffer(memory)), memory.raw
    call = asterix._write_asterix if kind == 1 else asterix._to_asterix
    return call(asterix._Numbers.from_buffer_copy(given), memory, len(after)), memory.raw


def package(kind, given):
    """What the package gives, as the recording has it."""
    if kind == 2:
        found = read_asterix(given)
        return struct.pack("<3i", found.latitude, found.longitude, found.height)
    numbers = struct.unpack("<3i", given)
    return write_asterix(Multiples(*numbers)) if kind == 1 else to_asterix(Wire(*numbers))


class Asterix(unittest.TestCase):
    """crates/replay_asterix, to the byte."""

    def refused(self, number, call, *given):
        with self.assertRaises(Refusal) as raised:
            call(*given)
        self.assertEqual(raised.exception.number, number)

    def test_library(self):
        told = 0
        for k, (kind, number, given, after) in enumerate(recordings.asterix_calls()):
            found = lent(kind, given, after)
            self.assertEqual(found, (number, after))
            told += found != recordings.falsified(number, after, k)
            told += found != (number ^ 1, after)
        self.assertEqual(told, 2 * 2902)

    def test_package(self):
        told, counts = 0, collections.Counter()
        for k, (kind, number, given, after) in enumerate(recordings.asterix_calls()):
            if kind != 2 and len(after) != asterix.ITEMS:
                continue  # the package lends ten bytes
            due = number, b"" if number else after
            found = recordings.answer(package, kind, given)
            self.assertEqual(found, due)
            told += found != recordings.falsified(*due, k)
            counts[kind, number] += 1
            if kind == 2 and number == 0:
                self.assertEqual(write_asterix(read_asterix(given)), given)
        self.assertEqual(told, sum(counts.values()))
        # as RECORDING.md has them; of refusals to export and to write, those of other lengths are not among them
        self.assertEqual([counts[0, 0], counts[1, 0], counts[2, 0], counts[2, BEYOND]], [859, 734, 855, 24])
        self.assertGreater(min(counts[0, BEYOND], counts[1, BEYOND]), 100)

    def test_fixes(self):
        count = 0
        for _, record in recordings.solved():
            held = read(record)
            if not isinstance(held, Fix):
                self.refused(19, to_asterix, record)
                continue
            items = to_asterix(record)
            self.assertEqual((items, items), (to_asterix(held), to_asterix(to_wire(record))))
            steps = read_asterix(items)
            degrees = 180 / (1 << 25)
            self.assertLessEqual(abs(steps.latitude * degrees - held.position.lat_deg), 0.51 * degrees)
            self.assertLessEqual(abs(steps.height * 1.905 - held.position.height_m), 0.96)
            count += 1
        self.assertEqual(count, 482)

    def test_beyond(self):
        self.assertEqual(to_asterix(Wire(900_000_000, 1_800_000_000, 1_905)), bytes([1, 0, 0, 0, 254, 0, 0, 0, 0, 1]))
        for numbers in ((900_000_001, 0, 0), (0, -1_800_000_001, 0), (0, 0, 62_422_088), (1 << 32, 0, 0)):
            self.refused(BEYOND, to_asterix, Wire(*numbers))
        for numbers in ((1 << 31, 0, 0), (0, -(1 << 31) - 1, 0), (0, 0, 1 << 15), (0, 0, 1 << 32)):
            self.refused(BEYOND, write_asterix, Multiples(*numbers))
        self.refused(BEYOND, read_asterix, bytearray(9))
        self.refused(16, to_asterix, bytes(175))
        self.assertEqual(read_asterix(memoryview(bytes(10))), Multiples(0, 0, 0))


if __name__ == "__main__":
    unittest.main()
