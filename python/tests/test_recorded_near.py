"""Fixes near a place: the recorded searches, and those of a plain loop."""

import ctypes
import math
import struct
import unittest

import recordings
from mlat_solver import Fix, Records, Refusal, near, nearest, open_records, read, to_ecef, within

FILE = recordings.DATA / "near" / "records.bin"


def lent(kind, file, point, radius, after):
    """The number of a call of the library, and the bytes that it leaves where there were bytes A5."""
    memory = ctypes.create_string_buffer(b"\xa5" * len(after), len(after))
    out, places = ctypes.c_uint64.from_buffer(memory), (ctypes.c_uint64 * (len(after) // 8 - 1)).from_buffer(memory, 8)
    if kind == 1:
        return near._nearest(file, len(file), near.three(point), out), memory.raw
    return near._within(file, len(file), near.three(point), radius, places, len(places), out), memory.raw


def given(kind, file, point, radius):
    """What the package gives, as the recording has it."""
    if kind == 1:
        place = nearest(file, point)
        return struct.pack("<Q", (1 << 64) - 1 if place is None else place)
    places = within(file, point, radius)
    return struct.pack(f"<{1 + len(places)}Q", len(places), *places)


def of_records(kind, file, point, radius):
    """The same by `Records`."""
    return given(kind, Records(file), point, radius)


class Near(unittest.TestCase):
    """crates/replay_near, to the byte."""

    def test_library(self):
        told = 0
        for k, (kind, number, asked, after) in enumerate(recordings.near_calls()):
            *point, radius = struct.unpack("<4d", asked[-32:])
            found = lent(kind, asked[:-32], point, radius, after)
            self.assertEqual(found, (number, after))
            told += found != recordings.falsified(number, after, k)
            told += found != (number ^ 1, after)
        self.assertEqual(told, 2 * 678)

    def test_package(self):
        told = 0
        for k, (kind, number, asked, after) in enumerate(recordings.near_calls()):
            *point, radius = struct.unpack("<4d", asked[-32:])
            if number == 14:
                continue  # the package lends as much as is asked for
            count = 0 if number else 1 if kind else 1 + struct.unpack_from("<Q", after)[0]
            due = number, after[: 8 * count]
            for search in (given, of_records):
                found = recordings.answer(search, kind, asked[:-32], point, radius)
                self.assertEqual(found, due)
                told += found != recordings.falsified(*due, k)
        self.assertEqual(told, 2 * (678 - 31))

    def test_plain_loop(self):
        opened = open_records(FILE)
        held = [(place, read(record)) for place, record in enumerate(opened)]
        point = to_ecef((-38.0, -83.0, 10_000.0))
        away = {place: math.dist(fix.ecef, point) for place, fix in held if isinstance(fix, Fix)}
        self.assertGreater(len(held), len(away))
        self.assertEqual(nearest(opened, point), min(away, key=away.get))
        for radius in (0.0, 1e6, 3e6, 1e8):
            self.assertEqual(within(opened, point, radius), [at for at in away if away[at] <= radius])

    def test_files(self):
        bytes_of = FILE.read_bytes()
        point = [605583, -5004040, -3904606]
        for file in (bytes_of, bytearray(bytes_of), memoryview(bytes_of), Records(bytes_of), open_records(FILE)):
            self.assertEqual((nearest(file, point), within(file, point, 1e6)), (1, [1, 275, 565, 569]))
        self.assertEqual((nearest(b"", point), within(b"", point, 1.0)), (None, []))
        with self.assertRaises(ValueError):
            nearest(bytes_of, point[:2])
        with self.assertRaises(Refusal) as raised:
            within(bytes_of, point, math.inf)
        self.assertEqual(raised.exception.number, 22)


if __name__ == "__main__":
    unittest.main()
