"""The recorded solves as problems of streams: from bytes, from files and pipes, torn and far too long."""

import ctypes
import io
import os
import struct
import tempfile
import threading
import unittest

import recordings
from mlat_solver import ABSENT, Files, Refusal, cut_lengths, solve_next, solve_record, solve_stream, streams


def framed(files):
    """A problem of a stream, from its form in words."""
    lengths = [ABSENT if part is None else len(part) for part in files]
    return struct.pack("<4I", *lengths) + b"".join(part for part in files if part is not None)


class Streams(unittest.TestCase):
    """What the recordings say, to the byte."""

    def torn(self, stream, records):
        """So many records, and then refusal 16."""
        found = solve_stream(stream)
        self.assertEqual([next(found) for _ in records], records)
        with self.assertRaises(Refusal) as raised:
            next(found)
        self.assertEqual(raised.exception.number, 16)

    def test_next(self):
        count = 0
        for files, record in recordings.solved():
            problem = framed(files)
            out, used = ctypes.create_string_buffer(b"\xa5" * 183, 183), ctypes.c_uint64()
            stream = problem + b"\xa5" * (count % 400)
            self.assertEqual(streams._solve_next(stream, len(stream), out, 183, used), record[0])
            self.assertEqual((out.raw, used.value), (record + b"\xa5" * 7, len(problem)))
            self.assertEqual(solve_next(bytearray(stream)), (record, len(problem)))
            count += 1
        self.assertEqual(count, 2447)

    def test_streams(self):
        listed = list(recordings.solved())
        stream, records = b"".join(framed(files) for files, _ in listed), [record for _, record in listed]
        for given in (stream, bytearray(stream), memoryview(stream), io.BytesIO(stream)):
            self.assertEqual(list(solve_stream(given)), records)
        with tempfile.TemporaryFile() as file:
            file.write(stream)
            file.seek(0)
            self.assertEqual(list(solve_stream(file)), records)
        self.assertEqual(list(solve_stream(b"")), [])

    def test_pipe(self):
        listed = list(recordings.solved())[:99]
        ends = os.pipe()

        def feed():
            with open(ends[1], "wb", buffering=0) as to:
                for files, _ in listed:
                    problem = framed(files)
                    to.write(problem[:7])
                    to.write(problem[7:])

        feeder = threading.Thread(target=feed)
        feeder.start()
        with open(ends[0], "rb", buffering=0) as pipe:
            self.assertEqual(list(solve_stream(pipe)), [record for _, record in listed])
        feeder.join()

    def test_torn(self):
        (first, record), (second, _) = list(recordings.solved())[500:502]
        whole = framed(first)
        for end in range(1, len(framed(second))):
            self.torn(whole + framed(second)[:end], [record])
        for end in range(len(whole)):
            with self.assertRaises(Refusal) as raised:
                solve_next(whole[:end])
            self.assertEqual(raised.exception.number, 16)
        self.torn(struct.pack("<4I", 1 << 31, 0, 0, 0) + bytes(70_000), [])

    def test_long(self):
        files, _ = next(case for case in recordings.solved() if None not in case[0])
        for part in range(4):
            parts = list(files)
            parts[part] += bytes(200_000)
            longer = Files(*parts)
            self.assertEqual(list(solve_stream(framed(longer))), [solve_record(longer)])

    def test_cut_lengths(self):
        calls = recordings.cut_calls()
        for lengths, cut in calls:
            self.assertEqual(cut_lengths(lengths), list(cut))
        self.assertEqual(len(calls), 200)
        for wrong in ((1, 2, 3), (1, 2, 3, -1), (1, 2, 3, 1 << 32)):
            with self.assertRaises(ValueError):
                cut_lengths(wrong)

    def test_text(self):
        with self.assertRaises(TypeError):
            next(solve_stream(io.StringIO("stream")))


if __name__ == "__main__":
    unittest.main()
