"""The recorded solves, and calls of why, records, wire and archive, through the package; test_recorded_*.py have the
others."""

import ctypes
import struct
import unittest

import recordings
from mlat_solver import ARCHIVED, RECORD, Altitude, Problem, Reception, Records, Refusal, Wire, from_archive, read
from mlat_solver import archive, fixes, solving, states
from mlat_solver import solve, solve_many, solve_many_records, solve_record, to_archive, to_wire, why, write


def held(answer):
    """A fix or a refusal as crates/replay_records has it: six words, eighteen numbers, the time."""
    if isinstance(answer, Refusal):
        return struct.pack("<6I18dq", answer.number, answer.detail, answer.n, 0, 0, 0, *[0.0] * 18, 0)
    altitude = answer.altitude or Altitude(0, 0.0)
    covariance = [entry for row in answer.covariance for entry in row]
    return struct.pack("<6I18dq", 0, answer.dof, answer.n, answer.used, answer.spec, altitude.kind, *answer.ecef,
                       answer.t_m, *answer.position, *covariance, answer.chi2,
                       altitude.metres, answer.transmit_ps)


def problem(files):
    """The files as a `Problem`, where they can be one."""
    receptions, clock, altitude, reference = files
    whole = len(receptions or b"") % 132 == 0 and len(clock or b"") % 8 == 0
    if not whole or altitude is not None and (len(altitude) != 16 or altitude[1:4] != bytes(3)):
        return None
    if reference is not None and len(reference) != 8:
        return None
    given = None
    if altitude is not None:
        kind, correction, metres = struct.unpack("<B3xid", altitude)
        given = Altitude(kind, metres, correction)
    entries = None if clock is None else list(struct.unpack(f"<{len(clock) // 8}d", clock))
    listed = [Reception.from_bytes(receptions[at : at + 132]) for at in range(0, len(receptions or b""), 132)]
    return Problem(listed, entries, given, struct.unpack("<q", reference)[0] if reference else 0)


class Recorded(unittest.TestCase):
    """What the recordings say, to the byte."""

    def refused(self, number, call, *given):
        with self.assertRaises(Refusal) as raised:
            call(*given)
        self.assertEqual(raised.exception.number, number)

    def test_solve(self):
        count = 0
        for files, record in recordings.solved():
            out = ctypes.create_string_buffer(b"\xa5" * 183, 183)
            self.assertEqual(solving._solve(*solving.inputs(files), out, 183), record[0])
            self.assertEqual(out.raw, record + b"\xa5" * 7)
            self.assertEqual(solve_record(files), record)
            self.assertEqual(held(solve(files)), held(read(record)))
            count += 1
        self.assertEqual(count, 2447)

    def test_problems(self):
        count = 0
        for files, record in recordings.solved():
            known = problem(files)
            if known is None:
                continue
            self.assertEqual(known._receptions(), files.receptions or b"")
            self.assertEqual(solve_record(known), record)
            count += 1
        self.assertGreater(count, 2000)

    def test_many(self):
        listed = list(recordings.solved())
        for threads in (1, 2, 5):
            found = solve_many_records((files for files, _ in listed), threads)
            self.assertEqual(found, [record for _, record in listed])
        self.assertEqual([held(answer) for answer in solve_many([files for files, _ in listed[:99]])],
                         [held(read(record)) for _, record in listed[:99]])
        self.assertEqual(solve_many([]), [])

    def test_states(self):
        for files, number, detail, told in recordings.states():
            lent, found = ctypes.create_string_buffer(b"\xa5" * 647, 647), ctypes.c_uint32()
            self.assertEqual(states._why(*solving.inputs(files), lent, 647, found), number)
            self.assertEqual((found.value, lent.raw), (detail, told + b"\xa5" * 7))
            if number:
                self.refused(number, why, files)
                continue
            packed = b"".join(struct.pack("<3Id", one.state, one.turn, one.clashes, one.residual) for one in why(files))
            self.assertEqual(packed, told[: len(packed)])
            self.assertEqual(len(packed), len(files.receptions) // 132 * 20)

    def test_places_and_reads(self):
        for kind, number, given, after in recordings.record_calls():
            if kind == 0:
                place, file = struct.unpack_from("<Q", given)[0], given[8:]
                if number == 0:
                    self.assertEqual(Records(file)[place], after[8:])
                else:
                    self.refused(number, lambda: Records(file)[place])
            elif kind == 1 and number == 0:
                self.assertEqual(held(read(given)), after)
                self.assertEqual(write(read(given)), given)
            elif kind == 1:
                self.refused(number, read, given)

    def test_writes(self):
        for kind, number, given, after in recordings.record_calls():
            if kind == 2:
                words, numbers = fixes._Words.from_buffer_copy(given), fixes._Numbers.from_buffer_copy(given, 24)
                out = ctypes.create_string_buffer(b"\xa5" * len(after), len(after))
                transmit_ps = struct.unpack_from("<q", given, 168)[0]
                self.assertEqual(fixes._write(words, numbers, transmit_ps, out, len(after)), number)
                self.assertEqual(out.raw, after)

    def test_wire(self):
        for kind, number, given, after in recordings.wire_calls():
            if kind == 0 and number == 0:
                wire = to_wire(given)
                self.assertEqual(struct.pack("<3i", wire.latitude_e7, wire.longitude_e7, wire.height_mm), after)
                self.assertEqual(Wire(*struct.unpack("<3i", after)).position(), wire.position())
            elif kind == 0:
                self.refused(number, to_wire, given)
            elif number == 0:
                self.assertEqual(struct.pack("<3d", *Wire(*struct.unpack("<3i", given)).position()), after)
            else:
                self.refused(number, Wire(*struct.unpack("<3i", given)).position)

    def test_archive(self):
        for kind, number, given, after in recordings.archive_calls():
            out = ctypes.create_string_buffer(b"\xa5" * len(after), len(after))
            call = archive._to_archive if kind == 0 else archive._from_archive
            self.assertEqual(call(given, len(given), out, len(after)), number)
            self.assertEqual(out.raw, after)
            move, length = (to_archive, ARCHIVED) if kind == 0 else (from_archive, RECORD)
            if number == 0:
                self.assertEqual(move(given), after[:length])
            elif number != 14:
                self.refused(number, move, given)


if __name__ == "__main__":
    unittest.main()
