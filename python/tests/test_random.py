"""Random problems, sound and damaged, compared byte for byte with the programs solve and tell_why, which are built
apart from the shared library. The same ones at each run; the environment variable PROBLEMS asks for another number of
them."""

import array
import collections
import math
import os
import pathlib
import random
import struct
import subprocess
import tempfile
import unittest

import recordings
from mlat_solver import Altitude, Files, ObservationId, Problem, Reception, Records, Refusal, page, read, solve
from mlat_solver import solve_many, solve_many_records, solve_record, why, write

PROGRAMS = recordings.REPOSITORY / "target" / "bin"
COUNT = int(os.environ.get("PROBLEMS", "400"))
LIGHT = 299792458.0


def ecef(latitude, longitude, height):
    """The point of a place, radians and metres, by WGS 84's own two numbers."""
    flat = 1 / 298.257223563
    square = flat * (2 - flat)
    across = 6378137.0 / math.sqrt(1 - square * math.sin(latitude) ** 2)
    wide = (across + height) * math.cos(latitude)
    return (wide * math.cos(longitude), wide * math.sin(longitude),
            (across * (1 - square) + height) * math.sin(latitude))


def covariance(chance, n):
    """A matrix of n rows that is positive definite, or now and then any."""
    rows = [[chance.gauss(0, 3) for _ in range(n)] for _ in range(n)]
    if chance.random() < 0.1:
        return [entry for row in rows for entry in row]
    return [sum(a * b for a, b in zip(one, other)) / n for one in rows for other in rows]


def sound(chance):
    """A problem as a network has it: receivers about an aircraft, noise, and now and then one that is far off."""
    latitude, longitude, height = chance.uniform(-1.5, 1.5), chance.uniform(-3, 3), chance.uniform(0, 13000)
    aircraft = ecef(latitude, longitude, height)
    n = chance.choice((3, 4, 4, 5, 6, 6, 7, 8, 12, 32))
    reference, span = chance.randrange(10**15), chance.choice((0.02, 0.05, 0.1))
    receptions = []
    for key in sorted(chance.randbytes(32) for _ in range(n)):
        north, east = chance.uniform(-span, span), chance.uniform(-span, span)
        site = tuple(round(1000 * part) for part in ecef(latitude + north, longitude + east, chance.uniform(0, 900)))
        metres = 500e3 + math.dist(aircraft, [part / 1000 for part in site]) + chance.gauss(0, 10)
        metres += chance.choice((0,) * 12 + (400, 3000, 1.5e6))
        receptions.append(Reception(ObservationId(key, chance.randrange(9)), round(metres / LIGHT * 1e12), site, metres,
                                    chance.choice((25.0, 100.0, 400.0))))
    barometric = Altitude.barometric(height + chance.gauss(0, 50), chance.choice((0, 0, 900)))
    altitudes = (None, barometric, Altitude.gnss(height))
    altitude = altitudes[1 + chance.randrange(2)] if n == 3 else chance.choice(altitudes)
    return Problem(receptions, covariance(chance, n), altitude, reference)


def damaged(chance, files):
    """The same with one file changed: absent, cut, longer, or with a bit turned."""
    place = chance.randrange(4)
    held = files[place] or b""
    cut = held[: chance.randrange(len(held) + 1)]
    bit = bytearray(held)
    if held:
        bit[chance.randrange(len(held))] ^= 1 << chance.randrange(8)
    changed = chance.choice((None, cut, held + chance.randbytes(chance.choice((1, 8, 132))), bytes(bit), bytes(bit)))
    return files._replace(**{files._fields[place]: changed})


def problems():
    """Each problem with its files; of a damaged one the files alone."""
    chance = random.Random(20261116)
    for _ in range(COUNT):
        problem = sound(chance)
        files = problem.files()
        yield (None, damaged(chance, files)) if chance.random() < 0.4 else (problem, files)


@unittest.skipUnless((PROGRAMS / "tell_why").exists() and (PROGRAMS / "solve").exists(), "no programs are built")
class Beside(unittest.TestCase):
    """The package beside the programs."""

    def program(self, name, files):
        """What a program writes in a folder with the files."""
        with tempfile.TemporaryDirectory() as folder:
            for part, held in files._asdict().items():
                if held is not None:
                    pathlib.Path(folder, f"{part}.bin").write_bytes(held)
            return subprocess.run([PROGRAMS / name], cwd=folder, stdout=subprocess.PIPE, check=True).stdout

    def told(self, files):
        """What tell_why has to write, by the package."""
        record = solve_record(files)
        try:
            states = why(files)
        except Refusal as refusal:
            self.assertEqual(struct.pack("<2I", refusal.number, refusal.detail), record[:8])
            return record[:8] + bytes(640)
        packed = (struct.pack("<3Id", one.state, one.turn, one.clashes, one.residual) for one in states)
        return record[:8] + b"".join(packed).ljust(640, b"\0")

    def test_bytes(self):
        answers = collections.Counter()
        for problem, files in problems():
            record = solve_record(files)
            answers[record[0]] += 1
            self.assertEqual(record, self.program("solve", files))
            self.assertEqual(self.told(files), self.program("tell_why", files))
            self.assertEqual(write(read(record)), record)
            if problem:
                self.assertEqual(solve_record(problem), record)
                lent = Problem(bytearray(files.receptions), array.array("d", files.clock), problem.altitude,
                               problem.reference_ps)
                self.assertEqual(solve_record(lent), record)
        # they are worth something: fixes, and many kinds of refusals
        self.assertGreater(answers[0], COUNT / 4)
        self.assertGreaterEqual(len(answers), min(8, COUNT / 40))

    def test_many(self):
        listed = [problem or files for problem, files in problems()]
        due = [solve_record(one) for one in listed]
        for threads in (1, 2, 7):
            self.assertEqual(solve_many_records(listed, threads), due)
        self.assertEqual(solve_many(iter(listed)), [solve(one) for one in listed])
        self.assertEqual(list(map(read, Records(b"".join(due)))), solve_many(listed, 2))

    def test_pages(self):
        for problem, files in problems():
            self.assertTrue(page.html(page.of_files("random", files)).endswith("</html>\n"))


if __name__ == "__main__":
    unittest.main()
