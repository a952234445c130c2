"""The package's own: buffers, examples beside the programs, commands, the page."""

import array
import contextlib
import ctypes
import dataclasses
import io
import json
import math
import mmap
import os
import pathlib
import pickle
import re
import struct
import subprocess
import sys
import tempfile
import threading
import unittest
import xml.etree.ElementTree as ElementTree
from html.parser import HTMLParser

import recordings
from mlat_solver import Altitude, Files, Fix, ObservationId, Problem, Reception, Records, Refusal, open_records, records
from mlat_solver import commands, drawing, page, solve, solve_record, version, why, write
from mlat_solver import horizontal_sigma_m, solve_many, to_ecef
from mlat_solver.library import LENT, library

PROGRAMS = recordings.REPOSITORY / "target" / "bin"


def example(name):
    return Files.of_folder(recordings.EXAMPLES / name)


def program(name, folder):
    return subprocess.run([PROGRAMS / name], cwd=folder, stdout=subprocess.PIPE, check=True).stdout


def run(*words):
    """Exit status, standard output and standard error of a command."""
    out, said = io.StringIO(), io.StringIO()
    with contextlib.redirect_stdout(out), contextlib.redirect_stderr(said):
        try:
            status = commands.main([str(word) for word in words])
        except SystemExit as ended:
            status = ended.code
    return status, out.getvalue(), said.getvalue()


class Version(unittest.TestCase):
    """The library's version beside those of version.txt and of the header."""

    def test_one_version(self):
        told = (recordings.REPOSITORY / "version.txt").read_text().strip()
        self.assertEqual(".".join(map(str, version())), told)
        header = (recordings.REPOSITORY / "include" / "mlat_solver.h").read_text()
        for part, number in zip(("MAJOR", "MINOR", "PATCH"), version()):
            self.assertIn(f"\n#define MLAT_VERSION_{part} {number}\n", header)


class Examples(unittest.TestCase):
    """The example folders, and what the programs write for them."""

    def test_records(self):
        for name in recordings.FOLDERS:
            self.assertEqual(solve_record(example(name)), (recordings.EXAMPLES / name / "record.bin").read_bytes())

    @unittest.skipUnless((PROGRAMS / "tell_why").exists() and (PROGRAMS / "solve").exists(), "no programs are built")
    def test_programs(self):
        with tempfile.TemporaryDirectory() as folder:
            for files, _ in list(recordings.solved())[::24]:
                for name, part in zip(files._fields, files):
                    path = pathlib.Path(folder, f"{name}.bin")
                    path.unlink() if path.exists() else None
                    if part is not None:
                        path.write_bytes(part)
                self.assertEqual(program("solve", folder), solve_record(files))
                told = program("tell_why", folder)
                self.assertEqual(told[:8], solve_record(files)[:8])
                try:
                    packed = [struct.pack("<3Id", one.state, one.turn, one.clashes, one.residual) for one in why(files)]
                except Refusal as refusal:
                    packed = []
                    self.assertEqual(told[:8], struct.pack("<2I", refusal.number, refusal.detail))
                self.assertEqual(told[8:], b"".join(packed).ljust(640, b"\0"))

    def test_corrected(self):
        files = example("fix")
        given = Problem(files.receptions, array.array("d", files.clock), Altitude.barometric(11181.5, 9850), 0)
        self.assertEqual(solve(given).altitude, Altitude(Altitude.BAROMETRIC, 11181.5))
        high = solve(Problem(files.receptions, files.clock, Altitude.gnss(11280.0)))
        self.assertEqual(high.altitude, Altitude(Altitude.GNSS, 11280.0))


class Buffers(unittest.TestCase):
    """What can be lent."""

    def test_all_alike(self):
        files = example("outlier")
        known = solve_record(files)
        with tempfile.TemporaryFile() as file:
            file.write(files.receptions)
            file.flush()
            mapped = mmap.mmap(file.fileno(), 0, access=mmap.ACCESS_READ)
            views = (lambda part: memoryview(bytearray(part)), lambda part: array.array("B", part))
            for lend in (bytes, bytearray, memoryview, *views):
                self.assertEqual(solve_record(Files(*map(lend, files))), known)
            self.assertEqual(solve_record(files._replace(receptions=mapped)), known)
            mapped.close()

    def outlier(self, receptions, clock):
        """examples/outlier, with these."""
        reference = int.from_bytes(example("outlier").reference, "little")
        return Problem(receptions, clock, Altitude.barometric(11280.0), reference)

    def test_clock(self):
        files = example("outlier")
        floats = array.array("d", files.clock)
        square = memoryview(floats).cast("B").cast("d", (6, 6))
        for clock in (floats, list(floats), tuple(floats), memoryview(floats), square):
            self.assertEqual(solve_record(self.outlier(files.receptions, clock)), solve_record(files))
        with self.assertRaises(TypeError):
            solve(Problem(files.receptions, array.array("f", floats)))
        with self.assertRaises(TypeError):
            solve(Problem(files.receptions, memoryview(floats)[::2]))
        with self.assertRaises(TypeError):
            solve(Problem(3))

    def test_numpy(self):
        try:
            import numpy
        except ImportError:
            self.skipTest("numpy is not there")
        files = example("outlier")
        clock = numpy.frombuffer(files.clock).reshape(6, 6)
        fields = [("receiver", "V32"), ("epoch", "<u4"), ("timestamp", "<u8"), ("message", "V32"), ("time_ps", "<i8"),
                  ("site_mm", "<i8", 3), ("z", "<f8"), ("noise_m2", "<f8"), ("filler", "<u8")]
        named = numpy.frombuffer(files.receptions, dtype=fields)
        for receptions in (numpy.frombuffer(files.receptions, dtype="V132"), named, named.copy()):
            self.assertEqual(solve_record(self.outlier(receptions, clock)), solve_record(files))
            self.assertEqual(solve_record(self.outlier(receptions, clock.copy())), solve_record(files))
        keys = [ObservationId(bytes(one["receiver"]), one["epoch"], one["timestamp"], bytes(one["message"]))
                for one in named]
        listed = [Reception(key, one["time_ps"], tuple(one["site_mm"]), one["z"], one["noise_m2"])
                  for key, one in zip(keys, named)]
        self.assertEqual(solve_record(self.outlier(listed, list(clock.ravel()))), solve_record(files))
        for wrong in (clock.astype("f4"), clock.astype(">f8"), numpy.asfortranarray(clock), clock[::2]):
            with self.assertRaises(TypeError):
                solve(self.outlier(named, wrong))

    def test_wrong_types(self):
        """One line, which names what is wrong."""
        identity = ObservationId(bytes(32))
        for error, part, call in (
            (TypeError, "a Problem or Files, not str", lambda: solve("examples/fix")),
            (TypeError, "a Problem or Files, not tuple", lambda: solve_many([(b"", b"")], 2)),
            (TypeError, "receptions: a list or a buffer is needed, not int", lambda: solve(Problem(3))),
            (TypeError, "one is of type str", lambda: solve(Problem(["a"]))),
            (TypeError, "clock_m2: a list or a buffer is needed, not int", lambda: solve(Problem([], 3))),
            (TypeError, "clock_m2 has floats", lambda: solve(Problem([], [[0.0]]))),
            (TypeError, "time_ps is '5'", lambda: Reception(identity, "5", (0, 0, 0), 0.0, 1.0).to_bytes()),
            (ValueError, "site_mm is 1.5", lambda: Reception(identity, 5, (0, 1.5, 0), 0.0, 1.0).to_bytes()),
            (ValueError, "site_mm has three", lambda: Reception(identity, 5, (0, 0), 0.0, 1.0).to_bytes()),
            (TypeError, "noise_m2 is None", lambda: Reception(identity, 5, (0, 0, 0), 0.0, None).to_bytes()),
            (ValueError, "epoch is 4294967296", lambda: solve(Problem([Reception(
                ObservationId(bytes(32), 1 << 32), 5, (0, 0, 0), 0.0, 1.0)]))),
            (ValueError, "correction_cm is", lambda: Altitude.barometric(1.0, 1 << 31).to_bytes()),
            (ValueError, "reference_ps is", lambda: solve(Problem([], reference_ps=1 << 63))),
            (ValueError, "132 bytes, not 131", lambda: Reception.from_bytes(bytes(131))),
            (ValueError, "one or more, not 0", lambda: solve_many([], 0)),
        ):
            with self.assertRaises(error) as raised:
                call()
            self.assertIn(part, str(raised.exception))
            self.assertNotIn("\n", str(raised.exception))

    def seen_at_work(self, kind):
        """Whether another thread sees a search with its first place written and its last one not."""
        n, none = 200000, 1 << 40
        file = (recordings.EXAMPLES / "fix" / "record.bin").read_bytes() * n
        call = kind(library()._name).mlat_within
        longs = ctypes.POINTER(ctypes.c_uint64)
        call.argtypes = (*LENT, ctypes.POINTER(ctypes.c_double), ctypes.c_double, longs, ctypes.c_size_t, longs)
        places, count = (ctypes.c_uint64 * n).from_buffer(array.array("Q", [none]) * n), ctypes.c_uint64()
        point = (ctypes.c_double * 3)(*to_ecef((47.6, 9.3, 11000.0)))
        thread = threading.Thread(target=call, args=(file, len(file), point, 1e6, places, n, count))
        thread.start()
        seen = False
        while thread.is_alive():
            # the first before the last: so a search that was done in between is not seen
            seen = seen or places[0] == 0 and places[n - 1] == none
        thread.join()
        self.assertEqual((places[0], places[n - 1], count.value), (0, n - 1, n))
        return seen

    def test_the_lock_is_let_go(self):
        """By CDLL, as the package has it, another thread sees the library at work; by PyDLL, which keeps the lock, none
        could."""
        self.assertIs(type(library()), ctypes.CDLL)
        self.assertTrue(any(self.seen_at_work(ctypes.CDLL) for _ in range(100)))
        self.assertFalse(any(self.seen_at_work(ctypes.PyDLL) for _ in range(10)))

    def test_keys(self):
        with self.assertRaises(ValueError):
            Reception(ObservationId(b"short"), 0, (0, 0, 0), 0.0, 1.0).to_bytes()
        self.assertLess(ObservationId(b"\x7f" + bytes(31), 2), ObservationId(b"\x80" + bytes(31), 1))

    def test_refusals(self):
        for number in range(1, 25):
            refusal = Refusal(number, 3, 4)
            self.assertEqual(pickle.loads(pickle.dumps(refusal)), refusal)
            self.assertTrue(str(refusal).startswith(f"refusal {number}: ") and refusal.name)
        self.assertEqual(solve(Problem([])), Refusal(7))

    def test_files_of_records(self):
        with tempfile.TemporaryDirectory() as folder:
            path = pathlib.Path(folder, "fixes.bin")
            path.write_bytes(b"")
            self.assertEqual(list(records(path)), [])
            path.write_bytes(bytes(175))
            with self.assertRaises(Refusal) as raised:
                open_records(path)
            self.assertEqual(raised.exception.number, 16)
            path.write_bytes((recordings.EXAMPLES / "records.bin").read_bytes() + b"\xff" * 176)
            with self.assertRaises(Refusal) as raised:
                list(records(path))
            self.assertEqual((raised.exception.number, raised.exception.detail), (18, 4))
        held = records(recordings.EXAMPLES / "records.bin")
        self.assertEqual([isinstance(one, Fix) for one in held], [True, True, False, True])
        self.assertEqual(len(Records(memoryview(bytes(352)))), 2)


    def test_numbers_that_no_record_holds(self):
        fix = next(records(recordings.EXAMPLES / "records.bin"))
        self.assertEqual(write(fix), Records((recordings.EXAMPLES / "records.bin").read_bytes())[0])
        wrong = [{name: getattr(fix, name) + add} for name in ("n", "used", "dof", "spec") for add in (1 << 32, -99)]
        wrong += [{"transmit_ps": fix.transmit_ps + (1 << 64)}, {"altitude": Altitude(1 + (1 << 32), 0.0)}]
        for held in [dataclasses.replace(fix, **fields) for fields in wrong] + [Refusal(8 + (1 << 32)), Refusal(-1)]:
            with self.assertRaises(Refusal) as raised:
                write(held)
            self.assertEqual(raised.exception.number, 18)


class Commands(unittest.TestCase):
    """python -m mlat_solver."""

    def test_folder(self):
        status, out, _ = run(recordings.EXAMPLES / "screened")
        self.assertEqual(status, 0)
        self.assertIn("latitude 47.5798547, longitude 9.3197246 degrees, height 11376.7 m", out)
        self.assertIn("reception 4: removed by the screen in turn 1", out)
        status, out, _ = run(recordings.EXAMPLES / "ambiguous")
        self.assertEqual((status, out), (1, "no fix: refusal 8: two places fit about as well\n"))
        self.assertEqual(run(recordings.EXAMPLES)[0], 2)
        self.assertEqual(run()[0], 2)

    def test_said(self):
        """What cannot be done is said in one line that names it."""
        with tempfile.TemporaryDirectory() as folder:
            torn = pathlib.Path(folder, "receptions.bin")
            torn.write_bytes(bytes(131))
            status, out, _ = run(folder)
            self.assertEqual((status, out.count("\n")), (1, 2))
            self.assertIn("refusal 15", out)
            self.assertIn("receptions.bin 131 bytes, clock.bin absent", out)
            for words, part in (
                ((pathlib.Path(folder, "none"),), "none: No such file or directory"),
                ((torn,), "receptions.bin: Not a directory"),
                (("records", torn), "receptions.bin: refusal 16"),
                (("records", folder), ": Is a directory"),
                (("page", torn, 0, "-o", "-"), "receptions.bin: refusal 16"),
                (("page", folder, 0, "-o", "-"), ": Is a directory"),
                (("page", recordings.EXAMPLES / "records.bin", 4, "-o", "-"), "records.bin, place 4: refusal 17"),
                (("page", recordings.EXAMPLES / "fix", "-o", pathlib.Path(folder, "a", "b")), "b: No such file"),
            ):
                status, out, said = run(*words)
                self.assertEqual((status, out, said.count("\n")), (2, "", 1))
                self.assertIn(part, said)
        self.assertIn("by its PLACE", run("page", recordings.EXAMPLES / "records.bin", "-o", "-")[2])

    @unittest.skipUnless(hasattr(os, "mkfifo"), "no pipes have names here")
    def test_a_pipe_is_read(self):
        words = [sys.executable, "-m", "mlat_solver", "page", "/dev/stdin", "1", "-o", "-"]
        with open(recordings.EXAMPLES / "records.bin", "rb") as file:
            ended = subprocess.run(words, input=file.read(), stdout=subprocess.PIPE, check=True)
        self.assertIn(b"reception 3: not used", ended.stdout)
        words = [sys.executable, "-m", "mlat_solver", "records", "/dev/stdin", "--json"]
        with open(recordings.EXAMPLES / "records.bin", "rb") as file:
            ended = subprocess.run(words, input=file.read(), stdout=subprocess.PIPE, check=True)
        self.assertEqual(len(ended.stdout.splitlines()), 4)

    def test_listing(self):
        file = recordings.EXAMPLES / "records.bin"
        status, out, _ = run("records", file, "--csv")
        self.assertEqual((status, len(out.splitlines())), (0, 5))
        listed = [json.loads(line) for line in run("records", file, "--json")[1].splitlines()]
        self.assertEqual([held["answer"] for held in listed], [0, 0, 8, 0])
        first = next(records(file))
        self.assertEqual(listed[0]["latitude_deg"], first.position.lat_deg)
        self.assertEqual((listed[0]["version"], listed[0]["altitude_m"]), (8, first.altitude.metres))
        covariance = [one for row in first.covariance for one in row]
        self.assertEqual([listed[0][f"c{at // 3}{at % 3}"] for at in range(9)], covariance)
        self.assertEqual(run("records", recordings.EXAMPLES / "fix" / "clock.bin")[:2], (2, ""))

    def test_near(self):
        program = recordings.REPOSITORY / "crates" / "find_fixes"
        file, *query = (program / "args").read_text().split()
        due = (program / "stdout").read_text()
        self.assertEqual(run("near", program / "data" / file, *query)[:2], (0, due))
        moved = run("near", program / "data" / file, *query[:-1], "2500000")[1]
        self.assertNotEqual(moved, due)
        status, out, _ = run("near", recordings.EXAMPLES / "records.bin", "47.6", "-9.3", "11000", "0")
        self.assertEqual((status, out), (0, "nearest: place 0, 1396784.404 m away\n"))

    def test_near_nothing(self):
        file = recordings.EXAMPLES / "records.bin"
        status, out, said = run("near", file, "47.6", "9.3", "11000", "-1")
        self.assertEqual((status, out), (2, ""))
        self.assertIn("refusal 22", said)
        self.assertEqual(run("near", recordings.EXAMPLES / "fix" / "clock.bin", 1, 2, 3, 4)[:2], (2, ""))
        self.assertEqual(run("near", file, "1", "2", "x", "3")[0], 2)
        with tempfile.TemporaryDirectory() as folder:
            path = pathlib.Path(folder, "refused.bin")
            path.write_bytes((recordings.EXAMPLES / "ambiguous" / "record.bin").read_bytes())
            self.assertEqual(run("near", path, 1, 2, 3, 4)[:2], (0, "nearest: none, the file has no fix\n"))
            far = dataclasses.replace(next(records(file)), ecef=(1e200, 0.0, 0.0))
            path.write_bytes(write(far))
            self.assertEqual(run("near", path, 1, 2, 3, 4)[:2], (0, "nearest: place 0, over 10^16 m away\n"))

    def test_patterns(self):
        due = (recordings.DATA / "patterns" / "table.txt").read_text()
        self.assertEqual(run("patterns"), (0, due, ""))
        self.assertEqual(run("patterns", "7")[0], 2)

    def test_module(self):
        words = [sys.executable, "-m", "mlat_solver", recordings.EXAMPLES / "fix"]
        ended = subprocess.run(words, stdout=subprocess.PIPE, check=True)
        self.assertIn(b"latitude 47.5799145", ended.stdout)


class Shapes(HTMLParser):
    """Which tags are open, and that each is closed in turn."""

    def __init__(self, text):
        super().__init__()
        self.open, self.wrong, self.links = [], [], []
        self.feed(text)

    def handle_starttag(self, tag, attrs):
        if tag != "meta":
            self.open.append(tag)
        self.links += [value for name, value in attrs if name in ("src", "href")]

    def handle_startendtag(self, tag, attrs):
        """An element of the drawings without content."""

    def handle_endtag(self, tag):
        if not self.open or self.open.pop() != tag:
            self.wrong.append(tag)


class Page(unittest.TestCase):
    """The page: whole, alone, and with what it has to show."""

    def made(self, *words):
        status, out, _ = run("page", *words, "-o", "-")
        self.assertEqual(status, 0)
        shapes = Shapes(out)
        self.assertEqual((shapes.open, shapes.wrong, shapes.links), ([], [], []))
        self.assertNotIn("http://", out.replace('http-equiv="', ""))
        self.assertNotIn("url(", out)
        for svg in re.findall("<svg.*?</svg>", out):
            ElementTree.fromstring(svg)
        for svg in re.findall("<figure [^>]*><svg.*?</svg>", out):
            self.assertIn("<title>", svg)
            self.assertIn("<desc>", svg)
        self.assertIn("Where the numbers come from", out)
        return out

    def test_screened(self):
        out = self.made(recordings.EXAMPLES / "screened")
        for part in ("47.5798547°", "removed by the screen in turn 1", "left out; 35.06", "limit 5", "Two-sigma"):
            self.assertIn(part, out)
        for part in (">proved<", ">page<"):
            self.assertIn(part, out)
        for kind in ("used", "leftout", "removed"):
            self.assertIn(f'class="{kind}"', out)

    def test_what_is_marked_as_proved(self):
        """What a call gives as it stands; what the page works out is marked as its own."""
        fix = solve(example("screened"))
        shown = page.numbers(fix)
        own = [name for name, _, proved in shown if not proved]
        self.assertEqual(own, ["Standard deviations east, north, up", "Two-sigma ellipse, half axes",
                               "Receptions used"])
        given = {"Latitude": f"{fix.position.lat_deg:.7f}°", "Longitude": f"{fix.position.lon_deg:.7f}°",
                 "Height above the ellipsoid": f"{fix.position.height_m:,.1f} m",
                 "ECEF": "{:,.1f}, {:,.1f}, {:,.1f} m".format(*fix.ecef),
                 "Horizontal standard deviation": f"{horizontal_sigma_m(fix.position, fix.covariance):.1f} m",
                 "Chi-square": f"{fix.chi2:.3f} at {fix.dof} degree of freedom",
                 "Time of transmission": f"{fix.transmit_ps:,} ps",
                 "T, after the reference": f"{fix.t_m:,.3f} m of light", "Receptions considered": str(fix.n),
                 "Altitude as given": f"{fix.altitude.metres:,.1f} m, barometric"}
        self.assertEqual({name: value for name, value, proved in shown if proved}, given)

    def test_refusal(self):
        out = self.made(recordings.EXAMPLES / "ambiguous")
        self.assertIn("Refusal 8: two places fit about as well", out)
        self.assertIn('class="unknown"', out)
        self.assertNotIn('class="fix"', out)

    def test_record(self):
        out = self.made(recordings.EXAMPLES / "records.bin", 1)
        self.assertIn("reception 3: not used", out)
        self.assertEqual(run("page", recordings.EXAMPLES / "records.bin", 9, "-o", "-")[0], 2)

    def test_every_recorded_problem_has_a_page(self):
        for files, _ in list(recordings.solved())[::6]:
            text = page.html(page.of_files("a & b", files)).split("\n", 1)[1]
            ElementTree.fromstring(re.sub("<meta [^>]*>", "", text))

    def test_ellipse(self):
        ellipse = drawing.two_sigma(((9.0, 0.0), (0.0, 4.0)))
        self.assertEqual((ellipse.major_m, ellipse.minor_m, ellipse.bearing_deg), (6.0, 4.0, 90.0))
        self.assertAlmostEqual(drawing.two_sigma(((5.0, 3.0), (3.0, 5.0))).bearing_deg, 45.0)
        for wrong in ((4.0, 3.0, 2.0), (-4.0, 0.0, -2.0), (1e308, 0.0, 1e308), (0.0, 0.0, 0.0)):
            self.assertIsNone(drawing.two_sigma((wrong[:2], wrong[1:])))

    def test_ellipse_by_another_way(self):
        """Of all directions, the one in which two standard deviations reach farthest, from the record's covariance by
        the sines and cosines of its place."""
        fix = solve(example("screened"))
        shown = dict((name, value) for name, value, _ in page.numbers(fix))["Two-sigma ellipse, half axes"]
        phi, lam = math.radians(fix.position.lat_deg), math.radians(fix.position.lon_deg)
        east = (-math.sin(lam), math.cos(lam), 0.0)
        north = (-math.sin(phi) * math.cos(lam), -math.sin(phi) * math.sin(lam), math.cos(phi))
        reach = {}
        for degree in range(180):
            turn = math.radians(degree)
            way = [math.sin(turn) * e + math.cos(turn) * n for e, n in zip(east, north)]
            both = sum(a * b * fix.covariance[i][j] for i, a in enumerate(way) for j, b in enumerate(way))
            reach[degree] = 2 * math.sqrt(both)
        far = max(reach, key=reach.get)
        self.assertEqual(shown, f"{reach[far]:.1f} m at {far}° from north, {min(reach.values()):.1f} m")


if __name__ == "__main__":
    unittest.main()
