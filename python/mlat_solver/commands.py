"""The commands of `python -m mlat_solver`."""

from __future__ import annotations

import argparse
import csv
import json
import math
import pathlib
import sys
from typing import Any, Dict, Iterator, List, Optional, Sequence, Union

from . import page
from .geodesy import to_ecef
from .near import nearest, within
from .patterns import clash_patterns
from .problem import Files
from .fixes import Fix, Records, open_records, read
from .refusal import Refusal
from .solving import solve
from .states import why

#: The columns of a record: those of a refusal end with n.
COLUMNS = (
    "place answer name detail n used latitude_deg longitude_deg height_m transmit_ps x_m y_m z_m t_m chi2 "
    "version altitude_kind altitude_m c00 c01 c02 c10 c11 c12 c20 c21 c22"
).split()


def row(place: int, held: Union[Fix, Refusal]) -> Dict[str, Any]:
    """A record's fields by the names of `COLUMNS`, floats so that they are read back to the bit."""
    if isinstance(held, Refusal):
        return dict(zip(COLUMNS, (place, held.number, held.name, held.detail, held.n)))
    covariance = [entry for line in held.covariance for entry in line]
    altitude = (held.altitude.kind, held.altitude.metres) if held.altitude else (0, None)
    return dict(zip(COLUMNS, (place, 0, "FIX", held.dof, held.n, held.used, *held.position, held.transmit_ps,
                              *held.ecef, held.t_m, held.chi2, held.spec, *altitude, *covariance)))


def opened_records(file: str) -> Records:
    """The records of a file; its refusal names it."""
    try:
        return open_records(file)
    except Refusal as refusal:
        raise OSError(f"{file}: {refusal}") from None


def rows(opened: Records) -> Iterator[Dict[str, Any]]:
    """The records of a file; a malformed one has the answer 18."""
    for place, record in enumerate(opened):
        try:
            yield row(place, read(record))
        except Refusal as refusal:
            yield row(place, refusal)


def list_records(words: List[str]) -> int:
    """Lists the records of a file on standard output: `--csv` with a head, or `--json`, an object a line."""
    parser = argparse.ArgumentParser("python -m mlat_solver records", description=list_records.__doc__)
    parser.add_argument("file", metavar="FILE", help="a file of records, 176 bytes each")
    form = parser.add_mutually_exclusive_group()
    form.add_argument("--csv", action="store_true", help="comma-separated lines (if nothing is said)")
    form.add_argument("--json", action="store_true", help="a JSON object a line")
    given = parser.parse_args(words)
    listed = rows(opened_records(given.file))
    if given.json:
        for held in listed:
            print(json.dumps(held))
        return 0
    out = csv.DictWriter(sys.stdout, COLUMNS, lineterminator="\n")
    out.writeheader()
    out.writerows(listed)
    return 0


def make_page(words: List[str]) -> int:
    """Writes a page to look at, of a problem's folder, or of a file of records and a place in it, from 0."""
    parser = argparse.ArgumentParser("python -m mlat_solver page", description=make_page.__doc__)
    parser.add_argument("folder", metavar="FOLDER|FILE", help="a problem's folder, or a file of records")
    parser.add_argument("place", type=int, nargs="?", metavar="PLACE", help="which record of the file, from 0")
    parser.add_argument("-o", dest="out", required=True, metavar="HTML", help="the file to write; - is standard output")
    given = parser.parse_args(words)
    if given.place is None and pathlib.Path(given.folder).is_file():
        parser.error(f"{given.folder} is a file: which record of it, by its PLACE from 0?")
    if given.place is None:
        seen = page.of_files(given.folder, Files.of_folder(given.folder))
    else:
        title, opened = f"{given.folder}, place {given.place}", opened_records(given.folder)
        try:
            seen = page.of_record(title, opened[given.place])
        except Refusal as refusal:
            raise OSError(f"{title}: {refusal}") from None
    written = page.html(seen)
    if given.out == "-":
        sys.stdout.write(written)
    else:
        pathlib.Path(given.out).write_text(written, "utf-8")
    return 0


def away(opened: Records, place: int, point: Sequence[float]) -> str:
    """A place with how far its fix is from a point, to the millimetre: a line of the program find_fixes."""
    fix = read(opened[place])
    assert isinstance(fix, Fix)
    x, y, z = (mine - other for mine, other in zip(fix.ecef, point))
    distance = math.sqrt(x * x + y * y + z * z)
    if distance * 1000 + 0.5 >= 1 << 64:
        return f"place {place}, over 10^16 m away"
    mm = int(distance * 1000 + 0.5)
    return f"place {place}, {mm // 1000}.{mm % 1000:03} m away"


def near(words: List[str]) -> int:
    """Names the fix of a file of records nearest to a place, then each within RADIUS metres of it, in the file's order.
    A place is its latitude and longitude, degrees, and height above the ellipsoid, metres."""
    parser = argparse.ArgumentParser("python -m mlat_solver near", description=near.__doc__)
    parser.add_argument("file", metavar="FILE", help="a file of records, 176 bytes each")
    parser.add_argument("--ecef", action="store_true", help="the place is its coordinates X Y Z, metres")
    for name, told in (("LATITUDE", "degrees"), ("LONGITUDE", "degrees"), ("HEIGHT", "metres"), ("RADIUS", "metres")):
        parser.add_argument(name, type=float, help=told)
    given = parser.parse_args(words)
    place = (given.LATITUDE, given.LONGITUDE, given.HEIGHT)
    point = place if given.ecef else to_ecef(place)
    opened = opened_records(given.file)
    first, listed = nearest(opened, point), within(opened, point, given.RADIUS)
    print("nearest: " + ("none, the file has no fix" if first is None else away(opened, first, point)))
    for found in listed:
        print(away(opened, found, point))
    return 0


def patterns(words: List[str]) -> int:
    """Prints for planners, of all patterns of failing pairs that 0 to 6 receptions can have, how many leave each number
    of survivors of the screen, and the share that leaves at least four."""
    argparse.ArgumentParser("python -m mlat_solver patterns", description=patterns.__doc__).parse_args(words)
    print("Of all patterns of failing pairs, how many leave 0 to 6 survivors of the screen:\n")
    print("receptions  patterns" + "".join(f"{survivors:8}" for survivors in range(7)) + "  four or more")
    for receptions in range(7):
        counts = clash_patterns(receptions)
        every = sum(counts)
        # a half up
        tenths = (1000 * sum(counts[4:]) + every // 2) // every
        told = f"{receptions:10}{every:10}" + "".join(f"{count:8}" for count in counts)
        print(f"{told}{tenths // 10:10}.{tenths % 10} %")
    return 0


#: The other commands, for --help.
OTHERS = """other commands, each with --help:
  records FILE                                    lists a file of records, as CSV or JSON
  near FILE LATITUDE LONGITUDE HEIGHT RADIUS      names the fixes of a file near a place
  page FOLDER -o HTML, page FILE PLACE -o HTML    writes a page to look at, of a problem or of a record
  patterns                                        prints the table of clash patterns, for planners

exit status: 0 done, of FOLDER a fix; 1 a refusal of FOLDER; 2 nothing was done, and standard error says why"""


def lengths(files: Files) -> str:
    """How long the files of a problem are, for one that is refused by its lengths."""
    held = files._asdict().items()
    told = [f"{name}.bin {'absent' if part is None else f'{len(part)} bytes'}" for name, part in held]
    return (", ".join(told) + ": receptions have 132 bytes each, the clock 8 n n for n of them, an altitude 16, a "
            "reference 8")


def show(words: List[str]) -> int:
    """Solves the four files of a folder and shows the fix, and of every receiver whether it is used, and why not."""
    usage = "python -m mlat_solver FOLDER\n       python -m mlat_solver records|near|page|patterns .."
    parser = argparse.ArgumentParser("python -m mlat_solver", usage, show.__doc__, OTHERS,
                                     formatter_class=argparse.RawDescriptionHelpFormatter)
    told = "with receptions.bin, clock.bin, altitude.bin and reference.bin; one that is not there is absent"
    parser.add_argument("folder", metavar="FOLDER", help=told)
    files = Files.of_folder(parser.parse_args(words).folder)
    answer = solve(files)
    if isinstance(answer, Refusal):
        print(f"no fix: {answer}")
        if answer.name in ("CLOCK_SIZE", "TORN_INPUT"):
            print(lengths(files))
        return 1
    position, enu = answer.position, answer.enu_covariance()
    print(f"latitude {position[0]:.7f}, longitude {position[1]:.7f} degrees, height {position[2]:.1f} m")
    sigma = [f"{name} {enu[k][k] ** 0.5:.1f} m" for k, name in enumerate(("east", "north", "up"))]
    print("standard deviations " + ", ".join(sigma))
    print(f"chi-square {answer.chi2:.3f} at {answer.dof} degrees of freedom, sent at {answer.transmit_ps} ps")
    for place, state in enumerate(why(files)):
        print(f"reception {place}: {state}")
    return 0


def main(words: Optional[List[str]] = None) -> int:
    """Runs a command; its exit status."""
    words = sys.argv[1:] if words is None else words
    named = {"records": list_records, "near": near, "page": make_page, "patterns": patterns}
    command = named.get(words[0] if words else "", show)
    try:
        return command(words if command is show else words[1:])
    except BrokenPipeError:
        sys.stderr.close()
        return 141
    except (Refusal, OSError) as error:
        known = isinstance(error, OSError) and error.filename and error.strerror
        print(f"mlat_solver: {error.filename}: {error.strerror}" if known else f"mlat_solver: {error}", file=sys.stderr)
        return 2
