"""Fix records: read, written, and found in a file."""

from __future__ import annotations

import ctypes
import mmap
import os
import stat
from dataclasses import dataclass
from typing import Any, Iterator, Optional, Tuple, Union

from .geodesy import Geodetic, enu_covariance, horizontal_sigma_m
from .library import LENT, fits, function, lent
from .problem import Altitude, Buffer
from .refusal import Refusal, answered

#: The length of a record.
RECORD = 176

_Words, _Numbers = ctypes.c_uint32 * 6, ctypes.c_double * 18
_Long = ctypes.POINTER(ctypes.c_int64)
_read = function("mlat_read_record", *LENT, _Words, _Numbers, _Long)
_write = function("mlat_write_record", _Words, _Numbers, ctypes.c_int64, ctypes.c_char_p, ctypes.c_size_t)
_record_at = function("mlat_record_at", *LENT, ctypes.c_uint64, ctypes.POINTER(ctypes.c_uint64))

Row = Tuple[float, float, float]


@dataclass(frozen=True)
class Fix:
    """A solved position: `Solution` of the source, by its names. What was considered and used the source has as lists
    of identities, and a record as a number and a mask of places."""

    #: The version of the source's specification: 8.
    spec: int
    #: Metres.
    ecef: Row
    #: WGS 84: degrees, degrees, metres above the ellipsoid.
    position: Geodetic
    #: Transmit time, metres of light after the reference; the source does not show it.
    t_m: float
    #: Time of transmission on the timeline of the reference, picoseconds.
    transmit_ps: int
    #: Of the position, ECEF, m², rows in order.
    covariance: Tuple[Row, Row, Row]
    #: Receptions considered.
    n: int
    #: Bit i is set where reception i, from 0, was used.
    used: int
    #: As it was given, without a station's correction.
    altitude: Optional[Altitude]
    #: The squares of the whitened residuals, added up.
    chi2: float
    #: Degrees of freedom: used receptions, plus one with an altitude, less 4.
    dof: int

    def uses(self, reception: int) -> bool:
        """Whether the fix uses the reception at a place, from 0."""
        return 0 <= reception < 32 and bool(self.used >> reception & 1)

    def enu_covariance(self) -> Tuple[Tuple[float, ...], ...]:
        """The covariance in the frame east, north, up at the position, m²."""
        return enu_covariance(self.position, self.covariance)

    def horizontal_sigma_m(self) -> float:
        """The standard deviation of the horizontal position, metres."""
        return horizontal_sigma_m(self.position, self.covariance)


def read(record: Buffer) -> Union[Fix, Refusal]:
    """What a record of 176 bytes holds: a fix, or why a solve gave none. Raises `Refusal` 16 for another length, 18
    where it breaks a rule of document 02."""
    words, numbers, transmit_ps = _Words(), _Numbers(), ctypes.c_int64()
    answered(_read(*lent(record), words, numbers, transmit_ps))
    answer, detail, n, used, spec, kind = words
    if answer != 0:
        return Refusal(answer, detail, n)
    x, y, z, t_m, lat_deg, lon_deg, height_m, *covariance, chi2, metres = numbers
    rows: Any = tuple(tuple(covariance[at : at + 3]) for at in (0, 3, 6))
    return Fix(spec, (x, y, z), Geodetic(lat_deg, lon_deg, height_m), t_m, transmit_ps.value, rows, n, used,
               Altitude(kind, metres) if kind else None, chi2, detail)


def write(held: Union[Fix, Refusal]) -> bytes:
    """The record of a fix or a refusal: what was read gives its bytes. Raises `Refusal` 18 for what no record holds."""
    words: Tuple[int, ...]
    if isinstance(held, Refusal):
        words, numbers, transmit_ps = (held.number, held.detail, held.n), _Numbers(), 0
    else:
        altitude = held.altitude or Altitude(0, 0.0)
        words = (0, held.dof, held.n, held.used, held.spec, altitude.kind)
        covariance = [entry for row in held.covariance for entry in row]
        numbers = _Numbers(*held.ecef, held.t_m, *held.position, *covariance, held.chi2, altitude.metres)
        transmit_ps = held.transmit_ps
    if not fits(ctypes.c_uint32, *words) or not fits(ctypes.c_int64, transmit_ps):
        answered(18)
    out = ctypes.create_string_buffer(RECORD)
    answered(_write(_Words(*words), numbers, transmit_ps, out, RECORD))
    return out.raw


class Records:
    """The records of a file, each its own bytes: `len`, `[place]` from 0, and `for`."""

    def __init__(self, file: Buffer) -> None:
        """Over a buffer, which is not copied where it is bytes or can be written. Raises `Refusal` 16 where it is not
        whole records."""
        self._held = file
        self._file = lent(file)
        try:
            self._at(0)
        except Refusal as refusal:
            if refusal.number == 16:
                raise
        self._view = memoryview(self._file[0]).cast("B")

    def _at(self, place: int) -> int:
        at = ctypes.c_uint64()
        if not 0 <= place < 1 << 64:
            raise Refusal(17)
        answered(_record_at(*self._file, place, at))
        return at.value

    def words(self) -> Tuple[Any, int]:
        """The file's bytes and their length, as the library is lent them."""
        return self._file

    def __len__(self) -> int:
        return self._file[1] // RECORD

    def __getitem__(self, place: int) -> bytes:
        """The record's bytes. Raises `Refusal` 17 past the last."""
        at = self._at(place)
        return self._view[at : at + RECORD].tobytes()

    def __iter__(self) -> Iterator[bytes]:
        return (self[place] for place in range(len(self)))


def open_records(file: Union[str, os.PathLike[str]]) -> Records:
    """The records of a file, which is mapped and not read at once; a pipe is read. Raises `Refusal` 16 where it is not
    whole records."""
    with open(file, "rb") as opened:
        if not stat.S_ISREG(os.fstat(opened.fileno()).st_mode) or os.fstat(opened.fileno()).st_size == 0:
            # a pipe has no length and cannot be mapped; nor can an empty file
            return Records(opened.read())
        # a private copy by page, of which none is made, for nothing is written: ctypes lends only what could be
        return Records(mmap.mmap(opened.fileno(), 0, access=mmap.ACCESS_COPY))


def records(file: Union[str, os.PathLike[str]]) -> Iterator[Union[Fix, Refusal]]:
    """What the records of a file hold, in turn. Raises `Refusal` 16 for a file that is torn and 18, with the place in
    `detail`, at the first record that is malformed; `Records` and `read` go on past one."""
    opened = open_records(file)
    for place, record in enumerate(opened):
        try:
            yield read(record)
        except Refusal as refusal:
            raise Refusal(refusal.number, place) from None
