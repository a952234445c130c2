"""What is solved: receptions, the covariance of their clocks, an altitude, the reference."""

from __future__ import annotations

import os
import pathlib
import struct
from dataclasses import dataclass
from typing import Any, NamedTuple, Optional, Sequence, Tuple, Union

#: A reception of receptions.bin, 132 bytes, for `struct`: receiver, epoch, timestamp, message, time, site, z, noise,
#: filler.
RECEPTION = struct.Struct("<32sIQ32sq3q2dQ")
#: altitude.bin, 16 bytes: kind, filler, correction, metres. reference.bin, 8 bytes.
ALTITUDE, REFERENCE = struct.Struct("<B3xid"), struct.Struct("<q")

#: An object that has its bytes to lend: bytes, bytearray, memoryview, array.array, a numpy array.
Buffer = Any


def _packed(form: struct.Struct, names: str, *values: Any) -> bytes:
    """The bytes of named values; a TypeError or a ValueError says which of them cannot be written."""
    try:
        return form.pack(*values)
    except struct.error:
        letters = form.format.lstrip("<").replace("32s", "s").replace("3q", "qqq").replace("2d", "dd").replace("3x", "")
        for name, letter, value in zip(names.split(), letters, values):
            try:
                struct.pack("<32s" if letter == "s" else "<" + letter, value)
            except struct.error as error:
                known = isinstance(value, bytes) if letter == "s" else isinstance(value, (int, float))
                raise (ValueError if known else TypeError)(f"{name} is {value!r}: {error}") from None
        raise


@dataclass(frozen=True, order=True)
class ObservationId:
    """Which message at which receiver: the identity of a reception. Ordered by the four fields in turn, as the solve
    asks."""

    #: The receiver's key, 32 bytes.
    receiver: bytes
    #: The epoch of its counter, u32.
    epoch: int = 0
    #: Its counter, u64.
    timestamp: int = 0
    #: The hash of the message's bytes, 32 bytes.
    message: bytes = bytes(32)


@dataclass(frozen=True)
class Reception:
    """One reception of the transmission."""

    #: Above that of the reception before: sort by it, with the rows and columns of the clock covariance.
    id: ObservationId
    #: When it arrived, ps, 0 to 10^13: for the screen.
    time_ps: int
    #: The receiver's site, ECEF millimetres, each within ±10^10.
    site_mm: Tuple[int, int, int]
    #: Arrival in metres of light, 0 to 3·10^9: for the fit.
    z: float
    #: Variance of its own timing, m², 10^-6 to 10^12.
    noise_m2: float
    #: Zero: any other value is refused.
    filler: int = 0

    def to_bytes(self) -> bytes:
        """Its 132 bytes of receptions.bin. ValueError for a key or a hash that has not 32 bytes."""
        known = self.id
        if len(known.receiver) != 32 or len(known.message) != 32:
            raise ValueError("receiver and message have 32 bytes each")
        if len(self.site_mm) != 3:
            raise ValueError("site_mm has three numbers")
        names = "receiver epoch timestamp message time_ps site_mm site_mm site_mm z noise_m2 filler"
        return _packed(RECEPTION, names, known.receiver, known.epoch, known.timestamp, known.message, self.time_ps,
                       *self.site_mm, self.z, self.noise_m2, self.filler)

    @classmethod
    def from_bytes(cls, reception: Buffer) -> Reception:
        """That of 132 bytes of receptions.bin; a ValueError for another length."""
        if memoryview(reception).nbytes != RECEPTION.size:
            raise ValueError(f"a reception has 132 bytes, not {memoryview(reception).nbytes}")
        receiver, epoch, timestamp, message, time_ps, *site_mm, z, noise_m2, filler = RECEPTION.unpack(reception)
        return cls(ObservationId(receiver, epoch, timestamp, message), time_ps, tuple(site_mm), z, noise_m2, filler)


@dataclass(frozen=True)
class Altitude:
    """An altitude, metres above the ellipsoid. What a fix shows has no correction."""

    BAROMETRIC = 1
    GNSS = 2

    #: `Altitude.BAROMETRIC` or `Altitude.GNSS`.
    kind: int
    #: As given, within ±100,000.
    metres: float
    #: What a station adds to barometric metres, centimetres within ±100,000; 0 for GNSS.
    correction_cm: int = 0

    @classmethod
    def barometric(cls, metres: float, correction_cm: int = 0) -> Altitude:
        """The aircraft's barometric altitude, with a station's correction."""
        return cls(cls.BAROMETRIC, metres, correction_cm)

    @classmethod
    def gnss(cls, metres: float) -> Altitude:
        """The aircraft's GNSS height."""
        return cls(cls.GNSS, metres)

    def to_bytes(self) -> bytes:
        """The bytes of altitude.bin."""
        return _packed(ALTITUDE, "kind correction_cm metres", self.kind, self.correction_cm, self.metres)


def _lendable(name: str, buffer: Any) -> Buffer:
    """The buffer; a TypeError for what is none."""
    try:
        memoryview(buffer)
    except TypeError:
        raise TypeError(f"{name}: a list or a buffer is needed, not {type(buffer).__name__}") from None
    return buffer


class Files(NamedTuple):
    """The bytes of a problem's four files, None where one is absent. Nothing is looked at: the solve refuses what is
    wrong."""

    receptions: Optional[Buffer] = None
    clock: Optional[Buffer] = None
    altitude: Optional[Buffer] = None
    reference: Optional[Buffer] = None

    @classmethod
    def of_folder(cls, folder: Union[str, os.PathLike[str]]) -> Files:
        """Those of a folder: a file that is not there is absent. A folder that is not there or has none of the four,
        and a file that cannot be read, are an OSError."""
        names = [pathlib.Path(folder, f"{name}.bin") for name in cls._fields]
        there = os.listdir(folder)
        if not any(name.name in there for name in names):
            raise FileNotFoundError(f"{folder} has none of receptions.bin, clock.bin, altitude.bin and reference.bin")
        return cls(*(name.read_bytes() if name.name in there else None for name in names))

    def files(self) -> Files:
        """Itself, as of a `Problem`."""
        return self


@dataclass(frozen=True)
class Problem:
    """One transmission: at most 32 receptions."""

    #: A list of receptions, or the bytes of receptions.bin in a buffer (as a numpy array of 132 bytes an entry).
    receptions: Union[Sequence[Reception], Buffer]
    #: The covariance of the receptions' clocks, m², n × n row by row: floats one after the other, or a buffer of
    #: binary64. Left of the diagonal nothing is read. None is refused by 7.
    clock_m2: Union[Sequence[float], Buffer, None] = None
    altitude: Optional[Altitude] = None
    #: What z and the transmit time count from.
    reference_ps: int = 0

    def files(self) -> Files:
        """The bytes that the solve is lent."""
        return Files(self._receptions(), self._clock(), self.altitude.to_bytes() if self.altitude else None,
                     _packed(REFERENCE, "reference_ps", self.reference_ps))

    def _receptions(self) -> Buffer:
        if not isinstance(self.receptions, (list, tuple)):
            return _lendable("receptions", self.receptions)
        wrong = [type(one).__name__ for one in self.receptions if not isinstance(one, Reception)]
        if wrong:
            raise TypeError(f"receptions are a list of Reception, or a buffer: one is of type {wrong[0]}")
        return b"".join(reception.to_bytes() for reception in self.receptions)

    def _clock(self) -> Optional[Buffer]:
        if self.clock_m2 is None or isinstance(self.clock_m2, bytes):
            return self.clock_m2
        if isinstance(self.clock_m2, (list, tuple)):
            try:
                return struct.pack(f"<{len(self.clock_m2)}d", *self.clock_m2)
            except struct.error:
                raise TypeError("clock_m2 has floats one after the other, row by row, and no rows of its own") from None
        if memoryview(_lendable("clock_m2", self.clock_m2)).format.lstrip("<=@") not in ("d", "B"):
            raise TypeError("the clock covariance has to be binary64, as array('d') and numpy's float64 are")
        return self.clock_m2
