"""Positions as whole numbers, as they are published."""

from __future__ import annotations

import ctypes
from dataclasses import dataclass

from .geodesy import Geodetic
from .library import LENT, function, lent
from .problem import Buffer
from .refusal import answered

_Wire, _Position = ctypes.c_int32 * 3, ctypes.c_double * 3
_to_wire = function("mlat_to_wire", *LENT, _Wire)
_from_wire = function("mlat_from_wire", _Wire, _Position)


@dataclass(frozen=True)
class Wire:
    """A position as the wire writes it."""

    #: 10^-7 degree, within ±900,000,000.
    latitude_e7: int
    #: 10^-7 degree, within ±1,800,000,000.
    longitude_e7: int
    #: Millimetres above the ellipsoid, -1,500,000 to 25,000,000.
    height_mm: int

    def position(self) -> Geodetic:
        """Latitude and longitude in degrees and height in metres; written again the same numbers. Raises `Refusal` 19
        beyond the limits."""
        numbers = (self.latitude_e7, self.longitude_e7, self.height_mm)
        if any(not -1 << 31 <= number < 1 << 31 for number in numbers):
            answered(19)
        position = _Position()
        answered(_from_wire(_Wire(*numbers), position))
        return Geodetic(*position)


def to_wire(record: Buffer) -> Wire:
    """The position of the fix in a record, each the whole number nearest the exact value, a half away from zero. Raises
    what `read` does, then `Refusal` 19 where there is no fix or its position is beyond the limits of `Wire`."""
    wire = _Wire()
    answered(_to_wire(*lent(record), wire))
    return Wire(*wire)
