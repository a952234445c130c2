"""Positions for a display: items I020/041 and I020/105 of Eurocontrol's category 020."""

from __future__ import annotations

import ctypes
from dataclasses import dataclass
from typing import Any, Union

from .library import LENT, fits, function, lent
from .problem import Buffer
from .fixes import Fix, write
from .refusal import answered
from .wire import Wire, to_wire

#: The length of the two items, one after the other.
ITEMS = 10

_Numbers = ctypes.c_int32 * 3
_to_asterix = function("mlat_to_asterix", _Numbers, ctypes.c_char_p, ctypes.c_size_t)
_read_asterix = function("mlat_read_asterix", *LENT, _Numbers)
_write_asterix = function("mlat_write_asterix", _Numbers, ctypes.c_char_p, ctypes.c_size_t)


@dataclass(frozen=True)
class Multiples:
    """A position in the steps of the two items."""

    #: 180/2^25 degree; of an exported position within ±2^24.
    latitude: int
    #: 180/2^25 degree; of an exported position from -2^25 to 2^25 - 1.
    longitude: int
    #: 6.25 ft, which is 1,905 mm, above WGS 84; the items hold 16 bits of it.
    height: int


def _written(call: Any, *numbers: int) -> bytes:
    """The ten bytes that a call writes of three numbers; 23 where one has over 32 bits."""
    if not fits(ctypes.c_int32, *numbers):
        answered(23)
    out = ctypes.create_string_buffer(ITEMS)
    answered(call(_Numbers(*numbers), out, ITEMS))
    return out.raw


def to_asterix(position: Union[Wire, Fix, Buffer]) -> bytes:
    """The ten bytes of the items, each number the nearest multiple of its step; a longitude that comes to 180 degrees
    is written as -180. Of a `Wire`; or of a record that holds a fix, or of a `Fix`, by `to_wire`, which raises first.
    Raises `Refusal` 23 where latitude is beyond ±90 or longitude beyond ±180 degrees, or the height's multiple is
    outside 16 bits: nothing that `to_wire` gives is."""
    if isinstance(position, Fix):
        position = write(position)
    wire = position if isinstance(position, Wire) else to_wire(position)
    return _written(_to_asterix, wire.latitude_e7, wire.longitude_e7, wire.height_mm)


def read_asterix(items: Buffer) -> Multiples:
    """The multiples of whichever ten bytes; no place is tested. Raises `Refusal` 23 for another length."""
    multiples = _Numbers()
    answered(_read_asterix(*lent(items), multiples))
    return Multiples(*multiples)


def write_asterix(multiples: Multiples) -> bytes:
    """The ten bytes of multiples: of those that were read the same bytes. No place is tested. Raises `Refusal` 23 for a
    height outside 16 bits, or another number outside 32."""
    return _written(_write_asterix, multiples.latitude, multiples.longitude, multiples.height)
