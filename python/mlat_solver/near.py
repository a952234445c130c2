"""The fixes of a file of records near a place."""

from __future__ import annotations

import ctypes
from typing import Any, List, Optional, Sequence, Tuple, Union

from .library import LENT, function, lent
from .problem import Buffer
from .fixes import RECORD, Records
from .geodesy import Three, three
from .refusal import answered

_Long = ctypes.POINTER(ctypes.c_uint64)
_within = function("mlat_within", *LENT, Three, ctypes.c_double, _Long, ctypes.c_size_t, _Long)
_nearest = function("mlat_nearest", *LENT, Three, _Long)

#: In place of a place: the file has no fix.
_NONE = (1 << 64) - 1


def _words(file: Union[Records, Buffer]) -> Tuple[Any, int]:
    return file.words() if isinstance(file, Records) else lent(file)


def within(file: Union[Records, Buffer], point: Sequence[float], radius: float) -> List[int]:
    """The places, from 0, of the fixes at most `radius` metres from an ECEF point (`to_ecef` gives one), in the file's
    order; refused solves are passed over. The file is `Records`, or a buffer of whole records. Raises `Refusal` 16 for
    a torn file, 18 where `read` turns a record of it away, then 22 where the radius or a coordinate is not finite or
    beyond 10^8 in size, or the radius is negative."""
    words, count = _words(file), ctypes.c_uint64()
    room = words[1] // RECORD
    places = (ctypes.c_uint64 * room)()
    answered(_within(*words, three(point), radius, places, room, count))
    return places[: count.value]


def nearest(file: Union[Records, Buffer], point: Sequence[float]) -> Optional[int]:
    """The place of the fix nearest to an ECEF point, the earliest of several at that distance; None exactly where the
    file has no fix. Raises what `within` does."""
    place = ctypes.c_uint64()
    answered(_nearest(*_words(file), three(point), place))
    return None if place.value == _NONE else place.value
