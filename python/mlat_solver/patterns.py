"""For planners: what the screen does to small sets of receptions."""

from __future__ import annotations

import ctypes
from typing import List

from .library import fits, function
from .refusal import answered

_Counts = ctypes.c_uint64 * 7
_clash_patterns = function("mlat_clash_patterns", ctypes.c_uint32, _Counts)


def clash_patterns(receptions: int) -> List[int]:
    """Of all patterns of failing pairs that this many receptions can have, how many leave each number of survivors of
    the screen: entry k of the seven is of those that leave k. They add up to 2 to the number of pairs. Raises `Refusal`
    24 over six receptions; ValueError for a number below 0."""
    if receptions < 0:
        raise ValueError("there are no fewer than 0 receptions")
    if not fits(ctypes.c_uint32, receptions):
        answered(24)
    counts = _Counts()
    answered(_clash_patterns(receptions, counts))
    return list(counts)
