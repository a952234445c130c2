"""Why a receiver is missing from a fix."""

from __future__ import annotations

import ctypes
import struct
from dataclasses import dataclass
from typing import List, Union

from .library import LENT, function
from .problem import Files, Problem
from .refusal import answered
from .solving import inputs

#: The bytes of 32 states, and of one.
STATES, STATE = 640, 20

_why = function("mlat_why", *LENT, *LENT, *LENT, *LENT, ctypes.c_uint32, ctypes.c_char_p, ctypes.c_size_t,
                ctypes.POINTER(ctypes.c_uint32))


@dataclass(frozen=True)
class State:
    """What a reception is to the fix of its problem."""

    USED = 1
    REMOVED = 2
    LEFT_OUT = 3

    #: `State.USED`, `State.REMOVED` by the screen, or `State.LEFT_OUT`.
    state: int
    #: Of a removed one the turn of the screen, from 1, and with how many others it failed in that turn.
    turn: int
    clashes: int
    #: Of the others the normalised residual: at most 5 for a used one, above it for one left out.
    residual: float

    def __str__(self) -> str:
        if self.state == State.REMOVED:
            return (f"removed by the screen in turn {self.turn}; it cannot have heard the same transmission as "
                    f"{self.clashes} other{'' if self.clashes == 1 else 's'}")
        if self.state == State.USED:
            return f"used; {self.residual:.2f} standard deviations off the fix"
        return f"left out; {self.residual:.2f} standard deviations off the fix, where 5 is the limit"


def why(problem: Union[Problem, Files]) -> List[State]:
    """The state of every reception of a solved problem, in their order. Raises the `Refusal` of a problem that has no
    fix."""
    told, detail = ctypes.create_string_buffer(STATES), ctypes.c_uint32()
    words = inputs(problem)
    answered(_why(*words, told, STATES, detail), detail.value)
    n = words[1] // 132
    return [State(*struct.unpack_from("<3Id", told, STATE * place)) for place in range(n)]
