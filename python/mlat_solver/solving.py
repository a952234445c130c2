"""The solve: of one problem, and of many by threads."""

from __future__ import annotations

import ctypes
import os
from concurrent.futures import ThreadPoolExecutor
from typing import Any, Callable, Iterable, List, Optional, Tuple, TypeVar, Union

from .library import LENT, function, lent
from .problem import Files, Problem
from .fixes import RECORD, Fix, read
from .refusal import Refusal

Given = TypeVar("Given")

_solve = function("mlat_solve", *LENT, *LENT, *LENT, *LENT, ctypes.c_uint32, ctypes.c_char_p, ctypes.c_size_t)


def inputs(problem: Union[Problem, Files]) -> Tuple[Any, ...]:
    """The first nine words of `mlat_solve` and `mlat_why`: four inputs with their lengths, and which of the last three
    there are."""
    if not isinstance(problem, (Problem, Files)):
        raise TypeError(f"what is solved is a Problem or Files, not {type(problem).__name__}")
    receptions, *others = problem.files()
    present = sum(1 << bit for bit, other in enumerate(others) if other is not None)
    words = [word for part in (receptions, *others) for word in lent(part)]
    return (*words, present)


def solve_record(problem: Union[Problem, Files]) -> bytes:
    """The record of a problem, 176 bytes, for a refusal too: what the program solve writes."""
    out = ctypes.create_string_buffer(RECORD)
    _solve(*inputs(problem), out, RECORD)
    return out.raw


def solve(problem: Union[Problem, Files]) -> Union[Fix, Refusal]:
    """Where the aircraft was, or why that is not said: a refusal is an answer, and is not raised."""
    return read(solve_record(problem))


def _each(call: Callable[[Any], Given], problems: Iterable[Any], threads: Optional[int]) -> List[Given]:
    """What a call gives of each of many, in their order, by threads."""
    threads = os.cpu_count() or 1 if threads is None else threads
    if threads < 1:
        raise ValueError(f"threads are one or more, not {threads}")
    listed = list(problems)
    # some chunks for each thread, since problems take different times
    size = max(1, min(256, len(listed) // (8 * threads)))
    chunks = [listed[at : at + size] for at in range(0, len(listed), size)]
    with ThreadPoolExecutor(threads) as pool:
        return [given for chunk in pool.map(lambda chunk: list(map(call, chunk)), chunks) for given in chunk]


def solve_many(problems: Iterable[Union[Problem, Files]], threads: Optional[int] = None) -> List[Union[Fix, Refusal]]:
    """The answers of many problems, in their order, by so many threads (the machine's processors, if none is said)."""
    return _each(solve, problems, threads)


def solve_many_records(problems: Iterable[Union[Problem, Files]], threads: Optional[int] = None) -> List[bytes]:
    """The same as records, 176 bytes each."""
    return _each(solve_record, problems, threads)
