"""Streams: problems one after the other as bytes (docs/GUIDE.md, 'Many problems at once')."""

from __future__ import annotations

import ctypes
import io
import struct
from typing import Any, BinaryIO, Iterator, List, Sequence, Tuple, Union

from .fixes import RECORD
from .library import LENT, fits, function, lent
from .refusal import answered

#: In the place of an input's length: the input is absent.
ABSENT = 0xFFFFFFFF
#: Four lengths: receptions, clock covariance, altitude, reference.
_LENGTHS = struct.Struct("<4I")
#: How many bytes are passed over at a time.
_BLOCK = 1 << 16

_Lengths = ctypes.c_uint32 * 4
_solve_next = function("mlat_solve_next", *LENT, ctypes.c_char_p, ctypes.c_size_t, ctypes.POINTER(ctypes.c_uint64))
_cut_lengths = function("mlat_cut_lengths", _Lengths, _Lengths, result=None)


def solve_next(stream: Any) -> Tuple[bytes, int]:
    """The record of the first problem of a stream, 176 bytes, for a refusal too, and how many bytes the problem takes:
    there the next one begins. Raises `Refusal` 16 where the stream ends within the problem, as an empty one does."""
    out, used = ctypes.create_string_buffer(RECORD), ctypes.c_uint64()
    number = _solve_next(*lent(stream), out, RECORD, used)
    if number == 16:
        answered(number)
    return out.raw, used.value


def cut_lengths(lengths: Sequence[int]) -> List[int]:
    """Of the lengths of a problem's four inputs, or `ABSENT`, how much of the start of each is enough: a problem of
    these starts gets the same record. ValueError for a number that is no u32, and where they are not four."""
    if len(lengths) != 4 or not fits(ctypes.c_uint32, *lengths):
        raise ValueError("lengths are four numbers from 0 to 4294967295")
    cut = _Lengths()
    _cut_lengths(_Lengths(*lengths), cut)
    return list(cut)


def solve_stream(stream: Union[bytes, bytearray, memoryview, BinaryIO]) -> Iterator[bytes]:
    """The records of a stream's problems, in their order, each as soon as its problem is read. The stream is bytes or a
    binary file, a pipe too. Of an input that is too long only so much is held as decides its answer. Raises `Refusal`
    16 where the stream ends within a problem, after the records of those before it."""
    file = stream if hasattr(stream, "read") else io.BytesIO(stream)
    while True:
        head = _read(file, _LENGTHS.size)
        if not head:
            return
        if len(head) < _LENGTHS.size:
            answered(16)
        lengths = _LENGTHS.unpack(head)
        cut = cut_lengths(lengths)
        parts = [_start(file, enough, length) for enough, length in zip(cut, lengths) if length != ABSENT]
        yield solve_next(b"".join((_LENGTHS.pack(*cut), *parts)))[0]


def _start(file: BinaryIO, enough: int, length: int) -> bytes:
    """The first bytes of an input of this length; the rest is passed over."""
    start = _read(file, enough)
    came, left = len(start) == enough, length - enough
    while came and left > 0:
        passed = len(_read(file, min(left, _BLOCK)))
        came, left = passed > 0, left - passed
    if not came:
        answered(16)
    return start


def _read(file: BinaryIO, n: int) -> bytes:
    """The next n bytes, or those before the end: a pipe gives them in pieces."""
    pieces = []
    while n > 0:
        piece = file.read(n)
        if isinstance(piece, str):
            raise TypeError("a stream is bytes: open its file in mode 'rb'")
        if not piece:
            break
        pieces.append(piece)
        n -= len(piece)
    return b"".join(pieces)
