"""Fix records in the archive's form, with six entries of the covariance for nine."""

from __future__ import annotations

import ctypes

from .library import LENT, function, lent
from .problem import Buffer
from .fixes import RECORD
from .refusal import answered

#: The length of a record in the archive's form.
ARCHIVED = 152

_to_archive = function("mlat_to_archive", *LENT, ctypes.c_char_p, ctypes.c_size_t)
_from_archive = function("mlat_from_archive", *LENT, ctypes.c_char_p, ctypes.c_size_t)


def to_archive(record: Buffer) -> bytes:
    """The 152 bytes of a record of 176. Raises what `read` does, then `Refusal` 20 where an entry of the covariance and
    its mirror differ in a bit."""
    out = ctypes.create_string_buffer(ARCHIVED)
    answered(_to_archive(*lent(record), out, ARCHIVED))
    return out.raw


def from_archive(record: Buffer) -> bytes:
    """The 176 bytes of a record of 152. Raises `Refusal` 16 for another length, 18 where `read` turns its old form
    away."""
    out = ctypes.create_string_buffer(RECORD)
    answered(_from_archive(*lent(record), out, RECORD))
    return out.raw
