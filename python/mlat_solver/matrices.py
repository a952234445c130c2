"""The calculations of linalg.rs with matrices, to the bit.

A matrix is n rows of n numbers one after the other, n from 0 to 32: a list or tuple of floats, or any buffer of
binary64 (an array('d'), a numpy array of float64, of whichever shape). What a call gives is a new array('d'), which the
next one takes. Each raises `Refusal` 21 where n is over 32 or an argument has another length than n says.
"""

from __future__ import annotations

import ctypes
import operator
from array import array
from typing import Any, Sequence, Tuple, Union

from .library import LENT, function
from .problem import Buffer
from .refusal import answered

#: The largest size of a matrix.
MOST = 32

#: Numbers one after the other.
Numbers = Union[Sequence[float], Buffer]

_cholesky = function("mlat_cholesky", ctypes.c_size_t, *LENT, *LENT)
_sandwich = function("mlat_sandwich", ctypes.c_size_t, *LENT, *LENT, *LENT)
_forward_rows = function("mlat_forward_rows", ctypes.c_size_t, ctypes.c_size_t, *LENT, *LENT, *LENT)
_inverse_triangular = function("mlat_inverse_triangular", ctypes.c_size_t, *LENT, *LENT)
_inverse_diagonal = function("mlat_inverse_diagonal", ctypes.c_size_t, *LENT, *LENT)


def _size(n: int) -> int:
    """A size as the library takes it. What is none becomes 33, which it refuses: little memory is lent for it."""
    whole = operator.index(n)
    return whole if 0 <= whole <= MOST else MOST + 1


def _lent(numbers: Numbers) -> Tuple[Any, int]:
    """Numbers with their count, in memory that is aligned for doubles: a copy."""
    try:
        view = memoryview(numbers)
    except TypeError:
        return (ctypes.c_double * len(numbers))(*numbers), len(numbers)
    if view.format.lstrip("<=@") != "d":
        raise TypeError("a buffer of numbers has to be binary64, as array('d') and numpy's float64 are")
    count = view.nbytes // 8
    return (ctypes.c_double * count).from_buffer_copy(view.tobytes()), count


def _given(call: Any, sizes: Sequence[int], inputs: Sequence[Numbers], count: int) -> array[float]:
    """What a call writes, so many numbers."""
    out = (ctypes.c_double * count)()
    answered(call(*sizes, *(word for numbers in inputs for word in _lent(numbers)), out, count))
    return array("d", bytes(out))


def cholesky(n: int, a: Numbers) -> array[float]:
    """The Cholesky factor L of `a`, lower triangular with a = L Lᵀ, n · n numbers. Of `a` the entries on and left of
    the diagonal are read alone, right of its diagonal the factor has zeros. Raises also `Refusal` 6 where a pivot is
    not above 0."""
    n = _size(n)
    return _given(_cholesky, (n,), (a,), n * n)


def sandwich(n: int, a: Numbers, inner: Numbers) -> array[float]:
    """a · inner · a for a symmetric `a`, n · n numbers: the covariance `inner` carried through the linear map `a`.
    Symmetric to the bit, whatever the two hold."""
    n = _size(n)
    return _given(_sandwich, (n,), (a, inner), n * n)


def forward_rows(n: int, width: int, l: Numbers, q: Numbers) -> array[float]:
    """R with L R = Q for the factor `l`, where `q` and the result are n rows of `width` numbers, at most 32. An entry
    of `l` left of the diagonal that equals 0 is passed over."""
    n, width = _size(n), _size(width)
    return _given(_forward_rows, (n, width), (l, q), n * width)


def inverse_triangular(n: int, l: Numbers) -> array[float]:
    """The inverse of the matrix with the factor `l`, n · n numbers, symmetric to the bit."""
    n = _size(n)
    return _given(_inverse_triangular, (n,), (l,), n * n)


def inverse_diagonal(n: int, l: Numbers) -> array[float]:
    """The diagonal of that inverse alone, n numbers with the same bits."""
    n = _size(n)
    return _given(_inverse_diagonal, (n,), (l,), n)
