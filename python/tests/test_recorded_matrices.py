"""Calculations with matrices: those recorded of the original, and what can be lent."""

import array
import ctypes
import math
import struct
import unittest

import recordings
from mlat_solver import Refusal, cholesky, forward_rows, inverse_diagonal, inverse_triangular, matrices, sandwich

#: The calls by their kinds in the recording: the package's, and the library's. The first two take two arrays.
CALLS = ((sandwich, matrices._sandwich), (forward_rows, matrices._forward_rows),
         (inverse_triangular, matrices._inverse_triangular), (inverse_diagonal, matrices._inverse_diagonal),
         (cholesky, matrices._cholesky))
TWO = 2
WIDE = 1


def bits(numbers):
    """The bytes of numbers, every not-a-number as the recording has it."""
    return b"".join(bytes(6) + b"\xf8\x7f" if math.isnan(one) else struct.pack("<d", one) for one in numbers)


def lent(kind, sizes, inputs, after):
    """The number of a call of the library, and the bytes that it leaves where there were bytes A5."""
    out = (ctypes.c_double * (len(after) // 8)).from_buffer_copy(b"\xa5" * len(after))
    words = [word for part in inputs for word in (part, len(part) // 8)]
    return CALLS[kind][1](*sizes, *words, out, len(out)), bits(out)


def package(kind, sizes, inputs, form):
    """What the package gives, of lists or of buffers."""
    return bits(CALLS[kind][0](*sizes, *(form(array.array("d", part)) for part in inputs)))


def calls():
    """Kind, number, sizes, inputs, after, and whether out has the length that the package lends."""
    for kind, number, n, width, first, second, after in recordings.matrix_calls():
        sizes = (n, width) if kind == WIDE else (n,)
        length = (n * n, n * width, n * n, n, n * n)[kind]
        yield kind, number, sizes, (first, second)[: 2 if kind < TWO else 1], after, len(after) == 8 * length


class Matrices(unittest.TestCase):
    """crates/replay_matrices, to the bit."""

    def refused(self, number, call, *given):
        with self.assertRaises(Refusal) as raised:
            call(*given)
        self.assertEqual(raised.exception.number, number)

    def test_library(self):
        told = 0
        for k, (kind, number, sizes, inputs, after, _) in enumerate(calls()):
            found = lent(kind, sizes, inputs, after)
            self.assertEqual(found, (number, after))
            told += found != recordings.falsified(number, after, k) and found != (number ^ 1, after)
        self.assertEqual(told, 904)

    def test_package(self):
        told, refused = 0, {}
        listed = [call for call in calls() if call[-1] or call[2][0] > 32]
        for k, (kind, number, sizes, inputs, after, _) in enumerate(listed):
            due = number, b"" if number else after
            for form in (list, memoryview):
                found = recordings.answer(package, kind, sizes, inputs, form)
                self.assertEqual(found, due)
                told += found != recordings.falsified(*due, k)
            refused[number] = refused.get(number, 0) + 1
        self.assertEqual(told, 2 * len(listed))
        self.assertEqual((refused[0], refused[6]), (739, 63))
        self.assertGreater(refused[21], 50)

    def test_one_after_the_other(self):
        a = [4.0, 2.0, 2.0, 10.0]
        factor = cholesky(2, a)
        self.assertEqual(list(factor), [2.0, 0.0, 1.0, 3.0])
        inverse = inverse_triangular(2, factor)
        self.assertEqual(list(inverse_diagonal(2, factor)), [inverse[0], inverse[3]])
        for got, due in zip(sandwich(2, inverse, a), inverse):
            self.assertAlmostEqual(got, due)
        self.assertEqual(list(forward_rows(2, 1, factor, (2.0, 7.0))), [1.0, 2.0])
        self.assertEqual(list(sandwich(2, (1, 0, 0, 2), (4, 1, 1, 9))), [4.0, 2.0, 2.0, 36.0])
        self.assertEqual(list(cholesky(0, [])), [])

    def test_lent(self):
        a = array.array("d", [4.0, 2.0, 2.0, 10.0])
        square = memoryview(a).cast("B").cast("d", (2, 2))
        apart = memoryview(array.array("d", [4.0, 9.0, 2.0, 9.0, 2.0, 9.0, 10.0, 9.0]))[::2]
        odd = memoryview(bytearray(b"\0" + a.tobytes()))[1:].cast("d")
        for given in (a, list(a), tuple(a), memoryview(a), memoryview(a.tobytes()).cast("d"), square, apart, odd):
            self.assertEqual(list(cholesky(2, given)), [2.0, 0.0, 1.0, 3.0])
        self.assertEqual(list(a), [4.0, 2.0, 2.0, 10.0])
        for wrong in (a.tobytes(), array.array("f", a), array.array("q", [1] * 4), "abcd", [None] * 4, 4.0):
            with self.assertRaises(TypeError):
                cholesky(2, wrong)
        with self.assertRaises(TypeError):
            cholesky(2.0, a)

    def test_sizes(self):
        self.refused(6, cholesky, 1, [-1.0])
        for n in (1, 3, 33, -2, 1 << 32, (1 << 64) + 2):
            for call in (cholesky, inverse_triangular, inverse_diagonal):
                self.refused(21, call, n, [1.0, 0.0, 0.0, 1.0])
            self.refused(21, forward_rows, 2, n, [1.0, 0.0, 0.0, 1.0], [1.0] * 4)


if __name__ == "__main__":
    unittest.main()
