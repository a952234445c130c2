"""Geodesy and claims: the positions of the recorded fixes, and numbers that are known without the library."""

import math
import unittest

import recordings
from mlat_solver import Fix, chi2_limit, enu_basis, enu_covariance, from_ecef, from_mm, horizontal_sigma_m, read
from mlat_solver import to_ecef, to_mm

#: solve.rs: the standard normal quantile of the chi-square test's tail, 10^-6.
TAIL = 4.753424


def fixes():
    """The fixes of the recorded solves."""
    return [held for held in (read(record) for _, record in recordings.solved()) if isinstance(held, Fix)]


def wilson_hilferty(dof):
    """The limit by its formula, in the order of solve.rs."""
    a = 2.0 / (9.0 * dof)
    base = 1.0 - a + TAIL * math.sqrt(a)
    return dof * (base * base * base)


class Geodesy(unittest.TestCase):
    """WGS 84."""

    def test_recorded_fixes(self):
        told, listed = 0, fixes()
        for k, fix in enumerate(listed):
            self.assertEqual(from_ecef(fix.ecef), fix.position)
            position = list(fix.position)
            position[k % 3] = math.nextafter(position[k % 3], math.inf)
            told += from_ecef(fix.ecef) != tuple(position)
            # six rounds come 'well under a millimetre' near (geo.rs)
            self.assertLess(math.dist(to_ecef(fix.position), fix.ecef), 1e-4)
        self.assertEqual((told, len(listed)), (482, 482))

    def test_known(self):
        # the equator lies 6,378,137 m from the centre, WGS 84's first axis
        self.assertEqual(to_ecef((0, 0, 100)), (6_378_237.0, 0.0, 0.0))
        self.assertEqual(from_ecef([6_378_237.0, 0.0, 0.0]), (0.0, 0.0, 100.0))
        self.assertEqual(enu_basis(0.0, 0.0), ((0.0, 1.0, 0.0), (0.0, 0.0, 1.0), (1.0, 0.0, 0.0)))
        self.assertTrue(math.isnan(from_ecef((0.0, 0.0, 0.0))[0]))

    def test_millimetres(self):
        self.assertEqual(to_mm([0.0005, -1.0005, math.nan]), (1, -1001, 0))
        self.assertEqual(to_mm((math.inf, -math.inf, 0.0)), ((1 << 63) - 1, -1 << 63, 0))
        self.assertEqual(from_mm((1, -1001, 0)), (0.001, -1.001, 0.0))
        for fix in fixes()[::10]:
            mm = to_mm(fix.ecef)
            self.assertTrue(all(abs(one - 1000 * metres) <= 0.501 for one, metres in zip(mm, fix.ecef)))
            self.assertEqual((to_mm(from_mm(mm)), from_mm(mm)), (mm, tuple(one / 1000 for one in mm)))
        with self.assertRaises(OverflowError):
            from_mm((0, 1 << 63, 0))

    def test_counts(self):
        for call, given in ((to_ecef, (1.0, 2.0)), (from_ecef, [1.0] * 4), (to_mm, ()), (from_mm, (1, 2))):
            with self.assertRaises(ValueError):
                call(given)
        for covariance in (((1.0, 0.0, 0.0),) * 2, ((1.0, 0.0),) * 3, ((1.0,) * 3,) * 4):
            for call in (enu_covariance, horizontal_sigma_m):
                with self.assertRaises(ValueError):
                    call((0.0, 0.0, 0.0), covariance)


class Claims(unittest.TestCase):
    """What a fix claims of itself."""

    def test_chi2_limit(self):
        self.assertEqual(chi2_limit(0), 0.0)
        for dof in (*range(1, 40), 1000, (1 << 32) - 1):
            self.assertEqual(chi2_limit(dof), wilson_hilferty(dof))
            self.assertNotEqual(chi2_limit(dof), math.nextafter(wilson_hilferty(dof), 0.0))
        for dof in (-1, 1 << 32):
            with self.assertRaises(OverflowError):
                chi2_limit(dof)

    def test_known(self):
        # at latitude and longitude 0 east is y, north is z and up is x
        covariance = ((9.0, 0.0, 0.0), (0.0, 4.0, 1.0), (0.0, 1.0, 12.0))
        self.assertEqual(enu_covariance((0, 0, 0), covariance), ((4.0, 1.0, 0.0), (1.0, 12.0, 0.0), (0.0, 0.0, 9.0)))
        self.assertEqual(horizontal_sigma_m((0, 0, 0), covariance), math.sqrt(8.0))

    def test_recorded_fixes(self):
        for fix in fixes():
            enu = enu_covariance(fix.position, fix.covariance)
            self.assertEqual((fix.enu_covariance(), fix.horizontal_sigma_m()),
                             (enu, horizontal_sigma_m(fix.position, fix.covariance)))
            trace = sum(fix.covariance[at][at] for at in range(3))
            # a rotation keeps the sum of the variances
            self.assertAlmostEqual(sum(enu[at][at] for at in range(3)) / trace, 1.0, delta=1e-9)
            sigma = horizontal_sigma_m(fix.position, fix.covariance)
            self.assertAlmostEqual(sigma, math.sqrt((enu[0][0] + enu[1][1]) / 2), delta=1e-9 * sigma)


if __name__ == "__main__":
    unittest.main()
