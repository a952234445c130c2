"""WGS 84, and what a fix claims of itself in the local frame."""

from __future__ import annotations

import ctypes
from typing import Any, NamedTuple, Sequence, Tuple

from .library import fits, function

#: Three numbers, as the library is lent a point.
Three = ctypes.c_double * 3
_Nine, _Whole = ctypes.c_double * 9, ctypes.c_int64 * 3
_to_ecef = function("mlat_to_ecef", Three, Three, result=None)
_from_ecef = function("mlat_from_ecef", Three, Three, result=None)
_enu_basis = function("mlat_enu_basis", ctypes.c_double, ctypes.c_double, _Nine, result=None)
_to_mm = function("mlat_to_mm", Three, _Whole, result=None)
_from_mm = function("mlat_from_mm", _Whole, Three, result=None)
_chi2_limit = function("mlat_chi2_limit", ctypes.c_uint32, result=ctypes.c_double)
_enu_covariance = function("mlat_enu_covariance", Three, _Nine, _Nine, result=None)
_horizontal_sigma_m = function("mlat_horizontal_sigma_m", Three, _Nine, result=ctypes.c_double)

Row = Tuple[float, ...]


class Geodetic(NamedTuple):
    """A position on WGS 84, as the source has it; any three numbers do where one is asked for."""

    #: Degrees, north above 0.
    lat_deg: float
    #: Degrees, east above 0.
    lon_deg: float
    #: Metres above the ellipsoid.
    height_m: float


def three(numbers: Sequence[float]) -> Any:
    """A point to lend. ValueError for another count than three."""
    x, y, z = numbers
    return Three(x, y, z)


def _nine(rows: Sequence[Sequence[float]]) -> Any:
    first, second, third = rows
    return _Nine(*three(first), *three(second), *three(third))


def _rows(nine: Sequence[float]) -> Tuple[Row, Row, Row]:
    return tuple(nine[:3]), tuple(nine[3:6]), tuple(nine[6:])


def to_ecef(geodetic: Sequence[float]) -> Row:
    """Latitude and longitude, degrees, and height above the ellipsoid, metres, as ECEF metres."""
    out = Three()
    _to_ecef(three(geodetic), out)
    return tuple(out)


def from_ecef(ecef: Sequence[float]) -> Geodetic:
    """ECEF metres as latitude, longitude and height."""
    out = Three()
    _from_ecef(three(ecef), out)
    return Geodetic(*out)


def enu_basis(lat_deg: float, lon_deg: float) -> Tuple[Row, Row, Row]:
    """The unit vectors east, north and up at a place, in ECEF."""
    out = _Nine()
    _enu_basis(lat_deg, lon_deg, out)
    return _rows(out)


def to_mm(ecef: Sequence[float]) -> Tuple[int, int, int]:
    """ECEF metres as whole millimetres, as `Reception.site_mm` has them: a half away from zero, beyond an end of 64
    bits that end, 0 for a not-a-number."""
    out = _Whole()
    _to_mm(three(ecef), out)
    return tuple(out)  # type: ignore[return-value]


def from_mm(mm: Sequence[int]) -> Row:
    """Whole millimetres as metres, by one division each. OverflowError beyond 64 bits."""
    x, y, z = mm
    if not fits(ctypes.c_int64, x, y, z):
        raise OverflowError("millimetres have 64 bits")
    out = Three()
    _from_mm(_Whole(x, y, z), out)
    return tuple(out)


def chi2_limit(dof: int) -> float:
    """The chi-square value that the residuals of an exact optimum with so many degrees of freedom may reach; 0 for 0.
    OverflowError beyond 32 bits."""
    if not fits(ctypes.c_uint32, dof):
        raise OverflowError("degrees of freedom have 32 bits, and no sign")
    return _chi2_limit(dof)


def enu_covariance(position: Sequence[float], covariance: Sequence[Sequence[float]]) -> Tuple[Row, Row, Row]:
    """A covariance in ECEF in the frame east, north, up at a latitude, longitude and height."""
    out = _Nine()
    _enu_covariance(three(position), _nine(covariance), out)
    return _rows(out)


def horizontal_sigma_m(position: Sequence[float], covariance: Sequence[Sequence[float]]) -> float:
    """The standard deviation of the horizontal position, metres."""
    return _horizontal_sigma_m(three(position), _nine(covariance))
