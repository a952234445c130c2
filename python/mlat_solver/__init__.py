"""The proved position solve of a multilateration network, from Python.

    from mlat_solver import Altitude, Fix, Problem, solve

    receptions = sorted(heard, key=lambda reception: reception.id)
    answer = solve(Problem(receptions, clock_m2, Altitude.barometric(9144.0, correction_cm=-350)))
    if isinstance(answer, Fix):
        print(answer.position.lat_deg, answer.position.lon_deg, answer.position.height_m)
    else:
        print(answer)  # a Refusal: its number, in words

What a call answers is proved, for every input; this package lends the library its bytes. A module a subject, as in
include/mlat_solver.h: a new subject is a module that declares its functions by `library.function`, and a line here.
"""

from .archive import ARCHIVED, from_archive, to_archive
from .asterix import ITEMS, Multiples, read_asterix, to_asterix, write_asterix
from .geodesy import Geodetic, chi2_limit, enu_basis, enu_covariance, from_ecef, from_mm, horizontal_sigma_m, to_ecef
from .geodesy import to_mm
from .library import LibraryNotFound
from .matrices import cholesky, forward_rows, inverse_diagonal, inverse_triangular, sandwich
from .near import nearest, within
from .patterns import clash_patterns
from .problem import RECEPTION, Altitude, Files, ObservationId, Problem, Reception
from .fixes import RECORD, Fix, Records, open_records, read, records, write
from .refusal import Refusal
from .solving import solve, solve_many, solve_many_records, solve_record
from .states import State, why
from .streams import ABSENT, cut_lengths, solve_next, solve_stream
from .version import version
from .wire import Wire, to_wire

__all__ = [
    "ABSENT", "ARCHIVED", "Altitude", "Files", "Fix", "Geodetic", "ITEMS", "LibraryNotFound", "Multiples",
    "ObservationId", "Problem", "RECEPTION", "RECORD", "Reception", "Records", "Refusal", "State", "Wire", "chi2_limit",
    "cholesky", "clash_patterns", "cut_lengths", "enu_basis", "enu_covariance", "forward_rows", "from_archive",
    "from_ecef", "from_mm", "horizontal_sigma_m", "inverse_diagonal", "inverse_triangular", "nearest", "open_records",
    "read", "read_asterix", "records", "sandwich", "solve", "solve_many", "solve_many_records", "solve_next",
    "solve_record", "solve_stream", "to_archive", "to_asterix", "to_ecef", "to_mm", "to_wire", "version", "why",
    "within", "write", "write_asterix",
]
