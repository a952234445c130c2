"""Refusals: why there is no fix, or why a call turned its input away."""

from __future__ import annotations

from dataclasses import dataclass
from typing import Optional

_NAMES = (
    "TOO_FEW NO_CONVERGENCE OUT_OF_RANGE NO_FIXED_POINT INCONSISTENT SINGULAR UNCOVERED AMBIGUOUS UNCERTAIN TOO_MANY "
    "DISORDER BAD_FIELD CLOCK_SIZE SHORT_OUTPUT TORN_INPUT TORN_FILE NO_SUCH_PLACE MALFORMED_RECORD BEYOND_THE_WIRE "
    "UNEQUAL_MIRROR WRONG_SIZE BAD_QUERY BEYOND_THE_ITEMS OVER_SIX"
).split()

_WORDS = (
    "too few receptions are included ({detail}): a fix needs four, or three with an altitude",
    "no start converges",
    "no fit is at a plausible place, or the transmit time leaves 64 bits",
    "the outlier rounds do not settle",
    "the residuals are larger than noise and clocks explain",
    "a covariance is not positive definite, or a residual is not a number",
    "no clock covariance was given",
    "two places fit about as well",
    "a standard deviation is above 1,500 m, or the covariance is not positive definite",
    "there are over 32 receptions",
    "the identity of reception {detail} is not above the one before",
    "a field is outside its domain, or a filler not zero: {where}",
    "the clock covariance has not 8 n n bytes",
    "less memory was lent than is written",
    "an input has not a whole number of entries",
    "a file is not whole records, or a record has another length than its form",
    "the file has no record at that place",
    "it is no fix record: a field breaks the record's rules",
    "there is no position within the limits of the wire",
    "an entry of the covariance and its mirror differ in a bit",
    "a size is over 32, or an array has another length",
    "a point or radius is not finite or too large, or the radius is negative",
    "a number is beyond the items of category 020, or they are not ten bytes",
    "there are over six receptions",
)


@dataclass(unsafe_hash=True)
class Refusal(Exception):
    """Why there is no fix: a solve and a record give it as an answer; a call that cannot do what it is asked raises
    it."""

    #: Document 01 has 1 to 15, document 02 16 to 24 (docs/GUIDE.md, 'Refusals').
    number: int
    #: Of 1 the receptions included, of 11 the index, of 12 where the field is; else 0.
    detail: int = 0
    #: The receptions considered, for 1 to 9 in a record.
    n: int = 0

    def __post_init__(self) -> None:
        super().__init__(self.number, self.detail, self.n)

    @property
    def name(self) -> str:
        """Its name in include/mlat_solver.h without MLAT_, as 'TOO_FEW'."""
        return _NAMES[self.number - 1]

    def __str__(self) -> str:
        return f"refusal {self.number}: " + _WORDS[self.number - 1].format(detail=self.detail, where=self._where())

    def _where(self) -> str:
        if self.detail == 200:
            return "the altitude"
        return f"row {self.detail - 100} of the clock" if self.detail >= 100 else f"reception {self.detail}"


def answered(number: int, detail: Optional[int] = None) -> None:
    """Raises the refusal of a number that is not 0."""
    if number != 0:
        raise Refusal(number, detail or 0)
