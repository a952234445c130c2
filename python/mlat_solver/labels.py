"""Where the numbers of the marks of a drawing go: beside them, and on no other mark or number where there is room."""

from __future__ import annotations

import math
from typing import List, NamedTuple, Sequence, Tuple

Point = Tuple[float, float]

#: Half the height of a number, and half the width of a digit, in a drawing's units.
HIGH, DIGIT = 7.0, 4.6
#: How far from its mark the edge of a number may be, nearest first; past the first it gets a line to its mark.
RINGS = (10.0, 19.0, 29.0, 41.0, 55.0, 70.0)
#: The directions that are tried.
DIRECTIONS = 16


class Box(NamedTuple):
    """A part of a drawing: its middle, half its width and half its height."""

    x: float
    y: float
    wide: float
    high: float

    def shared(self, other: Box) -> float:
        """The area that it has in common with another."""
        wide = self.wide + other.wide - abs(self.x - other.x)
        high = self.high + other.high - abs(self.y - other.y)
        return wide * high if wide > 0 and high > 0 else 0.0


class Label(NamedTuple):
    """A number's middle, and whether it needs a line to its mark."""

    x: float
    y: float
    far: bool


def _tries(at: Point, text: str, away: Point) -> List[Tuple[Box, bool]]:
    """The boxes that a number may have, the nearest first, and of these the one that points away from a place."""
    (x, y), wide = at, DIGIT * len(text)
    outward = math.atan2(y - away[1], x - away[0])
    turns = [2 * math.pi * k / DIRECTIONS for k in range(DIRECTIONS)]
    turns.sort(key=lambda turn: -math.cos(turn - outward))
    return [(Box(x + math.cos(turn) * (ring + wide), y + math.sin(turn) * (ring + HIGH), wide, HIGH), ring > RINGS[0])
            for ring in RINGS for turn in turns]


def placed(points: Sequence[Point], texts: Sequence[str], others: Sequence[Box], away: Point,
           side: float) -> List[Label]:
    """A label for each of some marks, the number on the side away from a place where it can be; `others` are boxes to
    keep free. Where there is no room the least of it is shared."""
    taken = [*others, *(Box(x, y, 7.0, 7.0) for x, y in points)]
    labels = []
    for at, text in zip(points, texts):
        best, least = None, math.inf
        for box, far in _tries(at, text, away):
            out = max(box.wide - box.x, box.x + box.wide - side, box.high - box.y, box.y + box.high - side, 0.0)
            cost = sum(map(box.shared, taken)) + 1000 * out
            if cost < least:
                best, least = (box, far), cost
            if cost == 0:
                break
        assert best is not None
        taken.append(best[0])
        labels.append(Label(best[0].x, best[0].y, best[1]))
    return labels
