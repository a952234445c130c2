"""The drawings of a page: inline SVG, with a title and a description each. Marks differ by shape, not by colour
alone."""

from __future__ import annotations

import math
from html import escape
from typing import List, NamedTuple, Optional, Sequence, Tuple

from .labels import Box, placed
from .states import State

#: A normalised residual above this is left out (document 01).
LIMIT = 5.0

#: The side of the square drawings, in their own units.
SIDE = 400.0

Point = Tuple[float, float]


class Mark(NamedTuple):
    """A receiver on the plane."""

    label: str
    #: Metres east and north of the middle.
    place: Point
    #: `State.state`, or 0 where there is none.
    state: int


class Ellipse(NamedTuple):
    """An ellipse about the fix: half axes in metres, and the bearing of the longer one in degrees from north."""

    major_m: float
    minor_m: float
    bearing_deg: float


#: The mark of the fix, beside those of states.
FIX = -1
#: The name of a state, and of its class.
NAMES = {FIX: "the fix", 0: "no state", State.USED: "used", State.REMOVED: "removed by the screen",
         State.LEFT_OUT: "left out"}
_CLASSES = {0: "unknown", State.USED: "used", State.REMOVED: "removed", State.LEFT_OUT: "leftout"}


def two_sigma(enu: Sequence[Sequence[float]]) -> Optional[Ellipse]:
    """The ellipse of two standard deviations of a covariance east, north, up: twice the roots of its eigenvalues. None
    where the horizontal part is not positive definite, as no solve gives it and a record of a file may have it."""
    east, north, both = enu[0][0], enu[1][1], enu[0][1]
    middle, apart = (east + north) / 2, math.hypot((east - north) / 2, both)
    if not 0 < middle - apart <= middle + apart < math.inf:
        return None
    bearing = math.degrees(math.atan2(2 * both, north - east) / 2) % 180
    return Ellipse(2 * math.sqrt(middle + apart), 2 * math.sqrt(middle - apart), bearing)


def _closed(*points: Point) -> str:
    """A closed path through points."""
    return "M" + "L".join(f"{x:.1f} {y:.1f}" for x, y in points) + "Z"


def shape(state: int, x: float, y: float, size: float = 6.0) -> str:
    """A mark: a full circle used, an open diamond left out, a cross removed, an open square without a state, a star the
    fix."""
    if state == FIX:
        turns = [math.pi * k / 5 for k in range(10)]
        points = [((1.7 - k % 2) * size * math.sin(turn), (k % 2 - 1.7) * size * math.cos(turn))
                  for k, turn in enumerate(turns)]
        return f'<path class="fix" d="{_closed(*((x + right, y + down) for right, down in points))}"/>'
    kind = f'class="{_CLASSES[state]}"'
    if state == State.USED:
        return f'<circle {kind} cx="{x:.1f}" cy="{y:.1f}" r="{size:.1f}"/>'
    if state == State.REMOVED:
        return (f'<path {kind} d="M{x - size:.1f} {y - size:.1f}L{x + size:.1f} {y + size:.1f}'
                f'M{x - size:.1f} {y + size:.1f}L{x + size:.1f} {y - size:.1f}"/>')
    far = size * (1.35 if state == State.LEFT_OUT else 0.95)
    if state == State.LEFT_OUT:
        return f'<path {kind} d="{_closed((x, y - far), (x + far, y), (x, y + far), (x - far, y))}"/>'
    return f'<rect {kind} x="{x - far:.1f}" y="{y - far:.1f}" width="{2 * far:.1f}" height="{2 * far:.1f}"/>'


def icon(state: int) -> str:
    """The mark in a line of text."""
    return f'<svg class="icon" viewBox="0 0 22 22" aria-hidden="true">{shape(state, 11, 11)}</svg>'


def _svg(height: float, title: str, told: str, parts: Sequence[str]) -> str:
    return (f'<svg viewBox="0 0 {SIDE:.0f} {height:.0f}" role="img"><title>{escape(title)}</title>'
            f"<desc>{escape(told)}</desc>" + "".join(parts) + "</svg>")


def metres(length: float) -> str:
    """A length with its unit, to the metre or the tenth of a kilometre."""
    return f"{length / 1000:,.1f} km" if length >= 1000 else f"{length:.0f} m"


def _scale(unit: float) -> List[str]:
    """A bar of a round length, about a quarter of the drawing; `unit` is metres to a unit of it."""
    most = SIDE / 3 * unit
    ten = 10.0 ** math.floor(math.log10(most))
    length = max(step * ten for step in (1, 2, 5) if step * ten <= most)
    wide = length / unit
    told = f"{length / 1000:,.6g} km" if length >= 1000 else f"{length:.6g} m"
    return [f'<path class="line" d="M16 376V384H{16 + wide:.1f}V376"/>',
            f'<text x="{24 + wide:.1f}" y="386">{told}</text>',
            '<path class="line" d="M384 40V16M379 23L384 14L389 23"/>',
            '<text x="384" y="54" text-anchor="middle">N</text>']


def _oval(ellipse: Ellipse, centre: Point, unit: float) -> str:
    x, y = centre
    return (f'<ellipse class="sigma" cx="{x:.1f}" cy="{y:.1f}" rx="{ellipse.minor_m / unit:.2f}" '
            f'ry="{ellipse.major_m / unit:.2f}" transform="rotate({ellipse.bearing_deg:.2f} {x:.1f} {y:.1f})"/>')


def _told(mark: Mark) -> str:
    east, north = mark.place
    return (f"{mark.label}: {metres(abs(east))} {'east' if east >= 0 else 'west'}, {metres(abs(north))} "
            f"{'north' if north >= 0 else 'south'}, {NAMES[mark.state]}")


def _labels(marks: Sequence[Mark], points: Sequence[Point], centre: Point, fixed: bool) -> Tuple[List[str], List[str]]:
    """The lines to the marks of those numbers that are far from them, and the numbers."""
    # the arrow to the north, the scale and the fix are kept free
    others = [Box(384, 36, 12, 26), Box(120, 380, 112, 12)] + ([Box(*centre, 11, 11)] if fixed else [])
    lines, texts = [], []
    for mark, (x, y), label in zip(marks, points, placed(points, [mark.label for mark in marks], others, centre, SIDE)):
        if label.far:
            lines.append(f'<path class="lead" d="M{x:.1f} {y:.1f}L{label.x:.1f} {label.y:.1f}"/>')
        texts.append(f'<text class="label" x="{label.x:.1f}" y="{label.y + 5:.1f}" text-anchor="middle">'
                     f"{escape(mark.label)}</text>")
    return lines, texts


def plane(marks: Sequence[Mark], fixed: bool, ellipse: Optional[Ellipse]) -> str:
    """The receivers, and the fix that they are placed about, with its ellipse; north up, at one scale east and
    north."""
    points = [mark.place for mark in marks] + ([(0.0, 0.0)] if fixed else [])
    low, high = [[pick(point[axis] for point in points) for axis in (0, 1)] for pick in (min, max)]
    unit = max(high[0] - low[0], high[1] - low[1], 1.0) / (SIDE - 110)
    middle = [(high[axis] + low[axis]) / 2 for axis in (0, 1)]

    def seen(point: Point) -> Point:
        return SIDE / 2 + (point[0] - middle[0]) / unit, SIDE / 2 - (point[1] - middle[1]) / unit

    parts = []
    centre, shown = seen((0.0, 0.0)), [seen(mark.place) for mark in marks]
    for mark, (x, y) in zip(marks, shown):
        if fixed and mark.state in (State.USED, State.LEFT_OUT):
            to = f"L{centre[0]:.1f} {centre[1]:.1f}"
            parts.append(f'<path class="ray {_CLASSES[mark.state]}" d="M{x:.1f} {y:.1f}{to}"/>')
    lines, texts = _labels(marks, shown, centre if fixed else (SIDE / 2, SIDE / 2), fixed)
    parts += lines
    parts += [shape(mark.state, x, y, 6.0 if len(marks) <= 12 else 5.0) for mark, (x, y) in zip(marks, shown)]
    parts += texts
    if ellipse:
        parts.append(_oval(ellipse, centre, unit))
    if fixed:
        parts.append(shape(FIX, *centre))
    title = "Receivers and fix, seen from above" if fixed else "Receivers, seen from above"
    return _svg(SIDE, title, "; ".join(map(_told, marks)), parts + _scale(unit))


def closeup(ellipse: Ellipse) -> str:
    """The fix with its ellipse of two standard deviations."""
    unit = max(ellipse.major_m, 1e-3) / (SIDE / 2 - 60)
    half = SIDE / 2
    cross = f'<path class="grid" d="M{half} 20V360M20 {half}H380"/>'
    parts = [cross, _oval(ellipse, (half, half), unit), shape(FIX, half, half)]
    told = (f"Half axes {ellipse.major_m:.1f} m and {ellipse.minor_m:.1f} m, the longer at a bearing of "
            f"{ellipse.bearing_deg:.0f} degrees from north")
    return _svg(SIDE, "The fix and its ellipse of two standard deviations", told, parts + _scale(unit))


def _bar(place: int, state: State, y: float, unit: float, left: float, right: float) -> List[str]:
    label = [shape(state.state, 14, y), f'<text x="30" y="{y + 5:.1f}">{place}</text>']
    if state.state == State.REMOVED:
        return label + [f'<text class="quiet" x="{left + 6:.1f}" y="{y + 5:.1f}">no residual</text>']
    end = min(left + state.residual * unit, right)
    parts = [f'<rect class="bar {_CLASSES[state.state]}" x="{left:.1f}" y="{y - 7:.1f}" '
             f'width="{max(end - left, 1):.1f}" height="14"/>']
    if end == right:
        # a bar longer than the drawing is cut, and says so
        parts.append(f'<path class="cut" d="M{right - 20:.1f} {y + 9:.1f}L{right - 14:.1f} {y - 9:.1f}'
                     f'M{right - 14:.1f} {y + 9:.1f}L{right - 8:.1f} {y - 9:.1f}"/>')
    return label + parts + [f'<text x="{end + 6:.1f}" y="{y + 5:.1f}">{state.residual:.2f}</text>']


def residuals(states: Sequence[State]) -> str:
    """A bar for each normalised residual, with the line at 5."""
    left, right, row = 58.0, 330.0, 24.0
    unit = (right - left) / min(max([6.0] + [state.residual for state in states]), 9.0)
    height = 44 + row * len(states)
    limit = left + LIMIT * unit
    parts: List[str] = []
    for place, state in enumerate(states):
        parts += _bar(place, state, 40 + row * place, unit, left, right)
    parts.append(f'<path class="limit" d="M{limit:.1f} 22V{height - 10:.1f}"/>')
    parts.append(f'<text x="{limit:.1f}" y="15" text-anchor="middle">limit 5</text>')
    parts.append(f'<path class="line" d="M{left} 22V{height - 10:.1f}"/>')
    told = "; ".join(f"{place}: {state}" for place, state in enumerate(states))
    return _svg(height, "Normalised residuals, with the limit of 5", told, parts)


def finite(points: Sequence[Optional[Point]]) -> bool:
    """Whether all of them can be drawn."""
    return all(point is not None and all(math.isfinite(number) for number in point) for point in points)
