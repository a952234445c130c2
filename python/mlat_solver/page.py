"""A page to look at: one HTML file that needs nothing else and asks no network."""

from __future__ import annotations

from html import escape
from typing import List, NamedTuple, Optional, Sequence, Tuple, Union

from . import drawing
from .geodesy import enu_basis, from_ecef
from .problem import RECEPTION, Altitude, Files, Reception
from .fixes import Fix, read
from .refusal import Refusal
from .solving import solve
from .states import State, why
from .style import STYLE

#: A number of the table: its name, its value with the unit, and whether a proved call gave it.
Number = Tuple[str, str, bool]


class Seen(NamedTuple):
    """What a page shows."""

    title: str
    answer: Union[Fix, Refusal]
    receptions: Sequence[Reception]
    states: Sequence[State]
    #: Of a problem how many bytes each of its files has, None of an absent one; of a record nothing.
    lengths: Sequence[Tuple[str, Optional[int]]] = ()


def of_files(title: str, files: Files) -> Seen:
    """The page of a problem: it is solved, and asked why receivers are missing."""
    try:
        answer = solve(files)
    except Refusal as refusal:
        answer = refusal
    held = bytes(files.receptions or b"")
    whole = len(held) % RECEPTION.size == 0 and len(held) <= 32 * RECEPTION.size
    each = range(0, len(held), RECEPTION.size) if whole else ()
    receptions = [Reception.from_bytes(held[at : at + RECEPTION.size]) for at in each]
    lengths = [(name, None if part is None else memoryview(part).nbytes) for name, part in zip(files._fields, files)]
    return Seen(title, answer, receptions, why(files) if isinstance(answer, Fix) else [], lengths)


def of_record(title: str, record: bytes) -> Seen:
    """The page of a record: it holds no sites and no residuals. Raises `Refusal` where it cannot be read."""
    return Seen(title, read(record), [], [])


def local(seen: Seen) -> List[drawing.Mark]:
    """The receivers on the plane that touches the ellipsoid below the fix, or below the middle of the sites where there
    is none."""
    sites = [[part / 1000 for part in reception.site_mm] for reception in seen.receptions]
    if not sites:
        return []
    if isinstance(seen.answer, Fix):
        middle: Sequence[float] = seen.answer.ecef
        latitude, longitude, _ = seen.answer.position
    else:
        middle = [sum(parts) / len(sites) for parts in zip(*sites)]
        latitude, longitude, _ = from_ecef(middle)
    east, north, _ = enu_basis(latitude, longitude)
    marks = []
    for place, site in enumerate(sites):
        apart = [there - here for there, here in zip(site, middle)]
        at = (sum(e * a for e, a in zip(east, apart)), sum(n * a for n, a in zip(north, apart)))
        marks.append(drawing.Mark(str(place), at, seen.states[place].state if seen.states else 0))
    return marks if drawing.finite([mark.place for mark in marks]) else []


def _counted(number: int, name: str) -> str:
    return f"{number} {name}{'' if number == 1 else 's'}"


def numbers(fix: Fix) -> List[Number]:
    """The numbers of a fix, with units."""
    enu = fix.enu_covariance()
    sigma = [enu[axis][axis] ** 0.5 if enu[axis][axis] >= 0 else float("nan") for axis in range(3)]
    ellipse = drawing.two_sigma(enu)
    axes = "none: the covariance is not positive definite"
    if ellipse:
        axes = f"{ellipse.major_m:.1f} m at {ellipse.bearing_deg:.0f}° from north, {ellipse.minor_m:.1f} m"
    rows = [
        ("Latitude", f"{fix.position.lat_deg:.7f}°", True),
        ("Longitude", f"{fix.position.lon_deg:.7f}°", True),
        ("Height above the ellipsoid", f"{fix.position.height_m:,.1f} m", True),
        ("ECEF", ", ".join(f"{part:,.1f}" for part in fix.ecef) + " m", True),
        ("Horizontal standard deviation", f"{fix.horizontal_sigma_m():.1f} m", True),
        ("Standard deviations east, north, up", ", ".join(f"{part:.1f}" for part in sigma) + " m", False),
        ("Two-sigma ellipse, half axes", axes, False),
        ("Chi-square", f"{fix.chi2:.3f} at {_counted(fix.dof, 'degree')} of freedom", True),
        ("Time of transmission", f"{fix.transmit_ps:,} ps", True),
        ("T, after the reference", f"{fix.t_m:,.3f} m of light", True),
        ("Receptions considered", str(fix.n), True),
        ("Receptions used", str(bin(fix.used).count("1")), False),
    ]
    if fix.altitude:
        kind = "barometric" if fix.altitude.kind == Altitude.BAROMETRIC else "GNSS"
        rows.append(("Altitude as given", f"{fix.altitude.metres:,.1f} m, {kind}", True))
    return rows


def _table(kind: str, heads: Sequence[str], rows: str) -> str:
    head = "".join(f'<th scope="col">{escape(name)}</th>' for name in heads)
    return f'<table class="{kind}"><thead><tr>{head}</tr></thead><tbody>{rows}</tbody></table>'


def _numbers(fix: Fix) -> str:
    rows = "".join(f'<tr><th scope="row">{escape(name)}</th><td>{escape(value)}</td>'
                   f"<td>{'proved' if proved else 'page'}</td></tr>" for name, value, proved in numbers(fix))
    return f"<section><h2>The fix</h2>{_table('numbers', ('Number', 'Value', 'From'), rows)}</section>"


def _receiver(place: int, seen: Seen, mark: Optional[drawing.Mark]) -> str:
    state = seen.states[place] if seen.states else None
    far = drawing.metres((mark.place[0] ** 2 + mark.place[1] ** 2) ** 0.5) if mark else "not drawn"
    key = seen.receptions[place].id.receiver[:8].hex()
    told = f"<td>{escape(str(state))}</td>" if state else ""
    return (f'<tr><th scope="row">{place}</th><td>{drawing.icon(state.state if state else 0)}</td>'
            f"<td><code>{key}</code></td><td>{escape(far)}</td>{told}</tr>")


def _receivers(seen: Seen, marks: Sequence[drawing.Mark]) -> str:
    if not seen.receptions:
        return _mask(seen)
    rows = "".join(_receiver(place, seen, marks[place] if marks else None) for place in range(len(seen.receptions)))
    where = "the fix" if isinstance(seen.answer, Fix) else "their middle"
    heads = ["Place", "Mark", "Key, first 8 bytes", f"From {where} (page)"] + ["State (proved)"] * bool(seen.states)
    return f"<section><h2>Each receiver</h2>{_table('receivers', heads, rows)}</section>"


def _mask(seen: Seen) -> str:
    """Of a record alone: which places are used."""
    if not isinstance(seen.answer, Fix):
        return ""
    fix = seen.answer
    items = "".join(f"<li>{drawing.icon(State.USED if fix.uses(place) else 0)} reception {place}: "
                    f"{'used' if fix.uses(place) else 'not used'}</li>" for place in range(fix.n))
    return ("<section><h2>Receptions</h2><p>A record names receptions by place; it holds neither their sites nor why "
            f"one is not used.</p><ul>{items}</ul></section>")


def _inputs(seen: Seen) -> str:
    """Of a refused problem: what it was given."""
    rows = "".join(f'<tr><th scope="row">{name}.bin</th><td>{"absent" if length is None else f"{length:,} bytes"}</td>'
                   "</tr>" for name, length in seen.lengths)
    return f"<section><h2>What was given</h2>{_table('inputs', ('Input', 'Length'), rows)}</section>" if rows else ""


def _figure(kind: str, svg: str, caption: str) -> str:
    return f'<figure class="{kind}">{svg}<figcaption>{caption}</figcaption></figure>'


def _legend(marks: Sequence[drawing.Mark], fixed: bool) -> str:
    there = [drawing.FIX] * fixed + sorted({mark.state for mark in marks})
    named = {**drawing.NAMES, 0: "a receiver"}
    marked = [f'<span class="key">{drawing.icon(state)} {escape(named[state])}</span>' for state in there]
    return "Seen from above, north up: " + ", ".join(marked) + "."


def _figures(seen: Seen, marks: Sequence[drawing.Mark]) -> str:
    parts, ellipse = [], None
    fixed = isinstance(seen.answer, Fix)
    if isinstance(seen.answer, Fix):
        ellipse = drawing.two_sigma(seen.answer.enu_covariance())
    if marks:
        parts.append(_figure("plane", drawing.plane(marks, fixed, ellipse), _legend(marks, fixed)))
    if ellipse:
        parts.append(_figure("closeup", drawing.closeup(ellipse), "Nearer: the fix and its ellipse of two standard "
                             "deviations, inside which 86 of 100 normal errors lie."))
    if seen.states:
        parts.append(_figure("residuals", drawing.residuals(seen.states), "How far each reception is off the fix, in "
                             "its standard deviations. Above 5 it is left out; a bar with two strokes is cut."))
    kind = "figures" if len(parts) > 1 else "figures one"
    return f'<div class="{kind}">{"".join(parts)}</div>' if parts else ""


_ROUNDED = ("The library's functions are proved equal to their definitions for every input; the page rounds their "
            "numbers for the eye.")
_OWN = "what the page works out itself, in ordinary floating point"
_PLANE = "The plane touches the ellipsoid below its middle: heights and the curve of the earth do not show on it."


def _sources(seen: Seen) -> str:
    """Which numbers come from proved calls and which are the page's own."""
    if not isinstance(seen.answer, Fix):
        told = "The refusal is what mlat_solve answers" if seen.lengths else "The refusal is what the record holds"
        parts = [f"{told}{'' if seen.lengths else ', as mlat_read_record reads it'}. {_ROUNDED}"]
        if seen.receptions:
            parts.append(f"The places of receivers and their distances are {_OWN}, from mlat_from_ecef and "
                         f"mlat_enu_basis. {_PLANE}")
    elif seen.lengths:
        parts = ["<em>proved</em>: given by mlat_solve and mlat_read_record, the horizontal standard deviation by "
                 f"mlat_horizontal_sigma_m, states, turns, clash counts and residuals by mlat_why. {_ROUNDED}",
                 f"<em>page</em>: {_OWN}: the count of those used, from the record's mask; the standard deviations and "
                 "the ellipse, from mlat_enu_covariance; the places of receivers and their distances on the plane, "
                 f"from mlat_enu_basis. {_PLANE}"]
    else:
        parts = ["<em>proved</em>: what the record holds, as mlat_read_record reads it, and its horizontal standard "
                 f"deviation by mlat_horizontal_sigma_m. {_ROUNDED} Who wrote the record a page cannot know.",
                 f"<em>page</em>: {_OWN}: the count of those used, from the record's mask; the standard deviations and "
                 "the ellipse, from mlat_enu_covariance."]
    return "<section><h2>Where the numbers come from</h2>" + "".join(f"<p>{part}</p>" for part in parts) + "</section>"


def _summary(answer: Union[Fix, Refusal]) -> str:
    if isinstance(answer, Fix):
        latitude, longitude, height = answer.position
        return (f'<p class="told">Latitude {latitude:.7f}°, longitude {longitude:.7f}°, {height:,.1f} m above the '
                "ellipsoid.</p>")
    words = str(answer)
    return f'<p class="told refusal">{escape(words[0].upper() + words[1:])}.</p>'


def html(seen: Seen) -> str:
    """The page."""
    head = "Fix" if isinstance(seen.answer, Fix) else "No fix"
    marks = local(seen)
    table = _numbers(seen.answer) if isinstance(seen.answer, Fix) else _inputs(seen)
    return (
        '<!DOCTYPE html>\n<html lang="en"><head><meta charset="utf-8">'
        '<meta name="viewport" content="width=device-width, initial-scale=1"><meta name="color-scheme" '
        'content="light dark"><meta http-equiv="Content-Security-Policy" '
        "content=\"default-src 'none'; style-src 'unsafe-inline'\">"
        f"<title>{head}: {escape(seen.title)}</title><style>{STYLE}</style></head>\n"
        f"<body><main><h1>{head}: {escape(seen.title)}</h1>{_summary(seen.answer)}\n"
        f"{_figures(seen, marks)}\n{table}\n{_receivers(seen, marks)}\n{_sources(seen)}</main></body></html>\n"
    )
