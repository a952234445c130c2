//! Records and refusals in words, for a person: a line each, `name value`, without an indent.

use std::fmt::Write;

use jifrosk::{Altitude, Field, Fix, Record, Refusal};

/// How much of a record is told.
#[derive(Clone, Copy, PartialEq, Eq)]
pub enum Extent {
    /// What a person asks first.
    Short,
    /// Every field.
    Whole,
}

/// The lines of a record.
pub fn record(record: &Record, extent: Extent) -> String {
    match record {
        Record::Fix(fix) => fix_lines(fix, extent),
        Record::Refused { refusal, n } if extent == Extent::Whole && (1..=9).contains(&refusal.number()) => {
            format!("{}receptions considered: {n}\n", refused(refusal))
        }
        Record::Refused { refusal, .. } => refused(refusal),
    }
}

/// The two lines of a refusal: what it says, and what to do about it.
pub fn refused(refusal: &Refusal) -> String {
    let (number, says, advice) = (refusal.number(), says(refusal), advice(refusal));
    format!("no fix: refusal {number}, {says}\nwhat to do: {advice}\n")
}

/// Standard deviations east, north and up of a fix, metres; none where a record claims a variance below 0.
pub fn sigma(fix: &Fix) -> [Option<f64>; 3] {
    let enu = fix.enu_covariance();
    [0, 1, 2].map(|axis| Some(enu[axis][axis].sqrt()).filter(|sigma| sigma.is_finite()))
}

fn fix_lines(fix: &Fix, extent: Extent) -> String {
    let mut lines = String::new();
    put_fix(&mut lines, fix, extent == Extent::Whole).expect("a string takes every line");
    lines
}

fn put_fix(out: &mut String, fix: &Fix, whole: bool) -> std::fmt::Result {
    let (at, [x, y, z]) = (fix.position, fix.ecef);
    writeln!(
        out,
        "place    latitude {:.6}, longitude {:.6} degrees (WGS 84)",
        at.lat_deg, at.lon_deg
    )?;
    writeln!(out, "height   {:.1} m above the ellipsoid", at.height_m)?;
    if whole {
        writeln!(out, "ecef     {x:.3}, {y:.3}, {z:.3} m")?;
    }
    let [east, north, up] = sigma(fix).map(|sigma| sigma.map_or("none".to_string(), |metres| format!("{metres:.1} m")));
    writeln!(out, "sigma    east {east}, north {north}, up {up}")?;
    if whole {
        writeln!(out, "covariance of the ecef place, m2:")?;
        for [a, b, c] in fix.covariance {
            writeln!(out, "         {a:14.3} {b:14.3} {c:14.3}")?;
        }
    }
    writeln!(out, "used     {}", used(fix))?;
    let (chi2, dof, sent) = (fix.chi2, fix.dof, fix.transmit_ps);
    writeln!(out, "fit      chi-square {chi2:.3} at {dof} degrees of freedom")?;
    match whole {
        true => writeln!(out, "sent     {sent} ps, {:.3} m of light after the reference", fix.t_m)?,
        false => writeln!(out, "sent     {sent} ps")?,
    }
    match fix.altitude {
        Some(Altitude::Barometric(metres)) => writeln!(out, "altitude {metres:.1} m, barometric")?,
        Some(Altitude::Gnss(metres)) => writeln!(out, "altitude {metres:.1} m, GNSS")?,
        None if whole => writeln!(out, "altitude none")?,
        None => {}
    }
    if whole {
        writeln!(out, "version  {}", fix.spec)?;
    }
    writeln!(out, "asterix  {}", items(fix))
}

/// Which receptions a fix uses, by their places, and which it does not.
fn used(fix: &Fix) -> String {
    let places = |wanted: bool| -> String {
        (0..fix.n)
            .filter(|place| fix.uses(*place as usize) == wanted)
            .map(|place| format!(" {place}"))
            .collect()
    };
    let (used, others, last) = (places(true), places(false), i64::from(fix.n) - 1);
    match others.is_empty() {
        true => format!("receptions{used} of 0 to {last}"),
        false => format!("receptions{used} of 0 to {last}; not used:{others}"),
    }
}

/// The position as items I020/041 and I020/105 of category 020.
fn items(fix: &Fix) -> String {
    let Ok(items) = fix.to_asterix() else {
        return "none: the position is beyond the wire".to_string();
    };
    let hexadecimal = |bytes: &[u8]| -> String { bytes.iter().map(|byte| format!(" {byte:02X}")).collect() };
    format!(
        "I020/041{}, I020/105{}",
        hexadecimal(&items[..8]),
        hexadecimal(&items[8..])
    )
}

/// A refusal's name, and what it means.
pub fn says(refusal: &Refusal) -> String {
    let words = REFUSALS[refusal.number() as usize - 1].0;
    match refusal {
        Refusal::TooFew { included } => words.replace("{}", &included.to_string()),
        Refusal::Disorder { index } => words.replace("{}", &index.to_string()),
        Refusal::BadField(Field::Reception { index }) => words.replace("{}", &format!("reception {index}, from 0")),
        Refusal::BadField(Field::ClockRow { row }) => words.replace("{}", &format!("row {row} of the clock, from 0")),
        Refusal::BadField(Field::Altitude) => words.replace("{}", "the altitude"),
        _ => words.to_string(),
    }
}

/// What to do about a refusal.
pub fn advice(refusal: &Refusal) -> &'static str {
    match refusal {
        Refusal::BadField(Field::ClockRow { .. }) => "check the units: m2, on the diagonal 0 to 10^12",
        Refusal::BadField(Field::Altitude) => {
            "check the units: metres, within 100,000 either way; a correction in centimetres, 0 for GNSS"
        }
        _ => REFUSALS[refusal.number() as usize - 1].1,
    }
}

/// Of 1 to 24 the name and the meaning, with {} for the detail, and what to do (docs/GUIDE.md, 'Refusals').
const REFUSALS: [(&str, &str); 24] = [
    (
        "too few: {} receptions are included, and a fix needs four, or three with an altitude",
        "wait for another transmission, or give an altitude: three receptions are then enough",
    ),
    (
        "no convergence: no start leads to a fit",
        "look for sites that lie nearly in a line, or a receiver whose clock is far off",
    ),
    (
        "out of range: no fit is at a plausible place, or the transmit time leaves 64 bits",
        "check sites, z and the reference: their units first",
    ),
    (
        "no fixed point: the outlier rounds do not settle",
        "look at the clock covariance: strongly correlated clocks with tiny noise do this",
    ),
    (
        "inconsistent: the residuals are larger than noise and clocks explain",
        "look at noise and clock covariance: one of them is claimed too small",
    ),
    (
        "singular: a covariance is not positive definite, or a residual is not a number",
        "look at the clock covariance; a fit on a receiver's own site ends here too",
    ),
    (
        "uncovered: there is no clock covariance",
        "give one, 8 n n bytes for n receptions: zeros, where the clocks are perfect",
    ),
    (
        "ambiguous: two places fit about as well",
        "give an altitude, or a fourth reception",
    ),
    (
        "uncertain: a standard deviation is over 1,500 m, or the covariance is not positive definite",
        "publish nothing: the geometry of the receivers is poor for this place",
    ),
    (
        "too many: there are over 32 receptions",
        "choose 32 of them, with their rows and columns of the clock",
    ),
    (
        "disorder: the identity of reception {}, from 0, is not above the one before",
        "sort receptions by receiver, epoch, timestamp, message, and the clock with them; no two alike in all four",
    ),
    (
        "bad field: a field is outside its domain, or a filler not zero: {}",
        "check the units: time ps, site ECEF mm, z m, noise m2; the last eight bytes of a reception are zero",
    ),
    (
        "clock size: the clock covariance has not 8 n n bytes",
        "write the clock for all receptions given, in their order: n rows of n numbers",
    ),
    (
        "short output: less memory was lent than is written",
        "lend as much as the call writes",
    ),
    (
        "torn input: receptions, altitude or reference has not a whole number of entries",
        "write the file again: it was cut; receptions of 64 bytes are from before: tools/widen_receptions widens them",
    ),
    (
        "torn file: the bytes are not whole records",
        "drop the last bytes: the file was cut while it was written",
    ),
    (
        "no such place: the file has no record there",
        "count places from 0, up to the number of its records less one",
    ),
    (
        "malformed record: it breaks a rule that every record meets",
        "trust nothing of it: its bytes are damaged, or of another version",
    ),
    (
        "beyond the wire: there is no position within the limits of the wire",
        "publish nothing of it",
    ),
    (
        "unequal mirror: an entry of the covariance and its mirror differ in a bit",
        "keep its 176 bytes: the solve of this library did not write it",
    ),
    (
        "wrong size: a size is over 32, or an array has another length",
        "count doubles: n n of a matrix, n times the width of rows, n of a diagonal",
    ),
    (
        "bad query: the point or the radius is beyond 10^8 m, or the radius is negative",
        "give metres, and a radius from 0",
    ),
    (
        "beyond the items: the position does not fit them, or they are not ten bytes",
        "publish nothing of it",
    ),
    (
        "over six: there are over six receptions",
        "ask for six at most: seven would have 2,097,152 patterns",
    ),
];
