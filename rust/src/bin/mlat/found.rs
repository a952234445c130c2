//! A fix that a search found, as a line.

use std::cmp::Ordering;
use std::io::Write;

use crate::decimal::{put_float, put_signed, put_whole};

pub struct Found {
    place: u64,
    /// Degrees, degrees, metres above the ellipsoid.
    position: [f64; 3],
    transmit_ps: i64,
    distance_m: f64,
}

impl Found {
    /// The nearer before the farther, and of two at one distance the earlier.
    pub fn order(&self, other: &Self) -> Ordering {
        let by_distance = self.distance_m.total_cmp(&other.distance_m);
        by_distance.then(self.place.cmp(&other.place))
    }

    /// The fix in a record, with its distance from a point: `norm` of `sub`, as document 02 has it.
    pub fn of(place: u64, record: &[u8], point: &[f64; 3]) -> Option<Self> {
        let fix = jifrosk::read(record).ok()?.fix().ok()?;
        let [x, y, z] = [0, 1, 2].map(|axis| fix.ecef[axis] - point[axis]);
        Some(Found {
            place,
            position: fix.position.into(),
            transmit_ps: fix.transmit_ps,
            distance_m: (x * x + y * y + z * z).sqrt(),
        })
    }
}

/// How lines are written.
#[derive(Clone, Copy)]
pub enum Form {
    Text,
    Json,
}

impl Form {
    /// What is said where a file has no fix.
    pub fn none(self) -> &'static [u8] {
        match self {
            Form::Text => b"nearest: none, the file has no fix\n",
            Form::Json => b"{\"found\": \"nearest\", \"place\": null}\n",
        }
    }

    /// Puts the line of a fix, which is the `nearest` or one `within` the radius.
    pub fn put(self, out: &mut Vec<u8>, what: &str, found: &Found) {
        match self {
            Form::Text => put_text(out, what, found),
            Form::Json => put_json(out, what, found),
        }
    }
}

fn put_text(out: &mut Vec<u8>, what: &str, found: &Found) {
    if what == "nearest" {
        out.extend_from_slice(b"nearest: ");
    }
    out.extend_from_slice(b"place ");
    put_whole(out, found.place);
    out.extend_from_slice(b", ");
    put_metres(out, found.distance_m);
    let [latitude, longitude, height] = found.position;
    // writing to memory does not fail
    let _ = write!(
        out,
        " away: latitude {latitude:.6}, longitude {longitude:.6}, height {height:.1} m, sent at "
    );
    put_signed(out, found.transmit_ps);
    out.extend_from_slice(b" ps\n");
}

/// A distance to the millimetre, a half up.
fn put_metres(out: &mut Vec<u8>, metres: f64) {
    let thousandths = metres * 1000.0 + 0.5;
    if thousandths >= u64::MAX as f64 {
        out.extend_from_slice(b"over 10^16 m");
        return;
    }
    let thousandths = thousandths as u64;
    put_whole(out, thousandths / 1000);
    let _ = write!(out, ".{:03} m", thousandths % 1000);
}

fn put_json(out: &mut Vec<u8>, what: &str, found: &Found) {
    let _ = write!(out, "{{\"found\": \"{what}\", \"place\": {}", found.place);
    out.extend_from_slice(b", \"distance_m\": ");
    put_distance(out, found.distance_m);
    for (key, number) in ["latitude_deg", "longitude_deg", "height_m"].iter().zip(found.position) {
        let _ = write!(out, ", \"{key}\": ");
        put_float(out, number);
    }
    let _ = writeln!(out, ", \"transmit_ps\": {}}}", found.transmit_ps);
}

/// JSON has no infinite number.
fn put_distance(out: &mut Vec<u8>, metres: f64) {
    if metres.is_finite() {
        put_float(out, metres);
    } else {
        out.extend_from_slice(b"null");
    }
}
