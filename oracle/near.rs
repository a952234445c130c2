//! Fixes near a place: document 02, item 12, over item 1's reader. Written from these, not from the port.

use crate::reader::{self, LENGTH, SHORT_OUTPUT, TORN_FILE};

pub const BAD_QUERY: u32 = 22;

/// Where there is no nearest.
pub const NONE: u64 = u64::MAX;

const FARTHEST: f64 = 1e8;

/// A fix: its place in the file, from 0, and its ECEF position.
type Fix = (u64, [f64; 3]);

/// "A buffer with fewer entries than the file's length divided by 176, rounded down, gets 14, tested first." "22 bad
/// query, tested after the whole file is read." "A refusal changes nothing lent, and entries past the count stay."
pub fn within(file: &[u8], point: &[f64; 3], radius: f64, places: &mut [u64], count: &mut u64) -> u32 {
    if places.len() < file.len() / LENGTH {
        return SHORT_OUTPUT;
    }
    let fixes = match fixes(file) {
        Ok(fixes) => fixes,
        Err(number) => return number,
    };
    if !point.iter().all(is_good) || !is_good(&radius) || radius < 0.0 {
        return BAD_QUERY;
    }
    // "in file order, equality included"
    let mut found = 0;
    for (place, position) in fixes {
        if distance(&position, point) <= radius {
            places[found] = place;
            found += 1;
        }
    }
    *count = found as u64;
    0
}

/// "No fix in the file is closer than the nearest, and the earliest wins a tie. The nearest is none exactly when the
/// file has no fix."
pub fn nearest(file: &[u8], point: &[f64; 3], place: &mut u64) -> u32 {
    let fixes = match fixes(file) {
        Ok(fixes) => fixes,
        Err(number) => return number,
    };
    if !point.iter().all(is_good) {
        return BAD_QUERY;
    }
    let distances: Vec<f64> = fixes.iter().map(|(_, position)| distance(position, point)).collect();
    let least = distances.iter().copied().fold(f64::INFINITY, f64::min);
    *place = distances.iter().position(|distance| *distance == least).map_or(NONE, |k| fixes[k].0);
    0
}

/// "refused solves in the file are passed over"
fn fixes(file: &[u8]) -> Result<Vec<Fix>, u32> {
    if file.len() % LENGTH != 0 {
        return Err(TORN_FILE);
    }
    let mut all = Vec::new();
    for (place, record) in file.chunks(LENGTH).enumerate() {
        let fields = reader::read(record)?;
        if fields.answer == 0 {
            all.push((place as u64, fields.ecef.map(f64::from_bits)));
        }
    }
    Ok(all)
}

/// "finite and within 10^8 in size"
fn is_good(x: &f64) -> bool {
    x.is_finite() && x.abs() <= FARTHEST
}

/// "Distances are `norm` of `sub` in f64": of linalg.rs, the root of the sum of squares from the left.
fn distance(a: &[f64; 3], b: &[f64; 3]) -> f64 {
    let apart = [a[0] - b[0], a[1] - b[1], a[2] - b[2]];
    (apart[0] * apart[0] + apart[1] * apart[1] + apart[2] * apart[2]).sqrt()
}
