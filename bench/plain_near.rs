//! Plain Rust loops over a file of fix records with the checks of document 02's item 12: every record first, then those
//! within a radius, or the nearest.

use crate::plain_reader;

const LENGTH: usize = 176;
const SHORT_OUTPUT: u32 = 14;
const TORN_FILE: u32 = 16;
const MALFORMED_RECORD: u32 = 18;
const BAD_QUERY: u32 = 22;

const FARTHEST: f64 = 1e8;

#[inline(never)]
pub fn within(file: &[u8], point: &[f64; 3], radius: f64, places: &mut [u64], count: &mut u64) -> u32 {
    if places.len() < file.len() / LENGTH {
        return SHORT_OUTPUT;
    }
    let number = refusal(file, point);
    if number != 0 {
        return number;
    }
    if !(0.0..=FARTHEST).contains(&radius) {
        return BAD_QUERY;
    }
    let mut found = 0;
    for (place, record) in file.chunks_exact(LENGTH).enumerate() {
        if is_fix(record) && distance(record, point) <= radius {
            places[found] = place as u64;
            found += 1;
        }
    }
    *count = found as u64;
    0
}

#[inline(never)]
pub fn nearest(file: &[u8], point: &[f64; 3], place: &mut u64) -> u32 {
    let number = refusal(file, point);
    if number != 0 {
        return number;
    }
    let mut best = (u64::MAX, f64::INFINITY);
    for (place, record) in file.chunks_exact(LENGTH).enumerate() {
        if is_fix(record) {
            let distance = distance(record, point);
            if best.0 == u64::MAX || distance < best.1 {
                best = (place as u64, distance);
            }
        }
    }
    *place = best.0;
    0
}

fn refusal(file: &[u8], point: &[f64; 3]) -> u32 {
    if file.len() % LENGTH != 0 {
        return TORN_FILE;
    }
    for record in file.chunks_exact(LENGTH) {
        if plain_reader::taken_apart(record.try_into().expect("a whole record")).is_none() {
            return MALFORMED_RECORD;
        }
    }
    if point.iter().all(|x| x.abs() <= FARTHEST) { 0 } else { BAD_QUERY }
}

fn is_fix(record: &[u8]) -> bool {
    record[..4] == [0; 4]
}

fn distance(record: &[u8], point: &[f64; 3]) -> f64 {
    let apart = |k: usize| f64::from_le_bytes(record[16 + 8 * k..][..8].try_into().expect("eight bytes")) - point[k];
    let [x, y, z] = [apart(0), apart(1), apart(2)];
    (x * x + y * y + z * z).sqrt()
}
