//! From the bytes of the four inputs to a problem, with document 01's refusals 10, 11, 12, 13 and 15, in its order. Identities are document 02's, and their order is
//! the one that the source derives; the altitude's correction is document 02's.

use crate::obs::ObservationId;
use crate::scene::{Files, RECEPTION, Reception, Scene};

/// Number and detail.
pub type Refusal = (u32, u32);

const MOST: usize = 32;

fn part<const N: usize>(bytes: &[u8], at: usize) -> [u8; N] {
    bytes[at..at + N].try_into().expect("N bytes")
}

fn float(bytes: &[u8], at: usize) -> f64 {
    f64::from_le_bytes(part(bytes, at))
}

/// Compared in binary64; a not-a-number lies nowhere.
fn lies(x: f64, low: f64, high: f64) -> bool {
    low <= x && x <= high
}

pub fn read(files: &Files) -> Result<Scene, Refusal> {
    let bytes: &[u8] = files.receptions.as_deref().unwrap_or(&[]);
    let torn = |file: &Option<Vec<u8>>, size: usize| file.as_ref().is_some_and(|bytes| bytes.len() != size);
    if bytes.len() % RECEPTION != 0 || torn(&files.altitude, 16) || torn(&files.reference, 8) {
        return Err((15, 0));
    }
    if bytes.len() / RECEPTION > MOST {
        return Err((10, 0));
    }
    let receptions = receptions(bytes)?;
    let clock = files.clock.as_ref().map(|bytes| clock(bytes, receptions.len())).transpose()?;
    let (altitude, correction) = files.altitude.as_ref().map(|bytes| altitude(bytes)).transpose()?.unzip();
    let reference = files.reference.as_ref().map(|bytes| i64::from_le_bytes(part(bytes, 0)));
    Ok(Scene { receptions, clock, altitude, correction: correction.unwrap_or(0), reference })
}

fn receptions(bytes: &[u8]) -> Result<Vec<Reception>, Refusal> {
    let mut all: Vec<Reception> = Vec::new();
    for (index, record) in bytes.chunks(RECEPTION).enumerate() {
        let r = reception(record).ok_or((12, index as u32))?;
        if all.last().is_some_and(|before| r.identity <= before.identity) {
            return Err((11, index as u32));
        }
        all.push(r);
    }
    Ok(all)
}

fn identity(record: &[u8]) -> ObservationId {
    ObservationId {
        receiver: part(record, 0),
        epoch: u32::from_le_bytes(part(record, 32)),
        timestamp: u64::from_le_bytes(part(record, 36)),
        message: part(record, 44),
    }
}

/// None where a field lies outside the domain or the filler is not zero.
fn reception(record: &[u8]) -> Option<Reception> {
    let whole = |at: usize| i64::from_le_bytes(part(record, at));
    let r = Reception {
        identity: identity(record),
        time: whole(76),
        site_mm: [whole(84), whole(92), whole(100)],
        z: float(record, 108),
        noise: float(record, 116),
    };
    let sound = (0..=10_000_000_000_000).contains(&r.time)
        && r.site_mm.iter().all(|mm| (-10_000_000_000..=10_000_000_000).contains(mm))
        && lies(r.z, 0.0, 3e9)
        && lies(r.noise, 1e-6, 1e12)
        && part(record, 124) == [0; 8];
    sound.then_some(r)
}

/// The entries on and right of the diagonal are in the domain; those left of it are never read.
fn clock(bytes: &[u8], n: usize) -> Result<Vec<f64>, Refusal> {
    if bytes.len() != 8 * n * n {
        return Err((13, 0));
    }
    let entries: Vec<f64> = (0..n * n).map(|k| float(bytes, 8 * k)).collect();
    for row in 0..n {
        for column in row..n {
            let low = if row == column { 0.0 } else { -1e12 };
            if !lies(entries[row * n + column], low, 1e12) {
                return Err((12, 100 + row as u32));
            }
        }
    }
    Ok(entries)
}

/// Kind and metres, and the correction: an i32 in centimetres, "within ±100,000"; "For GNSS it must be 0".
fn altitude(bytes: &[u8]) -> Result<((u8, f64), i32), Refusal> {
    let (kind, correction, metres) = (bytes[0], i32::from_le_bytes(part(bytes, 4)), float(bytes, 8));
    let allowed = match kind {
        1 => (-100_000..=100_000).contains(&correction),
        2 => correction == 0,
        _ => false,
    };
    let sound = allowed && bytes[1..4] == [0; 3] && lies(metres, -100_000.0, 100_000.0);
    if sound { Ok(((kind, metres), correction)) } else { Err((12, 200)) }
}
