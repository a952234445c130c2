//! The record of a solve, by document 01's table: the answer number and the 176 bytes.

use crate::input;
use crate::parts::{bits, number};
use crate::scene::{Files, Scene};
use crate::solve::{Solution, SolveError, solve_problem};

pub const LENGTH: usize = 176;
pub const SHORT_OUTPUT: u32 = 14;

/// The answer number; the record goes into `out`, of which nothing past its 176 bytes changes.
pub fn solve(files: &Files, out: &mut [u8]) -> u32 {
    if out.len() < LENGTH {
        return SHORT_OUTPUT;
    }
    let (answer, record) = record(files);
    out[..LENGTH].copy_from_slice(&record);
    answer
}

pub fn record(files: &Files) -> (u32, [u8; LENGTH]) {
    let scene = match input::read(files) {
        Ok(scene) => scene,
        Err((number, detail)) => return (number, refusal(number, detail, 0)),
    };
    match solve_problem(&scene.problem()) {
        Ok(solution) => (0, fix(&scene, &solution)),
        Err(error) => {
            let detail = if let SolveError::TooFew(included) = error { included } else { 0 };
            (number(&error), refusal(number(&error), detail as u32, scene.n()))
        }
    }
}

fn refusal(number: u32, detail: u32, n: usize) -> [u8; LENGTH] {
    let mut record = [0; LENGTH];
    put(&mut record, 0, number.to_le_bytes());
    put(&mut record, 4, detail.to_le_bytes());
    put(&mut record, 8, (n as u32).to_le_bytes());
    record
}

fn put<const N: usize>(record: &mut [u8; LENGTH], at: usize, bytes: [u8; N]) {
    record[at..at + N].copy_from_slice(&bytes);
}

/// Not-a-numbers as one value.
fn put_float(record: &mut [u8; LENGTH], at: usize, x: f64) {
    put(record, at, bits(x).to_le_bytes());
}

fn fix(scene: &Scene, solution: &Solution) -> [u8; LENGTH] {
    let mut record = refusal(0, solution.dof, solution.considered.len());
    let used = |i: usize| solution.used.contains(&solution.considered[i]);
    let mask = (0..scene.n()).filter(|i| used(*i)).fold(0u32, |mask, i| mask | 1 << i);
    put(&mut record, 12, mask.to_le_bytes());
    for (axis, metres) in solution.ecef.iter().enumerate() {
        put_float(&mut record, 16 + 8 * axis, *metres);
    }
    put_float(&mut record, 40, solution.t);
    put_float(&mut record, 48, solution.position.lat_deg);
    put_float(&mut record, 56, solution.position.lon_deg);
    put_float(&mut record, 64, solution.position.height_m);
    put(&mut record, 72, solution.transmit_ps.to_le_bytes());
    for (k, entry) in solution.covariance.iter().flatten().enumerate() {
        put_float(&mut record, 80 + 8 * k, *entry);
    }
    put_float(&mut record, 152, solution.chi2);
    put(&mut record, 160, solution.spec.to_le_bytes());
    if let Some((kind, metres)) = scene.altitude {
        record[162] = kind;
        put_float(&mut record, 168, metres);
    }
    record
}
