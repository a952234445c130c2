//! A problem whose fix has a chi-square of plus infinity: a clock covariance so nearly singular that a whitened residual and a whitened slope both overflow when they
//! are squared, the one in chi-square and the other in its limit. docs/DIFFERENCES.md says how.

use crate::scene::{Files, RECEPTION};

const N: usize = 32;

/// Receptions 2 to 21 take away what is left of the variances of 22 and 23, whose residual and slope are the ones that overflow.
const SHARED: usize = 20;
const FIRST: usize = 2;
const RESIDUAL: usize = 22;
const SLOPE: usize = 23;

const HEIGHT: f64 = 10_000.0;
const X: f64 = 6_378_137.0 + HEIGHT;
const NOISE: f64 = 0.5;

/// The binary64 that is `places` below x, which is above 0.
fn lower(x: f64, places: u64) -> f64 {
    f64::from_bits(x.to_bits() - places)
}

/// What 22 and 23 share with each of 2 to 21: each square leaves a unit or a few of the digits that were left.
fn shares() -> ([f64; SHARED], [f64; SHARED]) {
    let (mut left, mut shares) = (1.0_f64, [0.0; SHARED]);
    for (k, share) in shares[..SHARED - 1].iter_mut().enumerate() {
        *share = lower(left.sqrt(), if k < SHARED - 2 { 1 } else { 3 });
        left -= *share * *share;
    }
    let mut others = shares;
    shares[SHARED - 1] = lower(left.sqrt(), 1);
    others[SHARED - 1] = lower(left.sqrt(), 2);
    (shares, others)
}

/// Entry (i, j) of the covariance, noise included, for i up to j.
fn covariance() -> Vec<[f64; N]> {
    let mut c = vec![[0.0; N]; N];
    for (i, row) in c.iter_mut().enumerate() {
        row[i] = if (FIRST..=SLOPE).contains(&i) { 2.0 } else { 1.0 };
    }
    for i in FIRST..FIRST + SHARED {
        c[0][i] = 1.0;
        (i + 1..FIRST + SHARED).for_each(|j| c[i][j] = 1.0);
    }
    let (shares, others) = shares();
    for (giant, shares) in [(RESIDUAL, shares), (SLOPE, others)] {
        c[1][giant] = 1.0;
        (0..SHARED).for_each(|k| c[FIRST + k][giant] = shares[k]);
    }
    c[RESIDUAL][SLOPE] = 2.0;
    c
}

fn site(i: usize) -> [f64; 2] {
    match i {
        0..=RESIDUAL => [8_192.0, 0.0],
        SLOPE => [-16_384.0, 0.0],
        24..=29 => [-28_672.0, [32_768.0, -32_768.0, 16_384.0, -16_384.0, 8_192.0, -8_192.0][i - 24]],
        30 => [0.0, 32_768.0],
        _ => [0.0, -32_768.0],
    }
}

pub fn files() -> Files {
    let (mut receptions, mut clock) = (Vec::new(), Vec::new());
    let covariance = covariance();
    for i in 0..N {
        let [y, z] = site(i);
        let residual = match i {
            RESIDUAL | SLOPE => 1.0,
            21 => -2.0,
            _ => 0.0,
        };
        let range = (0.0 + y * y + z * z).sqrt();
        let mut identity = [0; 76];
        identity[31] = i as u8;
        receptions.extend(identity);
        receptions.extend(0_i64.to_le_bytes());
        [X, y, z].iter().for_each(|metres| receptions.extend(((metres * 1_000.0) as i64).to_le_bytes()));
        receptions.extend((range + residual).to_le_bytes());
        receptions.extend(NOISE.to_le_bytes());
        receptions.extend([0; 8]);
        (0..N).for_each(|j| clock.extend((covariance[i][j] - if i == j { NOISE } else { 0.0 }).to_le_bytes()));
    }
    let mut altitude = vec![1, 0, 0, 0, 0, 0, 0, 0];
    altitude.extend(HEIGHT.to_le_bytes());
    Files { receptions: Some(receptions), clock: Some(clock), altitude: Some(altitude), reference: None }
}

/// The same with z of reception 24 a metre more: no candidate of a step has a finite cost, and the last plain step is not short, so no start converges. An original that took
/// steps to an infinite cost would give a fix.
pub fn files_off() -> Files {
    let mut files = files();
    for receptions in files.receptions.iter_mut() {
        let at = 24 * RECEPTION + 108;
        let mut z = [0; 8];
        z.copy_from_slice(&receptions[at..at + 8]);
        receptions[at..at + 8].copy_from_slice(&(f64::from_le_bytes(z) + 1.0).to_le_bytes());
    }
    files
}
