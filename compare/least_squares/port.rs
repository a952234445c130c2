//! The port's functions by their C names.

#[rustfmt::skip]
extern "C" {
    pub fn fit_covariance(clock_m2: &[f64; 1024], n: usize, noise_m2: &[f64; 32], index: &[usize; 32], k: usize, sigma: &mut [f64; 1024]);
    pub fn fit_whitener(clock_m2: &[f64; 1024], n: usize, noise_m2: &[f64; 32], index: &[usize; 32], k: usize, l: &mut [f64; 1024]) -> bool;
    pub fn fit_sigmas(clock_m2: &[f64; 1024], n: usize, noise_m2: &[f64; 32], sigmas: &mut [f64; 32]);
    pub fn fit_ranges(sites: &[f64; 96], k: usize, params: &[f64; 4], ranges: &mut [f64; 32]);
    pub fn fit_whitened(
        sites: &[f64; 96], z: &[f64; 32], k: usize, l: &[f64; 1024], kind: u32, metres: f64, params: &[f64; 4],
        r: &mut [f64; 33], a: &mut [f64; 33], b: &mut [f64; 33], c: &mut [f64; 33], d: &mut [f64; 33],
    ) -> usize;
    pub fn fit_normal(
        r: &[f64; 33], a: &[f64; 33], b: &[f64; 33], c: &[f64; 33], d: &[f64; 33], count: usize,
        information: &mut [f64; 16], gradient: &mut [f64; 4],
    ) -> f64;
    fn fit_levenberg_marquardt(
        sites: &[f64; 96], z: &[f64; 32], k: usize, l: &[f64; 1024], kind: u32, metres: f64, start: &[f64; 4],
        params: &mut [f64; 4], cost: &mut f64, information: &mut [f64; 16],
    ) -> bool;
    pub fn fit_plausible(sites: &[f64; 96], k: usize, params: &[f64; 4]) -> bool;
    fn fit_best_fit(
        clock_m2: &[f64; 1024], n: usize, noise_m2: &[f64; 32], index: &[usize; 32], sites: &[f64; 96], z: &[f64; 32], k: usize,
        kind: u32, metres: f64, at: &[f64; 72], count: usize, params: &mut [f64; 4], cost: &mut f64, information: &mut [f64; 16],
    ) -> u32;
}

use oracle::parts::{Arrays, Chosen, Fitted, MARK};

const MARKED: Fitted = Fitted { params: [MARK; 4], cost: MARK, information: [MARK; 16] };

/// The fit, and whether there is one.
pub fn levenberg_marquardt(chosen: &Chosen, l: &[f64; 1024], altitude: (u8, f64), start: &[f64; 4]) -> (bool, Fitted) {
    let mut fit = MARKED;
    let (kind, metres) = (u32::from(altitude.0), altitude.1);
    let Fitted { params, cost, information } = &mut fit;
    let ok = unsafe { fit_levenberg_marquardt(&chosen.sites, &chosen.z, chosen.k, l, kind, metres, start, params, cost, information) };
    (ok, fit)
}

/// The starts as the port is lent them: at most 18, and the mark past them.
pub fn list(starts: &[[f64; 4]]) -> [f64; 72] {
    let mut at = [MARK; 72];
    at.iter_mut().zip(starts.iter().flatten()).for_each(|(entry, value)| *entry = *value);
    at
}

/// The number of the refusal, 0 where there is none, and the fit.
pub fn best_fit(arrays: &Arrays, chosen: &Chosen, at: &[f64; 72], count: usize) -> (u32, Fitted) {
    let mut fit = MARKED;
    let Arrays { n, clock_m2, noise_m2, kind, metres, .. } = arrays;
    let Chosen { k, index, sites, z } = chosen;
    let Fitted { params, cost, information } = &mut fit;
    let kind = u32::from(*kind);
    let number = unsafe { fit_best_fit(clock_m2, *n, noise_m2, index, sites, z, *k, kind, *metres, at, count, params, cost, information) };
    (number, fit)
}
