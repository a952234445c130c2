//! The parts of solve.rs one by one, on a problem and a subset of its receptions, for comparing the port's crates: the arrays that a crate takes, and what the Rust gives
//! for them. Entries past those in use hold `MARK`, so that a comparison sees whether they are touched.

use crate::linalg::Matrix;
use crate::random::Random;
use crate::scene::Scene;
use crate::solve::{Fit, Params, Problem, SolveError};

pub const MARK: f64 = -8.125e77;

/// A problem in arrays by field.
#[derive(Clone)]
pub struct Arrays {
    pub n: usize,
    pub time: [i64; 32],
    pub site_mm: [i64; 96],
    pub site: [f64; 96],
    pub z: [f64; 32],
    pub noise_m2: [f64; 32],
    /// Row by row, n * n entries.
    pub clock_m2: [f64; 1024],
    /// 0 none, 1 barometric, 2 GNSS.
    pub kind: u8,
    pub metres: f64,
    pub reference_ps: i64,
}

/// The receptions of a subset, gathered.
#[derive(Clone)]
pub struct Chosen {
    pub k: usize,
    pub index: [usize; 32],
    pub sites: [f64; 96],
    pub z: [f64; 32],
}

/// A fit with its information row by row.
#[derive(Clone, Copy, Debug)]
pub struct Fitted {
    pub params: Params,
    pub cost: f64,
    pub information: [f64; 16],
}

/// Whitened residuals and the four columns of the Jacobian.
#[derive(Clone, Debug)]
pub struct Rows {
    pub residuals: Vec<f64>,
    pub columns: [Vec<f64>; 4],
}

fn filled<const N: usize>(values: impl IntoIterator<Item = f64>) -> [f64; N] {
    let mut all = [MARK; N];
    all.iter_mut().zip(values).for_each(|(entry, value)| *entry = value);
    all
}

pub fn arrays(scene: &Scene) -> Arrays {
    let problem = scene.problem();
    let (mut time, mut site_mm) = ([0; 32], [0; 96]);
    for (i, r) in scene.receptions.iter().enumerate() {
        time[i] = r.time;
        site_mm[3 * i..3 * i + 3].copy_from_slice(&r.site_mm);
    }
    let kind = scene.altitude.map_or(0, |(kind, _)| kind);
    let metres = problem.altitude.as_ref().map_or(0.0, |(_, metres, _)| *metres);
    Arrays {
        n: scene.n(),
        time,
        site_mm,
        site: filled(problem.items.iter().flat_map(|item| item.site)),
        z: filled(problem.items.iter().map(|item| item.z)),
        noise_m2: filled(problem.items.iter().map(|item| item.noise_m2)),
        clock_m2: filled(scene.clock.iter().flatten().copied()),
        kind,
        metres,
        reference_ps: scene.reference.unwrap_or(0),
    }
}

pub fn chosen(problem: &Problem, subset: &[usize]) -> Chosen {
    let mut index = [usize::MAX; 32];
    index[..subset.len()].copy_from_slice(subset);
    let items = || subset.iter().map(|i| &problem.items[*i]);
    Chosen { k: subset.len(), index, sites: filled(items().flat_map(|item| item.site)), z: filled(items().map(|item| item.z)) }
}

/// Some of n receptions, ascending: often all, else each by chance.
pub fn subset(random: &mut Random, n: usize) -> Vec<usize> {
    let all = random.one_in(2);
    (0..n).filter(|_| all || !random.one_in(4)).collect()
}

pub fn flat<const N: usize>(matrix: &Matrix) -> [f64; N] {
    filled(matrix.data.iter().copied())
}

/// The lower triangular factor, zeros right of the diagonal; none where a pivot is refused.
pub fn whitener(problem: &Problem, subset: &[usize]) -> Option<[f64; 1024]> {
    problem.whitener(subset).map(|factor| filled(factor.l.iter().copied()))
}

pub fn sigma(problem: &Problem, i: usize) -> f64 {
    problem.sigma(i)
}

pub fn residual(problem: &Problem, i: usize, params: &Params) -> f64 {
    problem.residual(i, params)
}

/// None where the whitener is none.
pub fn whitened(problem: &Problem, subset: &[usize], params: &Params) -> Option<Rows> {
    let (residuals, jacobian) = problem.whitened(subset, &problem.whitener(subset)?, params);
    let columns = [0, 1, 2, 3].map(|axis| jacobian.iter().map(|row| row[axis]).collect());
    Some(Rows { residuals, columns })
}

/// Information row by row, gradient, cost.
pub fn normal(rows: &Rows) -> ([f64; 16], [f64; 4], f64) {
    let [a, b, c, d] = &rows.columns;
    let jacobian: Vec<[f64; 4]> = (0..rows.residuals.len()).map(|i| [a[i], b[i], c[i], d[i]]).collect();
    let (information, gradient, cost) = Problem::normal(&rows.residuals, &jacobian);
    (flat(&information), gradient, cost)
}

fn fitted(fit: &Fit) -> Fitted {
    Fitted { params: fit.params, cost: fit.cost, information: flat(&fit.information) }
}

/// None where it does not converge, or where the whitener is none.
pub fn levenberg_marquardt(problem: &Problem, subset: &[usize], start: Params) -> Option<Fitted> {
    problem.levenberg_marquardt(subset, &problem.whitener(subset)?, start).map(|fit| fitted(&fit))
}

/// The starts of a round: the last round's parameters lead, where there was one.
pub fn starts(problem: &Problem, subset: &[usize], previous: Option<Params>) -> Vec<Params> {
    previous.into_iter().chain(problem.starts(subset)).collect()
}

pub fn bancroft(problem: &Problem, subset: &[usize]) -> Vec<Params> {
    problem.bancroft(subset)
}

pub fn plausible(problem: &Problem, subset: &[usize], params: &Params) -> bool {
    problem.plausible(subset, params)
}

/// The best fit, or document 01's number of its refusal: 2, 3, 6 or 8.
pub fn best_fit(problem: &Problem, subset: &[usize], starts: &[Params]) -> Result<Fitted, u32> {
    problem.best_fit(subset, starts).map(|fit| fitted(&fit)).map_err(|error| number(&error))
}

/// Document 01's number of each refusal of solve.rs.
pub fn number(error: &SolveError) -> u32 {
    match error {
        SolveError::TooFew(_) => 1,
        SolveError::NoConvergence => 2,
        SolveError::OutOfRange => 3,
        SolveError::NoFixedPoint => 4,
        SolveError::Inconsistent => 5,
        SolveError::Singular => 6,
        SolveError::Uncovered => 7,
        SolveError::Ambiguous => 8,
        SolveError::Uncertain => 9,
    }
}

/// The bits of a number, all not-a-numbers as one.
pub fn bits(x: f64) -> u64 {
    if x.is_nan() { 0x7ff8_0000_0000_0000 } else { x.to_bits() }
}
