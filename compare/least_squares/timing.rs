//! The time of a damped fit and of a best fit, port and Rust from the same starts: all starts of sound problems, the least of several runs of each.

use crate::port;
use oracle::linalg::Cholesky;
use oracle::parts::{self, Arrays, Chosen};
use oracle::random::Random;
use oracle::sky;
use oracle::solve::{Params, Problem};
use std::hint::black_box;
use std::time::Instant;

const RUNS: usize = 25;
const PROBLEMS: usize = 20;
const CLASSES: [(usize, bool); 7] = [(3, true), (4, false), (4, true), (10, false), (10, true), (32, false), (32, true)];

struct Case {
    problem: Problem,
    subset: Vec<usize>,
    factor: Cholesky,
    l: [f64; 1024],
    arrays: Arrays,
    chosen: Chosen,
    starts: Vec<Params>,
    at: [f64; 72],
}

fn case(random: &mut Random, n: usize, with_altitude: bool) -> Option<Case> {
    let scene = sky::sound(random, n, with_altitude).scene;
    let (problem, arrays) = (scene.problem(), parts::arrays(&scene));
    let subset: Vec<usize> = (0..n).collect();
    let factor = problem.whitener(&subset)?;
    let mut l = [0.0; 1024];
    l[..n * n].copy_from_slice(&factor.l);
    let (chosen, starts) = (parts::chosen(&problem, &subset), problem.starts(&subset));
    let at = port::list(&starts);
    Some(Case { problem, subset, factor, l, arrays, chosen, starts, at })
}

fn nanoseconds(call: impl FnOnce()) -> f64 {
    let start = Instant::now();
    call();
    start.elapsed().as_nanos() as f64
}

/// The least times of both, the Rust first, by turns.
fn least(rust: impl Fn(), port: impl Fn()) -> (f64, f64) {
    let mut best = (f64::MAX, f64::MAX);
    for _ in 0..RUNS {
        best.0 = best.0.min(nanoseconds(&rust));
        best.1 = best.1.min(nanoseconds(&port));
    }
    best
}

impl Case {
    /// One damped fit from each start.
    fn fits(&self) -> (f64, f64) {
        let altitude = (self.arrays.kind, self.arrays.metres);
        let rust = || {
            for start in &self.starts {
                black_box(self.problem.levenberg_marquardt(&self.subset, &self.factor, *black_box(start)));
            }
        };
        let port = || {
            for start in &self.starts {
                black_box(port::levenberg_marquardt(&self.chosen, &self.l, altitude, black_box(start)));
            }
        };
        least(rust, port)
    }

    /// The best fit from all starts.
    fn best(&self) -> (f64, f64) {
        let rust = || {
            black_box(self.problem.best_fit(&self.subset, black_box(&self.starts)).ok());
        };
        let port = || {
            black_box(port::best_fit(&self.arrays, &self.chosen, black_box(&self.at), self.starts.len()));
        };
        least(rust, port)
    }
}

fn print(n: usize, with_altitude: bool, what: &str, calls: usize, times: impl Iterator<Item = (f64, f64)>) {
    let all = times.fold((0.0, 0.0), |sum, of| (sum.0 + of.0, sum.1 + of.1));
    let altitude = if with_altitude { "with altitude" } else { "without altitude" };
    let (rust, port) = (all.0 / calls as f64, all.1 / calls as f64);
    println!("n = {n:<3} {altitude:<18} {what:<20} port {port:>8.0} ns, Rust {rust:>8.0} ns, ratio {:.2}", port / rust);
}

pub fn main() {
    let mut random = Random::new(7);
    for (n, with_altitude) in CLASSES {
        let cases: Vec<Case> = std::iter::repeat_with(|| case(&mut random, n, with_altitude)).flatten().take(PROBLEMS).collect();
        let fits = cases.iter().map(|case| case.starts.len()).sum();
        print(n, with_altitude, "levenberg_marquardt", fits, cases.iter().map(Case::fits));
        print(n, with_altitude, "best_fit", cases.len(), cases.iter().map(Case::best));
    }
}
