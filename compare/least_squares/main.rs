//! Runs whitening, damped and best and the Rust that they are ported from on the same problems, and compares every entry that either writes, by bits. All
//! not-a-numbers count as one value. What a function must leave alone holds a mark, which is looked at too.

mod best;
mod port;
mod timing;

use oracle::kinds::SCENES;
use oracle::linalg::Cholesky;
use oracle::parts::{self, Arrays, Chosen, MARK, Rows};
use oracle::random::Random;
use oracle::solve::{Params, Problem};

/// Starts of the Rust's own that a problem is fitted from, and others.
const OWN: usize = 3;
const OTHERS: usize = 2;

#[derive(Default)]
struct Tally {
    problems: [u64; SCENES.len()],
    refused: [u64; SCENES.len()],
    fits: [u64; SCENES.len()],
    converged: [u64; SCENES.len()],
    /// Of best_fit, by document 01's number; 0 is a fit.
    answers: [u64; 10],
    /// How many lists of starts began with what a round before had found.
    last_rounds: u64,
    /// How many places were not plausible, and how many were.
    plausible: [u64; 2],
    calls: u64,
    entries: u64,
    differences: u64,
}

fn filled<const N: usize>(values: &[f64], rest: f64) -> [f64; N] {
    let mut all = [rest; N];
    all[..values.len()].copy_from_slice(values);
    all
}

/// A place and a time that no start need be: about a start, on a site, or any numbers at all.
fn other(random: &mut Random, start: Params, chosen: &Chosen) -> Params {
    match random.below(8) {
        0 => {
            let i = random.below(chosen.k);
            [chosen.sites[3 * i], chosen.sites[3 * i + 1], chosen.sites[3 * i + 2], start[3]]
        }
        1 => [0; 4].map(|_: i32| f64::from_bits(random.bits())),
        2 => [0; 4].map(|_: i32| random.of(&[0.0, -0.0, f64::INFINITY, f64::NAN, 1e300, 6.4e6])),
        _ => {
            let size = random.decades(0, 6);
            start.map(|value| value + random.within(size))
        }
    }
}

impl Tally {
    fn array(&mut self, what: &str, problem: u64, port: &[f64], rust: &[f64]) {
        self.calls += 1;
        for (k, (value, wanted)) in port.iter().zip(rust).enumerate() {
            self.entries += 1;
            if parts::bits(*value) != parts::bits(*wanted) {
                self.differences += 1;
                if self.differences <= 20 {
                    println!("{what} of problem {problem}, entry {k}: {value:e}, and the Rust has {wanted:e}");
                }
            }
        }
    }

    fn number(&mut self, what: &str, problem: u64, port: f64, rust: f64) {
        self.array(what, problem, &[port], &[rust]);
    }

    fn verdict(&mut self, what: &str, problem: u64, port: bool, rust: bool) {
        self.number(what, problem, f64::from(u8::from(port)), f64::from(u8::from(rust)));
    }

    /// The covariance, the factor and each standard deviation.
    fn timing(&mut self, at: u64, problem: &Problem, arrays: &Arrays, chosen: &Chosen, subset: &[usize], factor: Option<&Cholesky>) {
        let Arrays { n, clock_m2, noise_m2, .. } = arrays;
        let mut sigma = [MARK; 1024];
        unsafe { port::fit_covariance(clock_m2, *n, noise_m2, &chosen.index, chosen.k, &mut sigma) };
        self.array("covariance", at, &sigma, &filled::<1024>(&problem.covariance(subset).data, 0.0));
        let mut l = [0.0; 1024];
        let found = unsafe { port::fit_whitener(clock_m2, *n, noise_m2, &chosen.index, chosen.k, &mut l) };
        self.verdict("whitener", at, found, factor.is_some());
        if let Some(factor) = factor {
            self.array("whitener", at, &l, &filled::<1024>(&factor.l, 0.0));
        }
        let mut sigmas = [MARK; 32];
        unsafe { port::fit_sigmas(clock_m2, *n, noise_m2, &mut sigmas) };
        for (i, sigma) in sigmas.iter().take(*n).enumerate() {
            self.number("sigma", at, *sigma, problem.sigma(i));
        }
    }

    fn residuals(&mut self, at: u64, problem: &Problem, chosen: &Chosen, subset: &[usize], params: &Params) {
        let mut ranges = [MARK; 32];
        unsafe { port::fit_ranges(&chosen.sites, chosen.k, params, &mut ranges) };
        for (i, index) in subset.iter().enumerate() {
            self.number("residual", at, chosen.z[i] - params[3] - ranges[i], problem.residual(*index, params));
        }
    }

    /// The whitened rows at the parameters, and the normal equations of them.
    fn equations(&mut self, at: u64, chosen: &Chosen, l: &[f64; 1024], altitude: (u8, f64), params: &Params, rust: &Rows) {
        let mut rows = [[0.0; 33]; 5];
        let [r, a, b, c, d] = &mut rows;
        let (kind, metres) = (u32::from(altitude.0), altitude.1);
        let count = unsafe { port::fit_whitened(&chosen.sites, &chosen.z, chosen.k, l, kind, metres, params, r, a, b, c, d) };
        self.verdict("rows", at, count == rust.residuals.len(), true);
        self.array("residuals", at, r, &filled::<33>(&rust.residuals, 0.0));
        for (column, wanted) in [&*a, &*b, &*c, &*d].into_iter().zip(&rust.columns) {
            self.array("slopes", at, column, &filled::<33>(wanted, 0.0));
        }
        let (mut information, mut gradient) = ([MARK; 16], [MARK; 4]);
        let cost = unsafe { port::fit_normal(r, a, b, c, d, count, &mut information, &mut gradient) };
        let wanted = parts::normal(rust);
        self.array("information", at, &information, &wanted.0);
        self.array("gradient", at, &gradient, &wanted.1);
        self.number("cost", at, cost, wanted.2);
    }

    fn fit(&mut self, at: u64, kind: usize, chosen: &Chosen, l: &[f64; 1024], altitude: (u8, f64), start: &Params, rust: Option<&oracle::solve::Fit>) {
        let (ok, fit) = port::levenberg_marquardt(chosen, l, altitude, start);
        self.fits[kind] += 1;
        self.converged[kind] += u64::from(rust.is_some());
        self.verdict("levenberg_marquardt", at, ok, rust.is_some());
        let nothing = ([0.0; 4], 0.0, vec![0.0; 16]);
        let (params, cost, information) = rust.map_or(nothing, |fit| (fit.params, fit.cost, fit.information.data.clone()));
        self.array("params", at, &fit.params, &params);
        self.number("cost of a fit", at, fit.cost, cost);
        self.array("information of a fit", at, &fit.information, &information);
    }

    fn problem(&mut self, at: u64, seed: u64) {
        let mut random = Random::of_problem(seed, at);
        let kind = at as usize % SCENES.len();
        let scene = SCENES[kind].1(&mut random);
        let subset = parts::subset(&mut random, scene.n());
        if scene.clock.is_none() || subset.is_empty() {
            return;
        }
        let (problem, arrays) = (scene.problem(), parts::arrays(&scene));
        let chosen = parts::chosen(&problem, &subset);
        let altitude = (arrays.kind, arrays.metres);
        self.problems[kind] += 1;
        let factor = problem.whitener(&subset);
        self.timing(at, &problem, &arrays, &chosen, &subset, factor.as_ref());
        self.best(at, &mut random.clone(), &problem, &arrays, &chosen, &subset);
        let Some(factor) = factor else {
            self.refused[kind] += 1;
            return;
        };
        let l = filled::<1024>(&factor.l, MARK);
        let own = problem.starts(&subset);
        let mut starts: Vec<Params> = own.iter().copied().take(OWN).collect();
        for _ in 0..OTHERS {
            let near = own[random.below(own.len())];
            starts.push(other(&mut random, near, &chosen));
        }
        for start in &starts {
            self.residuals(at, &problem, &chosen, &subset, start);
            if let Some(rows) = parts::whitened(&problem, &subset, start) {
                self.equations(at, &chosen, &l, altitude, start, &rows);
            }
            let rust = problem.levenberg_marquardt(&subset, &factor, *start);
            self.fit(at, kind, &chosen, &l, altitude, start, rust.as_ref());
        }
    }

    fn report(&self) {
        for (kind, (name, _)) in SCENES.iter().enumerate() {
            let (all, refused, fits, converged) = (self.problems[kind], self.refused[kind], self.fits[kind], self.converged[kind]);
            println!("{name:<34} {all:>8} problems, {refused:>7} without a factor; {fits:>9} fits, {converged:>9} converged");
        }
        let sum = |of: &[u64]| of.iter().sum::<u64>();
        println!("{} problems, {} fits, {} of them converged", sum(&self.problems), sum(&self.fits), sum(&self.converged));
        let [found, _, no_convergence, out_of_range, _, _, singular, _, ambiguous, _] = self.answers;
        println!(
            "best_fit: {found} fits; refused {no_convergence} as 2, {out_of_range} as 3, {singular} as 6, {ambiguous} as 8; {} after a round that found a fit",
            self.last_rounds
        );
        println!("plausible: {} places are, {} are not", self.plausible[1], self.plausible[0]);
        println!("{} calls, {} entries, {} differences", self.calls, self.entries, self.differences);
    }
}

fn main() {
    let words: Vec<String> = std::env::args().skip(1).collect();
    if words.first().is_some_and(|word| word == "--time") {
        return timing::main();
    }
    let number = |k: usize, other: u64| words.get(k).map_or(other, |word| word.parse().expect("a number"));
    let (problems, seed) = (number(0, 200_000), number(1, 1));
    let mut tally = Tally::default();
    for at in 0..problems {
        tally.problem(at, seed);
        if (at + 1) % problems.div_ceil(50) == 0 {
            eprint!("\r{:>3}% of {problems}, {} differences ", (at + 1) * 100 / problems, tally.differences);
        }
    }
    eprintln!();
    tally.report();
    if tally.differences > 0 {
        std::process::exit(1);
    }
}
