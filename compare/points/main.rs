//! Runs the port's starts and those of solve.rs on the same problems, and compares their number and every float of each, by bits. All not-a-numbers count as one
//! value. What the arrays hold past the receptions is a mark, which no start may show, and past the starts there are zeros.

use oracle::kinds::SCENES;
use oracle::parts::{self, bits, Chosen};
use oracle::random::Random;
use oracle::solve::Problem;
use std::hint::black_box;
use std::time::Instant;

extern "C" {
    #[rustfmt::skip]
    fn starts_of(had: bool, previous: &[f64; 4], sites: &[f64; 96], z: &[f64; 32], k: usize, kind: u8, metres: f64, at: &mut [f64; 72]) -> usize;
    fn point_of(at: &[f64; 72], k: usize, params: &mut [f64; 4]);
}

/// How a problem's numbers are changed after its kind has made them, within the domain and outside it.
const CHANGES: [&str; 7] =
    ["as made", "a site or time special", "numbers of any bits", "one site for all", "times all alike", "all times a power of ten", "each axis times a power of ten"];

#[derive(Default)]
struct Tally {
    problems: [u64; SCENES.len()],
    starts: u64,
    /// By how many receptions a problem has.
    sizes: Vec<u64>,
    /// How many roots Bancroft's form gave, of those with four receptions or more.
    roots: [u64; 3],
    floats: u64,
    differences: u64,
}

fn special(random: &mut Random) -> f64 {
    random.of(&[0.0, -0.0, 1.0, f64::INFINITY, f64::NEG_INFINITY, f64::NAN, f64::MAX, f64::MIN_POSITIVE, 5e-324, 1e200, -1e-200])
}

fn change(random: &mut Random, how: usize, problem: &mut Problem) {
    let n = problem.items.len();
    if n == 0 {
        return;
    }
    match how {
        1 => {
            let (i, axis, value) = (random.below(n), random.below(4), special(random));
            *part(problem, i, axis) = value;
        }
        2 => (0..n).for_each(|i| (0..4).for_each(|axis| *part(problem, i, axis) = f64::from_bits(random.bits()))),
        3 => (1..n).for_each(|i| problem.items[i].site = problem.items[0].site),
        4 => (1..n).for_each(|i| problem.items[i].z = problem.items[0].z),
        5 => {
            let by = random.decades(-160, 160);
            (0..4).for_each(|axis| scale(problem, axis, by));
        }
        6 => (0..4).for_each(|axis| scale(problem, axis, random.decades(-40, 40))),
        _ => {}
    }
    if random.one_in(8) {
        if let Some(altitude) = &mut problem.altitude {
            altitude.1 = special(random);
        }
    }
}

fn part(problem: &mut Problem, i: usize, axis: usize) -> &mut f64 {
    let item = &mut problem.items[i];
    if axis < 3 { &mut item.site[axis] } else { &mut item.z }
}

fn scale(problem: &mut Problem, axis: usize, by: f64) {
    (0..problem.items.len()).for_each(|i| *part(problem, i, axis) *= by);
}

fn port(chosen: &Chosen, previous: Option<[f64; 4]>, kind: u8, metres: f64) -> ([f64; 72], usize) {
    let mut at = [parts::MARK; 72];
    let n = unsafe { starts_of(previous.is_some(), &previous.unwrap_or([parts::MARK; 4]), &chosen.sites, &chosen.z, chosen.k, kind, metres, &mut at) };
    (at, n)
}

impl Tally {
    fn same(&mut self, what: &str, k: usize, port: f64, rust: f64) {
        self.floats += 1;
        if bits(port) != bits(rust) {
            self.differences += 1;
            if self.differences <= 20 {
                println!("{what}, {k} receptions: {port:e}, and the Rust has {rust:e}");
            }
        }
    }

    fn turn(&mut self, random: &mut Random, turn: usize) {
        let kind = turn % SCENES.len();
        let scene = SCENES[kind].1(random);
        let mut problem = scene.problem();
        let how = if random.one_in(2) { 1 + random.below(CHANGES.len() - 1) } else { 0 };
        change(random, how, &mut problem);
        let subset = match random.below(3) {
            0 => parts::subset(random, scene.n()),
            1 => (0..scene.n().min(random.below(6))).collect(),
            _ => (0..scene.n()).collect::<Vec<usize>>(),
        };
        let previous = random.one_in(2).then(|| [0, 1, 2, 3].map(|_| if random.one_in(4) { special(random) } else { random.within(7e6) }));
        let rust = parts::starts(&problem, &subset, previous);
        let chosen = parts::chosen(&problem, &subset);
        let k = chosen.k;
        let (at, n) = port(&chosen, previous, scene.altitude.map_or(0, |(kind, _)| kind), problem.altitude.as_ref().map_or(0.0, |altitude| altitude.1));
        self.problems[kind] += 1;
        self.sizes[k] += 1;
        self.starts += rust.len() as u64;
        if k >= 4 {
            self.roots[parts::bancroft(&problem, &subset).len()] += 1;
        }
        self.same("how many", k, n as f64, rust.len() as f64);
        for (i, params) in rust.iter().enumerate() {
            let mut point = [parts::MARK; 4];
            unsafe { point_of(&at, i, &mut point) };
            for axis in 0..4 {
                self.same(&format!("{}, {}: start {i}, component {axis}", SCENES[kind].0, CHANGES[how]), k, point[axis], params[axis]);
            }
        }
        for rest in &at[4 * rust.len()..] {
            self.same("past the starts", k, *rest, 0.0);
        }
    }

    fn report(&self) {
        for (kind, (name, _)) in SCENES.iter().enumerate() {
            println!("{name:<40} {:>8}", self.problems[kind]);
        }
        println!("problems of 0 to 32 receptions: {:?}", self.sizes);
        let [none, one, two] = self.roots;
        println!("with four or more: {none} without a root, {one} with one, {two} with two");
        let all: u64 = self.problems.iter().sum();
        println!("{all} problems, {} starts, {} floats, {} differences", self.starts, self.floats, self.differences);
    }
}

/// Nanoseconds a call, the least of many short runs.
fn least(calls: usize, mut call: impl FnMut()) -> f64 {
    (0..1_000).fold(f64::MAX, |best, _| {
        let start = Instant::now();
        (0..calls).for_each(|_| call());
        best.min(start.elapsed().as_nanos() as f64 / calls as f64)
    })
}

fn times() {
    for (n, calls) in [(3, 10), (4, 100), (8, 100), (16, 50), (32, 50)] {
        let scene = oracle::sky::sound(&mut Random::new(1), n, true).scene;
        let problem = scene.problem();
        let subset: Vec<usize> = (0..n).collect();
        let chosen = parts::chosen(&problem, &subset);
        let metres = problem.altitude.as_ref().map_or(0.0, |altitude| altitude.1);
        let rust = least(calls, || {
            black_box(parts::starts(black_box(&problem), &subset, None));
        });
        let port = least(calls, || {
            black_box(port(black_box(&chosen), None, 1, metres));
        });
        println!("n = {n:<3} port {port:>8.0} ns, Rust {rust:>8.0} ns, ratio {:.2}", port / rust);
    }
}

fn main() {
    let words: Vec<String> = std::env::args().skip(1).collect();
    if words.first().is_some_and(|word| word == "--time") {
        return times();
    }
    let number = |k: usize, other: u64| words.get(k).map_or(other, |word| word.parse().expect("a number"));
    let (problems, seed) = (number(0, 210_000), number(1, 1));
    let mut random = Random::new(seed);
    let mut tally = Tally { sizes: vec![0; 33], ..Tally::default() };
    for turn in 0..problems {
        tally.turn(&mut random, turn as usize);
        if (turn + 1) % problems.div_ceil(50) == 0 {
            eprint!("\r{:>3}% of {problems}, {} differences ", (turn + 1) * 100 / problems, tally.differences);
        }
    }
    eprintln!();
    tally.report();
    if tally.differences > 0 {
        std::process::exit(1);
    }
}
