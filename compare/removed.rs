//! The port's solve on pairs of problems that differ in what the screen removes. Built and run by compare/removed.

mod port_solve;

use oracle::kinds::SCENES;
use oracle::random::Random;
use oracle::record::LENGTH;
use oracle::scene::{Files, Scene};
use std::io::Write;
use std::time::Instant;

const ANSWERS: usize = 16;
const LAST_TIME: i64 = 10_000_000_000_000;
const FARTHEST_Z: f64 = 3e9;

/// The port's two calls.
type Solve = fn(&Files, &[u8], u32, &mut [u8]) -> u32;
const WAYS: [(&str, Solve); 2] = [("", port_solve::solve), ("as a list of structs, ", port_solve::solve_receptions)];

/// What of the removed receptions is made to differ.
const CHANGES: [&str; 6] = [
    "z, noise and clock entries of all",
    "z of one",
    "noise of one",
    "clock entries of one",
    "clock entries left of the diagonal",
    "all of these",
];

/// A problem of any kind, of which some receptions are heard up to 40 ms earlier or later.
fn scene(random: &mut Random, kind: usize) -> Scene {
    let mut scene = SCENES[kind].1(random);
    for _ in 0..random.below(5).min(scene.n()) {
        let i = random.below(scene.n());
        let by = random.whole(-40_000_000_000, 40_000_000_000);
        scene.receptions[i].time = (scene.receptions[i].time + by).clamp(0, LAST_TIME);
    }
    scene
}

/// The indices that solve.rs's `screen` removes.
fn removed(scene: &Scene) -> Vec<usize> {
    let kept = scene.problem().screen();
    (0..scene.n()).filter(|i| !kept.contains(i)).collect()
}

/// Of the domain: by its value, by its size, or an end.
fn any(random: &mut Random, low: f64, high: f64) -> f64 {
    match random.below(3) {
        0 => random.between(low, high),
        1 => random.decades(-6, 11).clamp(low, high),
        _ => random.of(&[low, high, low.max(0.0), high / 2.0]),
    }
}

/// Entries on and right of the diagonal that belong to one of `of`.
fn entries(random: &mut Random, clock: &mut [f64], n: usize, of: &[usize]) {
    for i in 0..n {
        for j in i..n {
            if of.contains(&i) || of.contains(&j) {
                let size = random.of(&[1.0, 1e6, 1e12]);
                clock[i * n + j] = any(random, if i == j { 0.0 } else { -size }, size);
            }
        }
    }
}

/// Any 64 bits, numbers or not.
fn left_of_diagonal(random: &mut Random, clock: &mut [f64], n: usize) {
    for i in 0..n {
        for j in 0..i {
            let bits = random.bits();
            clock[i * n + j] = f64::from_bits(random.of(&[bits, f64::NAN.to_bits(), f64::INFINITY.to_bits(), 1 << 63]));
        }
    }
}

/// The problem with those values changed.
fn changed(random: &mut Random, scene: &Scene, removed: &[usize], what: usize) -> Scene {
    let mut other = scene.clone();
    let n = other.n();
    let one = [random.of(removed)];
    let of: &[usize] = if matches!(what, 0 | 5) { removed } else { &one };
    for i in of {
        let r = &mut other.receptions[*i];
        if matches!(what, 0 | 1 | 5) {
            r.z = any(random, 0.0, FARTHEST_Z);
        }
        if matches!(what, 0 | 2 | 5) {
            r.noise = any(random, 1e-6, 1e12);
        }
    }
    let clock = other.clock.as_mut().expect("a valid problem has clock entries");
    if matches!(what, 0 | 3 | 5) {
        entries(random, clock, n, of);
    }
    if matches!(what, 4 | 5) {
        left_of_diagonal(random, clock, n);
    }
    other
}

/// Reception i off in z by its deviation.
fn off(scene: &Scene, i: usize) -> Scene {
    let mut other = scene.clone();
    let n = other.n();
    let clock = other.clock.as_ref().map_or(0.0, |entries| entries[i * n + i]);
    let r = &mut other.receptions[i];
    let deviation = (r.noise + clock).sqrt();
    r.z = if r.z + deviation <= FARTHEST_Z { r.z + deviation } else { r.z - deviation };
    other
}

/// The receptions that a fix uses: "used mask" of document 01's table.
fn used(record: &[u8]) -> Vec<usize> {
    let mask = u32::from_le_bytes(record[12..16].try_into().expect("four bytes"));
    (0..32).filter(|i| mask >> i & 1 == 1).collect()
}

#[derive(Default)]
struct Tally {
    answers: [u64; ANSWERS],
    changes: [u64; CHANGES.len()],
    removed: u64,
    differences: u64,
    off: u64,
    shown: u64,
}

impl Tally {
    fn differs(&mut self, k: u64, what: &str) {
        self.differences += 1;
        if self.differences <= 20 {
            println!("problem {k}: {what}");
        }
    }

    /// The k-th problem, and whether it makes a pair: it is valid, the screen removes some, and the other one differs.
    fn turn(&mut self, seed: u64, k: u64) -> bool {
        let mut random = Random::of_problem(seed, k);
        let scene = scene(&mut random, k as usize % SCENES.len());
        let removed = removed(&scene);
        let files = scene.files();
        if removed.is_empty() || scene.clock.is_none() || oracle::input::read(&files).is_err() {
            return false;
        }
        let what = random.below(CHANGES.len());
        let others = changed(&mut random, &scene, &removed, what).files();
        if others == files || oracle::input::read(&others).is_err() {
            return false;
        }
        let before: Vec<u8> = (0..LENGTH + k as usize % 40).map(|_| random.bits() as u8).collect();
        let run = |solve: Solve, files: &Files| {
            let mut out = before.clone();
            (solve(files, &[], 0, &mut out), out)
        };
        let found = run(port_solve::solve, &files);
        for (way, solve) in WAYS {
            let other = run(solve, &others);
            if other != found {
                let answers = format!("answer {}, then {}", found.0, other.0);
                self.differs(k, &format!("{way}{} differ: {answers}", CHANGES[what]));
            }
        }
        self.answers[found.0 as usize] += 1;
        self.changes[what] += 1;
        self.removed += removed.len() as u64;
        if found.0 == 0 {
            let i = random.of(&used(&found.1));
            self.off += 1;
            self.shown += u64::from(run(port_solve::solve, &off(&scene, i).files()) != found);
        }
        true
    }

    fn report(&self, pairs: u64) {
        for (what, count) in CHANGES.iter().zip(self.changes) {
            println!("{count:>8} pairs differ in: {what}");
        }
        for answer in (0..ANSWERS).filter(|answer| self.answers[*answer] > 0) {
            println!("{:>8} pairs have the answer {answer}", self.answers[answer]);
        }
        println!("{} receptions removed, of {pairs} pairs", self.removed);
        println!("{} fixes with z of a used reception off by its deviation, {} of them show it", self.off, self.shown);
        println!("{pairs} pairs, {} differences", self.differences);
    }
}

fn main() {
    let number = |word: String| word.parse().expect("COUNT and SEED are numbers");
    let words: Vec<u64> = std::env::args().skip(1).map(number).collect();
    let count = words.first().copied().unwrap_or(200_000);
    let seed = words.get(1).copied().unwrap_or(1);
    let start = Instant::now();
    let mut tally = Tally::default();
    let (mut k, mut pairs) = (0, 0);
    while pairs < count {
        pairs += u64::from(tally.turn(seed, k));
        k += 1;
        if k % 5_000 == 0 {
            let seconds = start.elapsed().as_secs_f64();
            eprint!("\r{pairs} of {count} pairs, {} differences, {seconds:.0} s ", tally.differences);
            std::io::stderr().flush().ok();
        }
    }
    eprintln!();
    tally.report(pairs);
    std::process::exit((tally.differences > 0 || tally.shown < tally.off) as i32);
}
