//! The port's states of receptions beside the oracle's. Built and run by compare/why.

#[allow(dead_code)] // the list of structs is not asked here
mod port_solve;
mod port_why;

use oracle::corrections;
use oracle::damage::{self, KINDS};
use oracle::random::Random;
use oracle::record::SHORT_OUTPUT;
use oracle::scene::Files;
use oracle::why::{self, LEAST, LENGTH, State};
use std::io::Write;
use std::time::Instant;

const ANSWERS: usize = 16;

/// Every second input is of these kinds: outliers, few receptions beside outliers, screened ones, correlated clocks with outliers.
const TELLING: [usize; 5] = [2, 3, 4, 4, 11];

#[derive(Default)]
struct Tally {
    answers: [u64; ANSWERS],
    used: u64,
    removed: u64,
    left_out: u64,
    /// Solved problems with a removed reception, and with a left out one.
    screened: u64,
    outliers: u64,
    differences: u64,
}

impl Tally {
    fn differs(&mut self, k: u64, kind: usize, files: &Files, what: &str) {
        self.differences += 1;
        if self.differences <= 20 {
            let folder = format!("target/compare/why/input-{k}");
            println!("input {k}, {}: {what}; kept in {folder}", damage::name(kind));
            keep(&folder, files).unwrap_or_else(|error| println!("{folder}: {error}"));
        }
    }

    fn count(&mut self, told: &why::Told) {
        self.answers[told.number as usize] += 1;
        let removed = told.states.iter().filter(|state| matches!(state, State::Removed { .. })).count() as u64;
        let left_out = told.states.iter().filter(|state| matches!(state, State::LeftOut(_))).count() as u64;
        self.used += told.states.len() as u64 - removed - left_out;
        self.removed += removed;
        self.left_out += left_out;
        self.screened += u64::from(removed > 0);
        self.outliers += u64::from(left_out > 0);
    }

    /// One input, every third with a corrected altitude: a buffer longer than 640 bytes by `k` modulo 40, a short one of `k` modulo 640, and `mlat_solve` on the same bytes.
    fn turn(&mut self, seed: u64, k: u64) {
        let kind = if k % 2 == 0 { TELLING[(k / 2) as usize % TELLING.len()] } else { (k / 2) as usize % KINDS };
        let mut random = Random::of_problem(seed, k);
        let mut files = damage::files(&mut random, kind);
        if k % 3 == 0 {
            corrections::correct(&mut random, &mut files);
        }
        let given = files.clone();
        let told = why::told(&files);
        self.count(&told);

        let spare = random.bits().to_le_bytes();
        let spare = &spare[..random.below(9)];
        let more = random.bits() as u32 & 0xFFFF;
        let found_detail = random.bits() as u32;
        let before: Vec<u8> = (0..LEAST + k as usize % 40).map(|_| random.bits() as u8).collect();
        let mut wanted = before.clone();
        for (i, state) in told.states.iter().enumerate() {
            wanted[LENGTH * i..LENGTH * (i + 1)].copy_from_slice(&why::bytes(*state));
        }
        let (mut out, mut detail) = (before.clone(), found_detail);
        let answer = port_why::why(&files, spare, more, &mut out, &mut detail);
        if (answer, detail) != (told.number, told.detail) {
            self.differs(k, kind, &files, &format!("answer {answer}, {detail}, oracle {}, {}", told.number, told.detail));
        } else if let Some(at) = (0..out.len()).find(|at| out[*at] != wanted[*at]) {
            self.differs(k, kind, &files, &format!("byte {at} is {:02x}, oracle {:02x}", out[at], wanted[at]));
        }
        let short = (k as usize / 2 * 7 + 639) % LEAST;
        let (mut out, mut detail) = (before[..short].to_vec(), found_detail);
        let answer = port_why::why(&files, spare, more, &mut out, &mut detail);
        if answer != SHORT_OUTPUT || out != before[..short] || detail != found_detail {
            self.differs(k, kind, &files, &format!("a buffer of {short} bytes gives {answer}"));
        }
        self.beside_solve(k, kind, &files, &told);
        if files != given {
            self.differs(k, kind, &given, "an input changed");
        }
    }

    /// The record of the same bytes has the answer, the detail and the used receptions.
    fn beside_solve(&mut self, k: u64, kind: usize, files: &Files, told: &why::Told) {
        let mut record = [0; 176];
        let answer = port_solve::solve(files, &[], 0, &mut record);
        let word = |at: usize| u32::from_le_bytes([record[at], record[at + 1], record[at + 2], record[at + 3]]);
        let used = |i: &usize| matches!(told.states[*i], State::Used(_));
        let mask = (0..told.states.len()).filter(used).fold(0u32, |mask, i| mask | 1 << i);
        if (answer, word(4), word(12)) != (told.number, told.detail, mask) {
            self.differs(k, kind, files, "the record of the solve says otherwise");
        }
    }

    fn report(&self, count: u64) {
        for (answer, count) in self.answers.iter().enumerate().filter(|(answer, _)| *answer != SHORT_OUTPUT as usize) {
            println!("answer {answer:>2}: {count}");
        }
        println!("solved with a removed reception: {}, with a left out one: {}", self.screened, self.outliers);
        println!("states: {} used, {} removed, {} left out", self.used, self.removed, self.left_out);
        println!("{count} inputs, {} of them solved, {} differences", self.answers[0], self.differences);
    }
}

/// The files that are there, in a folder of their own.
fn keep(folder: &str, files: &Files) -> std::io::Result<()> {
    std::fs::create_dir_all(folder)?;
    let all = [("receptions", &files.receptions), ("clock", &files.clock), ("altitude", &files.altitude), ("reference", &files.reference)];
    for (name, file) in all {
        if let Some(bytes) = file {
            std::fs::write(format!("{folder}/{name}.bin"), bytes)?;
        }
    }
    Ok(())
}

fn main() {
    let words: Vec<u64> = std::env::args().skip(1).map(|word| word.parse().expect("COUNT and SEED are numbers")).collect();
    let wanted = words.first().copied().unwrap_or(500_000);
    let seed = words.get(1).copied().unwrap_or(1);
    let start = Instant::now();
    let mut tally = Tally::default();
    let mut k = 0;
    while tally.answers[0] < wanted {
        tally.turn(seed, k);
        k += 1;
        if k % wanted.div_ceil(25) == 0 {
            eprint!("\r{} of {wanted} solved, {} differences, {:.0} s ", tally.answers[0], tally.differences, start.elapsed().as_secs_f64());
            std::io::stderr().flush().ok();
        }
    }
    eprintln!();
    tally.report(k);
    std::process::exit((tally.differences > 0) as i32);
}
