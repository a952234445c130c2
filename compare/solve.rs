//! The port's solve beside the original's on inputs of every kind. Built and run by compare/solve.

mod port_solve;

use oracle::corrections;
use oracle::damage::{self, KINDS};
use oracle::random::Random;
use oracle::record::{self, LENGTH, SHORT_OUTPUT};
use oracle::scene::{Files, RECEPTION, Scene};
use std::io::Write;
use std::time::Instant;

const ANSWERS: usize = 16;

/// The port's two calls. A list of structs is never torn.
type Solve = fn(&Files, &[u8], u32, &mut [u8]) -> u32;
const WAYS: [(&str, Solve); 2] = [("", port_solve::solve), ("as a list of structs, ", port_solve::solve_receptions)];

struct Tally {
    answers: [[u64; ANSWERS]; KINDS],
    listed: u64,
    differences: u64,
}

impl Tally {
    fn differs(&mut self, k: u64, kind: usize, files: &Files, what: &str) {
        self.differences += 1;
        if self.differences <= 20 {
            let folder = format!("target/compare/solve/input-{k}");
            println!("input {k}, {}: {what}; kept in {folder}", damage::name(kind));
            keep(&folder, files).unwrap_or_else(|error| println!("{folder}: {error}"));
        }
    }

    /// One input, by each call that can take it: a whole output, longer than the record by `k` modulo 40, and a short one of `k` modulo 176 bytes.
    fn turn(&mut self, seed: u64, k: u64) {
        let kind = (k % KINDS as u64) as usize;
        let mut random = Random::of_problem(seed, k);
        let mut files = damage::files(&mut random, kind);
        if cfg!(corrected) {
            corrections::correct(&mut random, &mut files);
        }
        let given = files.clone();
        let (answer, record) = record::record(&files);
        self.answers[kind][answer as usize] += 1;

        let spare = random.bits().to_le_bytes();
        let spare = &spare[..random.below(9)];
        let more = random.bits() as u32 & 0xFFFF;
        let before: Vec<u8> = (0..LENGTH + k as usize % 40).map(|_| random.bits() as u8).collect();
        let torn = files.receptions.as_ref().is_some_and(|bytes| bytes.len() % RECEPTION != 0);
        for (way, solve) in &WAYS[..if torn { 1 } else { 2 }] {
            let mut out = before.clone();
            let found = solve(&files, spare, more, &mut out);
            if found != answer {
                self.differs(k, kind, &files, &format!("{way}answer {found}, original {answer}"));
            } else if let Some(at) = (0..LENGTH).find(|at| out[*at] != record[*at]) {
                self.differs(k, kind, &files, &format!("{way}answer {answer}, byte {at} is {:02x}, original {:02x}", out[at], record[at]));
            }
            if out[LENGTH..] != before[LENGTH..] {
                self.differs(k, kind, &files, &format!("{way}bytes past the record changed"));
            }
            let short = k as usize / KINDS % LENGTH;
            let mut out = before[..short].to_vec();
            let found = solve(&files, spare, more, &mut out);
            if found != SHORT_OUTPUT || out != before[..short] {
                self.differs(k, kind, &files, &format!("{way}an output of {short} bytes gives {found}"));
            }
        }
        self.listed += u64::from(!torn);
        if files != given {
            self.differs(k, kind, &given, "an input changed");
        }
    }

    fn report(&self, count: u64) {
        let sum = |answer: usize| self.answers.iter().map(|row| row[answer]).sum::<u64>();
        let line = |name: &str, row: &dyn Fn(usize) -> u64| {
            print!("{name:<34}");
            (0..ANSWERS).for_each(|answer| print!(" {:>7}", row(answer)));
            println!();
        };
        line("answer", &|answer| answer as u64);
        for kind in 0..KINDS {
            line(damage::name(kind), &|answer| self.answers[kind][answer]);
        }
        line("all", &sum);
        for answer in (0..ANSWERS).filter(|answer| *answer != SHORT_OUTPUT as usize && sum(*answer) == 0) {
            println!("answer {answer} was not reached");
        }
        println!("{count} inputs, {} of them as a list of structs too, {} differences", self.listed, self.differences);
    }
}

/// The files that are there, in a folder of their own.
fn keep(folder: &str, files: &Files) -> std::io::Result<()> {
    std::fs::create_dir_all(folder)?;
    let all = [("receptions", &files.receptions), ("clock", &files.clock), ("altitude", &files.altitude), ("reference", &files.reference)];
    for (name, file) in all {
        if let Some(bytes) = file {
            std::fs::write(format!("{folder}/{name}.bin"), bytes)?;
        }
    }
    Ok(())
}

fn main() {
    let words: Vec<u64> = std::env::args().skip(1).map(|word| word.parse().expect("COUNT and SEED are numbers")).collect();
    let count = words.first().copied().unwrap_or(2_000_000);
    let seed = words.get(1).copied().unwrap_or(1);
    let nowhere = Scene::default().problem().plausible(&[], &[f64::NAN; 4]);
    println!("in the original as it stands, a fit whose height is not a number is {}plausible", if nowhere { "" } else { "not " });
    let start = Instant::now();
    let mut tally = Tally { answers: [[0; ANSWERS]; KINDS], listed: 0, differences: 0 };
    for k in 0..count {
        tally.turn(seed, k);
        if (k + 1) % count.div_ceil(50) == 0 {
            eprint!("\r{:>3}% of {count}, {} differences, {:.0} s ", (k + 1) * 100 / count, tally.differences, start.elapsed().as_secs_f64());
            std::io::stderr().flush().ok();
        }
    }
    eprintln!();
    tally.report(count);
    std::process::exit((tally.differences > 0) as i32);
}
