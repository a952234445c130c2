//! The port's counts of clash patterns beside the oracle's, and beside a count by the removals of `screen` of solve.rs,
//! for 0 to 6 receptions; and its refusals. Built and run by compare/patterns.

mod original {
    include!(env!("ORIGINAL"));
}
#[path = "../oracle/patterns.rs"]
mod patterns;
#[allow(dead_code)]
#[path = "../oracle/patterns_cases.rs"]
mod patterns_cases;
#[allow(dead_code)]
#[path = "../oracle/random.rs"]
mod random;

use patterns_cases::over_six;
use random::Random;

extern "C" {
    fn mlat_clash_patterns(receptions: u32, counts: *mut u64) -> u32;
}

/// Counts before and after those that are lent.
const SPARE: usize = 2;

#[derive(Default)]
struct Tally {
    calls: u64,
    differences: u64,
}

impl Tally {
    fn compare(&mut self, what: &str, receptions: u32, found: &[u64], due: &[u64]) {
        for (k, (found, due)) in found.iter().zip(due).enumerate() {
            if found != due {
                self.differences += 1;
                println!("{what}: {receptions} receptions, word {k}: {found}, and not {due}");
            }
        }
    }

    /// A call of the port: the number, the counts, and what lies beside them.
    fn port(&mut self, receptions: u32) -> Vec<u64> {
        self.calls += 1;
        let mut memory: Vec<u64> = (0..7 + 2 * SPARE as u64).map(|k| !(k << 40 | self.calls)).collect();
        let before = memory.clone();
        let number = unsafe { mlat_clash_patterns(receptions, memory[SPARE..SPARE + 7].as_mut_ptr()) };
        let (lent, beside) = (SPARE..SPARE + 7, "the memory beside the counts");
        self.compare(beside, receptions, &memory[..SPARE], &before[..SPARE]);
        self.compare(beside, receptions, &memory[lent.end..], &before[lent.end..]);
        let mut due: [u64; 7] = before[lent.clone()].try_into().expect("seven");
        let due_number = patterns::clash_patterns(receptions, &mut due);
        self.compare("the number", receptions, &[number.into()], &[due_number.into()]);
        self.compare("the brute force", receptions, &memory[lent.clone()], &due);
        memory[lent].to_vec()
    }
}

/// The counts by the removals of solve.rs: each set of pairs as the matrix that they read.
fn by_original(n: u32) -> [u64; 7] {
    let mut counts = [0; 7];
    for pattern in patterns::patterns(&patterns::pairs(n)) {
        let mut feasible = vec![vec![true; n as usize]; n as usize];
        for (a, b) in pattern {
            feasible[a as usize][b as usize] = false;
            feasible[b as usize][a as usize] = false;
        }
        counts[original::screened(n as usize, &feasible).len()] += 1;
    }
    counts
}

fn main() {
    let words: Vec<u64> = std::env::args().skip(1).map(|word| word.parse().expect("a whole number")).collect();
    let count = words.first().copied().unwrap_or(1_000_000);
    let mut random = Random::new(words.get(1).copied().unwrap_or(1));
    let mut tally = Tally::default();
    for n in 0..=patterns::MOST {
        let found = tally.port(n);
        println!("{n} receptions: {found:?}");
        tally.compare("the removals of solve.rs", n, &found, &by_original(n));
    }
    for receptions in over_six() {
        tally.port(receptions);
    }
    for _ in 0..count {
        let receptions = (random.bits() >> 32) as u32 >> (random.bits() >> 59);
        if receptions > patterns::MOST {
            tally.port(receptions);
        }
    }
    println!("{} calls, {} differences", tally.calls, tally.differences);
    if tally.differences > 0 {
        std::process::exit(1);
    }
}
