//! patterns_replay FILE: runs the counts of this folder's sources on recorded ones, and says how many differ.
//! oracle/mutants_patterns builds it once for each mutant.

#![allow(dead_code)]

mod patterns;
mod patterns_cases;

fn main() {
    let file = std::env::args().nth(1).expect("FILE");
    let all = patterns_cases::read(&std::fs::read(file).expect("the recorded calls are readable"));
    // equal calls stand together: one of them is enough
    let mut calls = all.clone();
    calls.dedup();
    let differing = calls.iter().filter(|case| patterns_cases::Case::of(case.receptions) != **case).count();
    println!("{differing} of {} differ", calls.len());
}
