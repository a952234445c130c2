//! replay FILE [MOST]: runs the solve of this folder's sources on recorded inputs, until MOST records differ, and says how many do and which. oracle/mutants builds it once
//! for each mutant.

#![allow(dead_code)]

mod clock;
mod geo;
mod input;
mod kept;
mod linalg;
mod modes;
mod obs;
mod parts;
mod random;
mod record;
mod scene;
mod solve;

pub use at_least::AtLeast;
mod at_least;

fn main() {
    let words: Vec<String> = std::env::args().skip(1).collect();
    let most = words.get(1).map_or(usize::MAX, |word| word.parse().expect("MOST is a number"));
    let bytes = std::fs::read(&words[0]).expect("the recorded inputs are readable");
    let all = kept::read(&bytes).expect("whole problems");
    let differing = (0..all.len()).filter(|k| record::record(&all[*k].files).1 != all[*k].record);
    let differing: Vec<String> = differing.take(most).map(|k| k.to_string()).collect();
    println!("{} of {} differ: {}", differing.len(), all.len(), differing.join(" "));
}
