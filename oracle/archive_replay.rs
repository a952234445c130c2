//! archive_replay FILE: runs the moves of this folder's sources on recorded ones, and says how many differ.
//! oracle/mutants_archive builds it once for each mutant.

#![allow(dead_code)]

mod archive;
mod archive_cases;
mod reader;

fn main() {
    let file = std::env::args().nth(1).expect("FILE");
    let all = archive_cases::read(&std::fs::read(file).expect("the recorded moves are readable"));
    let alike = |case: &archive_cases::Case| {
        let (number, after) = archive_cases::answered(case.back, &case.record, case.after.len());
        number == case.number && after == case.after
    };
    let differing = all.iter().filter(|case| !alike(case)).count();
    println!("{differing} of {} differ", all.len());
}
