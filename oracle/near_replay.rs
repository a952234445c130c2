//! near_replay FILE: runs the searches of this folder's sources on recorded ones, and says how many differ.
//! oracle/mutants_near builds it once for each mutant.

#![allow(dead_code)]

mod near;
mod near_cases;
mod reader;

fn main() {
    let file = std::env::args().nth(1).expect("FILE");
    let all = near_cases::read(&std::fs::read(file).expect("the recorded searches are readable"));
    let alike = |case: &near_cases::Case| {
        let answer = near_cases::answered(case.nearest, &case.file, case.query, case.after.len());
        answer == (case.number, case.out, case.after.clone())
    };
    let differing = all.iter().filter(|case| !alike(case)).count();
    println!("{differing} of {} differ", all.len());
}
