//! reader_replay FILE: runs the reader of this folder's sources on recorded cases, and says how many differ.
//! oracle/mutants_reader builds it once for each mutant.

#![allow(dead_code)]

mod reader;
mod reader_cases;

fn main() {
    let file = std::env::args().nth(1).expect("FILE");
    let all = reader_cases::read(&std::fs::read(file).expect("the recorded cases are readable"));
    let alike = |case: &reader_cases::Case| {
        let (number, after) = reader_cases::answered(&case.call);
        number == u32::from(case.number) && after == case.after
    };
    let differing = all.iter().filter(|case| !alike(case)).count();
    println!("{differing} of {} differ", all.len());
}
