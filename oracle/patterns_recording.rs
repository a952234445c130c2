//! patterns_recording OUT TABLE: calls of clash_patterns with the oracle's answers, for replaying, and the table for
//! planners. Built and run by oracle/keep_patterns.

mod patterns;
#[allow(dead_code)]
mod patterns_cases;

use patterns_cases::{Case, over_six};

/// How many bytes a call answers and leaves: its replay changes another one of each case.
const ANSWERED: usize = 60;

/// The table for planners, as document 02 asks for it: counts, and the share that leaves at least four.
fn table() -> String {
    let mut text = String::from("Of all patterns of failing pairs, how many leave 0 to 6 survivors of the screen:\n\n");
    text += "receptions  patterns       0       1       2       3       4       5       6  four or more\n";
    for n in 0..=patterns::MOST {
        let counts = Case::of(n).counts;
        let all: u64 = counts.iter().sum();
        let four: u64 = counts[4..].iter().sum();
        let tenths = (1000.0 * four as f64 / all as f64).round() as u64;
        text += &format!("{n:10}{all:10}");
        for count in counts {
            text += &format!("{count:8}");
        }
        text += &format!("{:10}.{} %\n", tenths / 10, tenths % 10);
    }
    text
}

fn main() {
    let words: Vec<String> = std::env::args().skip(1).collect();
    let [out, to] = words.as_slice() else {
        panic!("patterns_recording OUT TABLE");
    };
    let mut cases = Vec::new();
    for n in 0..=patterns::MOST {
        cases.extend(std::iter::repeat_n(Case::of(n), ANSWERED));
    }
    cases.extend(over_six().into_iter().map(Case::of));
    let bytes: Vec<u8> = cases.iter().flat_map(Case::bytes).collect();
    for number in [0, patterns::OVER_SIX] {
        println!("{number}: {}", cases.iter().filter(|case| case.number == number).count());
    }
    println!("{} cases, {} bytes", cases.len(), bytes.len());
    std::fs::write(out, bytes).expect("the recording is writable");
    std::fs::write(to, table()).expect("the table is writable");
}
