//! How a solve grows with receptions and outliers. Built and run by bench/growth, as
//!
//!     growth times N OUTLIERS PROBLEMS     'PORT RUST', microseconds a problem; '-' where such problems are not found
//!     growth port N OUTLIERS PROBLEMS      solves each problem once by `side_solve`, for valgrind to count
//!     growth rust N OUTLIERS PROBLEMS      the same by the original

#[allow(dead_code)]
#[path = "../compare/port_solve.rs"]
mod port_solve;
mod taking_turns;

use oracle::record;
use oracle::scene::{Files, Scene};
use oracle::solve::{Problem, solve_problem};
use std::hint::black_box;
use taking_turns::{least, problems};

/// Runs of all problems, of which the least time counts.
const RUNS: usize = 30;

/// What valgrind counts: a call of one side.
#[no_mangle]
#[inline(never)]
pub fn side_solve(side: &mut dyn FnMut(usize), k: usize) {
    side(k);
}

fn main() {
    let words: Vec<String> = std::env::args().skip(1).collect();
    let [what, numbers @ ..] = words.as_slice() else { panic!("growth times|port|rust N OUTLIERS PROBLEMS") };
    let numbers: Vec<usize> = numbers.iter().map(|word| word.parse().expect("a number")).collect();
    let [n, outliers, count] = numbers[..] else { panic!("three numbers") };
    let Some(scenes) = problems(n, false, outliers, count) else {
        println!("-");
        return;
    };
    let files: Vec<Files> = scenes.iter().map(Scene::files).collect();
    let problems: Vec<Problem> = scenes.iter().map(Scene::problem).collect();
    let mut out = [0; record::LENGTH];
    let port: &mut dyn FnMut(usize) = &mut |k| {
        black_box(port_solve::solve(&files[k], &[], 0, &mut out));
    };
    let rust: &mut dyn FnMut(usize) = &mut |k| {
        black_box(solve_problem(&problems[k]).is_ok());
    };
    match what.as_str() {
        "times" => {
            let [port, rust] = least(RUNS, count, [port, rust]);
            println!("{port} {rust}");
        }
        "port" => (0..count).for_each(|k| side_solve(port, k)),
        "rust" => (0..count).for_each(|k| side_solve(rust, k)),
        _ => panic!("growth times|port|rust N OUTLIERS PROBLEMS"),
    }
}
