//! The times of the port's solve and the original's, by class of problem. Built and run by bench/solve.
//!
//! `solve PROBLEMS` runs `solve PROBLEMS CLASS` for each class, in a process of its own: what one class leaves in the
//! processor's tables is not there for the next.

#[allow(dead_code)]
#[path = "../compare/port_solve.rs"]
mod port_solve;
mod taking_turns;

use oracle::record;
use oracle::scene::{Files, Scene};
use oracle::solve::{Problem, solve_problem};
use std::hint::black_box;
use std::process::{Command, ExitCode};
use taking_turns::{least, problems};

/// Runs of all problems of a class, of which the least time counts.
const RUNS: usize = 50;

/// Receptions, with altitude or without, outliers.
const CLASSES: [(usize, bool, usize); 12] = [
    (3, true, 0),
    (4, false, 0),
    (4, true, 0),
    (6, false, 0),
    (6, true, 0),
    (10, false, 0),
    (10, true, 0),
    (10, true, 2),
    (16, false, 0),
    (16, true, 0),
    (32, false, 0),
    (32, true, 0),
];

/// A class as a row names it.
fn name((n, with_altitude, outliers): (usize, bool, usize)) -> String {
    let altitude = if with_altitude { ", altitude" } else { "" };
    let late = if outliers > 0 { ", two outliers" } else { "" };
    format!("n = {n}{altitude}{late}")
}

/// The microseconds that a problem of the class takes, the port and the original.
fn timed((n, with_altitude, outliers): (usize, bool, usize), count: usize) -> [f64; 2] {
    let scenes = problems(n, with_altitude, outliers, count).expect("a class has problems");
    let files: Vec<Files> = scenes.iter().map(Scene::files).collect();
    let problems: Vec<Problem> = scenes.iter().map(Scene::problem).collect();
    let mut out = [0; record::LENGTH];
    let sides: [&mut dyn FnMut(usize); 2] = [
        &mut |k| {
            black_box(port_solve::solve(&files[k], &[], 0, &mut out));
        },
        &mut |k| {
            black_box(solve_problem(&problems[k]).is_ok());
        },
    ];
    least(RUNS, count, sides)
}

/// The same, in a process of its own; none where that fails.
fn apart(class: usize, count: usize) -> Option<[f64; 2]> {
    let this = std::env::current_exe().ok()?;
    let run = Command::new(this).args([count.to_string(), class.to_string()]).output().ok()?;
    let text = String::from_utf8(run.stdout).ok()?;
    let (port, rust) = text.trim().split_once(' ')?;
    run.status.success().then_some([port.parse().ok()?, rust.parse().ok()?])
}

fn main() -> ExitCode {
    let words: Vec<usize> = std::env::args().skip(1).map(|word| word.parse().expect("a number")).collect();
    let count = words.first().copied().unwrap_or(100);
    if let Some(class) = words.get(1) {
        let [port, rust] = timed(CLASSES[*class], count);
        println!("{port} {rust}");
        return ExitCode::SUCCESS;
    }
    let mut worst = (String::new(), 0.0);
    for (k, class) in CLASSES.into_iter().enumerate() {
        let Some([port, rust]) = apart(k, count) else {
            eprintln!("bench/solve: {} gave no times", name(class));
            return ExitCode::FAILURE;
        };
        println!("{:<33}port {port:>8.1} µs  Rust {rust:>8.1} µs  ratio {:.2}", name(class), port / rust);
        if port / rust > worst.1 {
            worst = (name(class), port / rust);
        }
    }
    println!("worst: {}, {:.2}", worst.0, worst.1);
    ExitCode::SUCCESS
}
