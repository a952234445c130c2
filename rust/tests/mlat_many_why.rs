//! `mlat many --why`: the receivers of a stream, beside the crate's states of each problem.

mod mlat_problems_help;

use std::collections::BTreeMap;

use jifrosk::{why_bytes, State, RECEPTION, STATE, STATES};
use mlat_problems_help::{call, example, example_inputs, is_same, mlat, recorded, recorded_stream, run, stream_of};
use mlat_problems_help::{Recorded, Scratch};

/// A receiver's residuals when used and when left out, how often it was removed, and in how many refused problems.
#[derive(Default)]
struct Tally {
    used: Vec<f64>,
    left_out: Vec<f64>,
    removed: u64,
    refused: u64,
}

/// The shortest decimal that is read back to the bits, with an exponent of two digits or more.
fn decimal(number: f64) -> String {
    let text = format!("{number:?}");
    match text.split_once("e-") {
        Some((digits, exponent)) if exponent.len() == 1 => format!("{digits}e-0{exponent}"),
        _ => text,
    }
}

impl Tally {
    fn share(&self) -> Option<f64> {
        let unused = self.left_out.len() as u64 + self.removed;
        let all = unused + self.used.len() as u64;
        (all > 0).then(|| unused as f64 / all as f64)
    }

    /// The members of its object.
    fn members(&self, key: &[u8]) -> String {
        let key: String = key.iter().map(|byte| format!("{byte:02x}")).collect();
        let told = |number: Option<f64>| number.map_or("null".to_string(), decimal);
        let mean = |of: &[f64]| (!of.is_empty()).then(|| of.iter().sum::<f64>() / of.len() as f64);
        let greatest = |of: &[f64]| of.iter().copied().reduce(f64::max);
        format!(
            "{{\"receiver\": \"{key}\", \"share_not_used\": {}, \"used\": {}, \"left_out\": {}, \"removed\": {}, \
             \"refused\": {}, \"used_residual_mean\": {}, \"used_residual_greatest\": {}, \
             \"left_out_residual_mean\": {}, \"left_out_residual_greatest\": {}}}",
            told(self.share()),
            self.used.len(),
            self.left_out.len(),
            self.removed,
            self.refused,
            told(mean(&self.used)),
            told(greatest(&self.used)),
            told(mean(&self.left_out)),
            told(greatest(&self.left_out)),
        )
    }
}

/// By the states of the crate: the tallies of all receivers, and how many problems have a fix.
fn tallies(problems: &[Recorded]) -> (BTreeMap<Vec<u8>, Tally>, usize) {
    let (mut all, mut fixes): (BTreeMap<Vec<u8>, Tally>, _) = (BTreeMap::new(), 0);
    for problem in problems {
        let [receptions, clock, altitude, reference] = problem.inputs.each_ref().map(Option::as_deref);
        let receptions = receptions.unwrap_or_default();
        let (mut states, mut detail) = ([0; STATES], 0);
        if why_bytes(receptions, clock, altitude, reference, &mut states, &mut detail) != 0 {
            let whole = receptions.len().is_multiple_of(RECEPTION);
            let mut keys: Vec<_> = receptions
                .chunks(RECEPTION)
                .filter(|_| whole)
                .take(33)
                .map(|r| r[..32].to_vec())
                .collect();
            keys.sort();
            keys.dedup();
            keys.into_iter()
                .for_each(|key| all.entry(key).or_default().refused += 1);
            continue;
        }
        fixes += 1;
        for (reception, state) in receptions.chunks(RECEPTION).zip(states.as_chunks::<STATE>().0) {
            let tally = all.entry(reception[..32].to_vec()).or_default();
            match State::from_bytes(state) {
                State::Used { residual } => tally.used.push(residual),
                State::LeftOut { residual } => tally.left_out.push(residual),
                State::Removed { .. } => tally.removed += 1,
            }
        }
    }
    (all, fixes)
}

#[test]
fn receivers_are_tallied_as_the_crate_says() {
    let scratch = Scratch::new();
    let problems = recorded();
    let (tallies, fixes) = tallies(&problems);
    let file = scratch
        .file("all.stream", &recorded_stream(&problems).0)
        .display()
        .to_string();
    let told = call(&["many", "--why", "--json", "-j", "1", &file]);
    told.is_silent(0);
    let refused = problems.len() - fixes;
    let head = format!(
        "{{\"problems\": {}, \"fixes\": {fixes}, \"refused\": {refused}, \"receivers\": [",
        problems.len()
    );
    let rows = told
        .text()
        .strip_prefix(&head)
        .and_then(|rest| rest.strip_suffix("]}\n"))
        .expect("the counts");
    let mut found: Vec<&str> = rows
        .split_inclusive('}')
        .map(|row| row.trim_start_matches(", "))
        .collect();
    let shares: Vec<f64> = found.iter().map(|row| share_of(row)).collect();
    assert!(
        shares.is_sorted_by(|a, b| a >= b),
        "those that are used least come first"
    );
    found.sort();
    let wanted: Vec<String> = tallies.iter().map(|(key, tally)| tally.members(key)).collect();
    assert_eq!(found.len(), wanted.len());
    for (found, wanted) in found.iter().zip(&wanted) {
        assert_eq!(found, wanted);
    }
    for threads in ["2", "5"] {
        is_same(&call(&["many", "--why", "--json", "-j", threads, &file]).out, &told.out);
    }
}

/// A row's share; those without one come after all.
fn share_of(row: &str) -> f64 {
    let (_, rest) = row.split_once("\"share_not_used\": ").expect("the key");
    rest[..rest.find(',').expect("an end")].parse().unwrap_or(-1.0)
}

#[test]
fn the_table_has_a_line_for_each_receiver() {
    let names = ["screened", "outlier", "screened", "ambiguous"];
    let stream: Vec<u8> = names.iter().flat_map(|name| stream_of(&example_inputs(name))).collect();
    let told = run(mlat(&["many", "--why"]), &stream);
    told.is_silent(0);
    let lines: Vec<&str> = told.text().lines().collect();
    assert_eq!(
        lines[0],
        "4 problems, 3 fixes, 1 refused; residuals in standard deviations"
    );
    assert!(lines[1].starts_with("receiver          not used      used  left out   removed   refused  "));
    // by ./why: screened leaves out 1 and removes 4, outlier leaves out 3; 1 alone of them is in ambiguous too
    let row = |line: &str| line.split_whitespace().take(7).map(str::to_string).collect::<Vec<_>>();
    assert_eq!(row(lines[2]), ["1a604438486ccaa1", "66.7", "%", "1", "2", "0", "1"]);
    assert_eq!(row(lines[3]), ["86556f4074d19df6", "66.7", "%", "1", "0", "2", "0"]);
    assert_eq!(row(lines[4]), ["552c851d7e4bd122", "33.3", "%", "2", "1", "0", "0"]);
    assert!(lines[4].ends_with("   91.22    91.22"), "{}", lines[4]);
    assert_eq!(lines.len(), 8);
}

#[test]
fn a_stream_without_problems_has_no_receivers() {
    let told = run(mlat(&["many", "--why"]), &[]);
    told.is_silent(0);
    assert_eq!(told.text(), "0 problems, 0 fixes, 0 refused\n");
    let scratch = Scratch::new();
    let out = scratch.file("out", b"as it was").display().to_string();
    let packed = call(&["pack", &example("fix").display().to_string()]).out;
    run(mlat(&["many", "--why", "-o", &out]), &packed[..100]).is_fault(3, &["within problem 0"]);
    assert_eq!(std::fs::read(&out).expect("it"), b"as it was");
    run(mlat(&["many", "--why", "-o", &out]), &packed).is_silent(0);
    assert!(std::fs::read_to_string(&out)
        .expect("it")
        .starts_with("1 problems, 1 fixes, 0 refused;"));
}
