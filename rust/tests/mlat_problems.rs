//! `mlat solve` and `mlat why` on folders, and what they and `mlat pack` say of folders that cannot be read.

mod mlat_problems_help;

use std::fs::{self, File};
use std::process::Stdio;

use jifrosk::{read, why_bytes, Record, State, RECEPTION, RECORD, STATE, STATES};
use mlat_problems_help::{
    call, done, example, example_inputs, is_same, mlat, recorded, run, stream_of, unreadable, word, Scratch, EXAMPLES,
};

#[test]
fn solve_says_what_demo_said() {
    let said = call(&["solve", word(&example("outlier"))]);
    said.is_silent(0);
    let words = "\
place    latitude 47.580039, longitude 9.320198 degrees (WGS 84)
height   11335.7 m above the ellipsoid
sigma    east 20.8 m, north 22.7 m, up 58.8 m
used     receptions 0 1 2 4 5 of 0 to 5; not used: 3
fit      chi-square 1.395 at 2 degrees of freedom
sent     1699999941247058 ps
altitude 11280.0 m, barometric
asterix  I020/041 00 87 56 BA 00 1A 82 C3, I020/105 17 3F
";
    assert_eq!(said.text(), words);
    let refused = call(&["solve", word(&example("ambiguous"))]);
    refused.is_silent(1);
    let words = "no fix: refusal 8, ambiguous: two places fit about as well\n\
                 what to do: give an altitude, or a fourth reception\n";
    assert_eq!(refused.text(), words);
}

#[test]
fn a_record_is_the_recorded_one() {
    let scratch = Scratch::new();
    for (k, problem) in recorded().iter().enumerate().step_by(7) {
        let folder = scratch.problem(&k.to_string(), &problem.inputs);
        let solved = call(&["solve", "--record", word(&folder)]);
        if problem.inputs.iter().all(Option::is_none) {
            solved.is_fault(4, &["has none of receptions.bin"]);
            continue;
        }
        assert_eq!(solved.out, problem.record, "problem {k}");
        solved.is_silent(i32::from(problem.record[..4] != [0; 4]));
    }
    for name in EXAMPLES {
        let solved = call(&["solve", word(&example(name)), "--record"]);
        assert_eq!(
            solved.out,
            fs::read(example(name).join("record.bin")).expect("its record"),
            "{name}"
        );
    }
}

/// The value behind a key of an object.
fn member<'a>(object: &'a str, key: &str) -> &'a str {
    let (_, rest) = object.split_once(&format!("\"{key}\": ")).expect("the key");
    rest[..rest.find([',', '}']).expect("an end")].trim()
}

#[test]
fn an_object_has_every_field_to_the_bit() {
    let solved = call(&["solve", "--json", word(&example("fix"))]);
    solved.is_silent(0);
    let object = solved.text();
    assert!(object.starts_with("{\"answer\": 0, \"name\": \"FIX\", \"detail\": 3, \"n\": 6, \"used\": 63, "));
    assert_eq!(object.lines().count(), 1);
    let Ok(Record::Fix(fix)) = read(&fs::read(example("fix").join("record.bin")).expect("its record")) else {
        panic!("a fix");
    };
    let enu = fix.enu_covariance();
    let [row0, row1, row2] = fix.covariance;
    let floats = [
        ("latitude_deg", fix.position.lat_deg),
        ("longitude_deg", fix.position.lon_deg),
        ("height_m", fix.position.height_m),
        ("x_m", fix.ecef[0]),
        ("y_m", fix.ecef[1]),
        ("z_m", fix.ecef[2]),
        ("t_m", fix.t_m),
        ("chi2", fix.chi2),
        ("altitude_m", 11_280.0),
        ("c00", row0[0]),
        ("c12", row1[2]),
        ("c21", row2[1]),
        ("sigma_east_m", enu[0][0].sqrt()),
        ("sigma_up_m", enu[2][2].sqrt()),
    ];
    for (key, value) in floats {
        let float: f64 = member(object, key).parse().expect("a number");
        assert_eq!(float.to_bits(), value.to_bits(), "{key}");
    }
    assert_eq!(member(object, "transmit_ps"), fix.transmit_ps.to_string());
    assert_eq!((member(object, "altitude_kind"), member(object, "version")), ("1", "8"));
}

#[test]
fn the_object_of_a_refusal_says_what_to_do() {
    let refused = call(&["solve", "--json", word(&example("ambiguous"))]);
    refused.is_silent(1);
    let object = "{\"answer\": 8, \"name\": \"AMBIGUOUS\", \"detail\": 0, \"n\": 3, \
                  \"says\": \"ambiguous: two places fit about as well\", \
                  \"advice\": \"give an altitude, or a fourth reception\"}\n";
    assert_eq!(refused.text(), object);
}

#[test]
fn a_refusal_by_lengths_tells_them() {
    let scratch = Scratch::new();
    let [receptions, clock, altitude, reference] = example_inputs("fix");
    let torn = receptions.map(|bytes| bytes[..791].to_vec());
    let folder = scratch.problem("torn", &[torn, clock, altitude, reference]);
    let refused = call(&["solve", word(&folder)]);
    refused.is_silent(1);
    assert!(refused.text().starts_with("no fix: refusal 15, torn input: "));
    assert!(refused
        .text()
        .contains("\nreceptions.bin 791 bytes, clock.bin 288 bytes, altitude.bin 16 bytes, "));
}

/// A problem's files, each in turn far too long, by a hole; answers by document 01.
#[test]
fn files_that_are_far_too_long_take_no_memory() {
    let scratch = Scratch::new();
    let cases = [
        ("receptions.bin", (1 << 32) + 132 * 100 - (1 << 32) % 132, 10),
        ("receptions.bin", 132 * 100_000 + 1, 15),
        ("clock.bin", 1 << 26, 13),
        ("altitude.bin", 1 << 26, 15),
        ("reference.bin", 1 << 26, 15),
    ];
    for (k, (name, length, answer)) in cases.into_iter().enumerate() {
        let folder = scratch.problem(&k.to_string(), &example_inputs("fix"));
        File::options()
            .write(true)
            .open(folder.join(name))
            .expect("it")
            .set_len(length)
            .expect("a hole");
        let limited = "ulimit -v 500000; exec \"$0\" solve --record \"$1\"";
        let mut command = std::process::Command::new("sh");
        command.args(["-c", limited, env!("CARGO_BIN_EXE_mlat"), word(&folder)]);
        let solved = run(command, &[]);
        solved.is_silent(1);
        assert_eq!(solved.out[..4], u32::to_le_bytes(answer), "{name} of {length} bytes");
        if length > 1 << 32 {
            continue;
        }
        let packed = call(&["pack", word(&folder)]);
        packed.is_silent(0);
        assert!(packed.out.len() < 1 << 14);
        is_same(&run(mlat(&["many"]), &packed.out).out, &solved.out);
    }
}

#[test]
fn why_says_the_states_of_the_crate() {
    for problem in recorded().iter().step_by(11) {
        let scratch = Scratch::new();
        let folder = scratch.problem("one", &problem.inputs);
        let [receptions, clock, altitude, reference] = problem.inputs.each_ref().map(Option::as_deref);
        let (mut states, mut detail) = ([0; STATES], 0);
        let receptions = receptions.unwrap_or_default();
        let answer = why_bytes(receptions, clock, altitude, reference, &mut states, &mut detail);
        let (told, object) = (call(&["why", word(&folder)]), call(&["why", "--json", word(&folder)]));
        if problem.inputs.iter().all(Option::is_none) {
            told.is_fault(4, &["has none of"]);
            continue;
        }
        if answer != 0 {
            told.is_silent(1);
            assert!(told.text().starts_with(&format!("no fix: refusal {answer}, ")));
            assert_eq!(member(object.text(), "answer"), answer.to_string());
            assert_eq!(told.out, call(&["solve", word(&folder)]).out);
            continue;
        }
        told.is_silent(0);
        let (states, _) = states.as_chunks::<STATE>();
        let heard: Vec<_> = receptions.chunks(RECEPTION).zip(states).collect();
        assert_eq!(told.text().lines().count(), heard.len());
        let objects = object.text().split("{\"place\": ").skip(1);
        for (((reception, state), line), object) in heard.iter().zip(told.text().lines()).zip(objects) {
            is_told(reception, State::from_bytes(state), line, object);
        }
    }
}

#[track_caller]
fn is_told(reception: &[u8], state: State, line: &str, object: &str) {
    let key: String = reception[..32].iter().map(|byte| format!("{byte:02x}")).collect();
    assert_eq!(member(object, "receiver"), format!("\"{key}\""));
    assert!(line.contains(&format!("  receiver {}: ", &key[..16])), "{line}");
    let (name, turn, clashes, words) = match state {
        State::Used { residual } => ("used", 0, 0, format!("used; {residual:.2} standard deviations")),
        State::LeftOut { residual } => ("left out", 0, 0, format!("left out; {residual:.2} standard deviations")),
        State::Removed { turn, clashes } => (
            "removed",
            turn,
            clashes,
            format!("removed by the screen in turn {turn}; "),
        ),
    };
    assert!(line.contains(&words), "{line}");
    assert_eq!(member(object, "state"), format!("\"{name}\""));
    assert_eq!(member(object, "turn"), turn.to_string());
    assert_eq!(member(object, "clashes"), clashes.to_string());
    let residual: Option<f64> = member(object, "residual").parse().ok();
    match state {
        State::Used { residual: of } | State::LeftOut { residual: of } => assert_eq!(residual, Some(of)),
        State::Removed { .. } => assert_eq!(residual, None),
    }
}

#[test]
fn what_cannot_be_read_is_named() {
    let scratch = Scratch::new();
    let (nowhere, file) = (scratch.path("nowhere"), scratch.file("file", b"no folder"));
    let folder = scratch.problem("folder", &example_inputs("fix"));
    fs::remove_file(folder.join("clock.bin")).expect("it is there");
    fs::create_dir(folder.join("clock.bin")).expect("a folder in the place of a file");
    for command in ["solve", "why", "pack"] {
        call(&[command, word(&nowhere)]).is_fault(4, &[word(&nowhere), "No such file"]);
        call(&[command, word(&file)]).is_fault(4, &[word(&file), "Not a directory"]);
        call(&[command, word(&folder)]).is_fault(4, &[word(&folder.join("clock.bin")), "Is a directory"]);
        call(&[command, ""]).is_fault(2, &["empty"]);
    }
    let (first, last) = (example("fix"), example("outlier"));
    let packed = call(&["pack", word(&first), word(&nowhere), word(&last)]);
    packed.is_fault(4, &["nowhere"]);
    assert!(packed.out.is_empty() || packed.out == stream_of(&example_inputs("fix")));
    let empty = scratch.problem("empty", &[None, None, None, None]);
    call(&["solve", word(&empty)]).is_fault(4, &[word(&empty), "none of receptions.bin"]);
    assert_eq!(call(&["pack", word(&empty)]).out, [0xFF; 16]);
}

#[test]
fn a_file_without_permission_is_a_fault() {
    let scratch = Scratch::new();
    let folder = scratch.problem("folder", &example_inputs("fix"));
    if !unreadable(&folder.join("altitude.bin")) {
        eprintln!("passed over: this user reads every file");
        return;
    }
    for command in ["solve", "why", "pack"] {
        call(&[command, word(&folder)]).is_fault(4, &["altitude.bin", "Permission denied"]);
    }
}

#[test]
fn wrong_calls_are_told() {
    let fix = example("fix");
    let fix = word(&fix);
    call(&["solve"]).is_fault(2, &["usage: mlat solve"]);
    call(&["solve", fix, fix]).is_fault(2, &["usage: mlat solve"]);
    call(&["solve", "--jsn", fix]).is_fault(2, &["no option --jsn"]);
    call(&["solve", "--json", "--record", fix]).is_fault(2, &["--json and --record"]);
    call(&["why"]).is_fault(2, &["usage: mlat why"]);
    call(&["pack"]).is_fault(2, &["usage: mlat pack"]);
    for command in ["solve", "why", "many", "pack"] {
        let help = call(&[command, "--help"]);
        help.is_silent(0);
        assert!(help.text().starts_with(&format!("usage: mlat {command} ")));
        assert!(help.text().lines().count() <= 24 && help.text().lines().all(|line| line.len() <= 120));
        call(&[command, "--version"]).is_silent(0);
    }
}

#[test]
fn a_full_output_is_told() {
    let full = || Stdio::from(File::options().write(true).open("/dev/full").expect("/dev/full"));
    let fix = example("fix");
    for words in [["solve", word(&fix)], ["why", word(&fix)], ["pack", word(&fix)]] {
        let child = mlat(&words)
            .stdout(full())
            .stderr(Stdio::piped())
            .spawn()
            .expect("mlat runs");
        done(child).is_fault(5, &["standard output cannot be written: No space left"]);
    }
    assert_eq!(call(&["solve", "--record", word(&fix)]).out.len(), RECORD);
}

#[test]
fn a_fault_keeps_its_status_where_nothing_can_be_said() {
    let full = File::options().write(true).open("/dev/full").expect("/dev/full");
    let status = mlat(&["solve", "/nowhere"]).stderr(full).status().expect("mlat runs");
    assert_eq!(status.code(), Some(4));
}

#[test]
fn a_closed_output_is_told() {
    let fix = example("fix");
    for words in [
        "solve \"$1\"",
        "solve --record \"$1\"",
        "why \"$1\"",
        "pack \"$1\"",
        "many </dev/null",
    ] {
        let mut command = std::process::Command::new("sh");
        command.args(["-c", &format!("exec \"$0\" {words} >&-")]);
        command.args([env!("CARGO_BIN_EXE_mlat"), word(&fix)]);
        run(command, &[]).is_fault(5, &["standard output cannot be written: it is closed"]);
    }
}
