//! `mlat pack`: folders as a stream, by words and by names in standard input.

mod mlat_problems_help;

use std::fs;
use std::io::{Read, Write};
use std::path::PathBuf;
use std::process::Stdio;

use jifrosk::{cut_lengths, ABSENT};
use mlat_problems_help::{call, done, example, example_inputs, is_same, mlat, recorded, run, stream_of, word};
use mlat_problems_help::{Recorded, Scratch, EXAMPLES};

/// Whether all of a problem's bytes decide, so that it is packed as it is.
fn is_short(problem: &Recorded) -> bool {
    let length = |input: &Option<Vec<u8>>| input.as_ref().map_or(ABSENT, |bytes| bytes.len() as u32);
    let lengths = problem.inputs.each_ref().map(length);
    cut_lengths(&lengths) == lengths
}

/// Some recorded problems in folders whose names have blanks, and their stream.
fn folders(scratch: &Scratch) -> (Vec<PathBuf>, Vec<u8>) {
    let problems = recorded();
    let chosen: Vec<&Recorded> = problems
        .iter()
        .filter(|problem| is_short(problem))
        .step_by(40)
        .collect();
    let folder = |k: usize| scratch.problem(&format!("{k} a"), &chosen[k].inputs);
    let stream = chosen.iter().flat_map(|problem| stream_of(&problem.inputs));
    ((0..chosen.len()).map(folder).collect(), stream.collect())
}

#[test]
fn folders_are_packed_in_order() {
    let scratch = Scratch::new();
    let (folders, stream) = folders(&scratch);
    assert!(folders.len() > 50);
    let words = ["pack"].into_iter().chain(folders.iter().map(|folder| word(folder)));
    let packed = call(&words.collect::<Vec<_>>());
    packed.is_silent(0);
    is_same(&packed.out, &stream);
    let names = |end: &str| {
        folders
            .iter()
            .map(|folder| format!("{}{end}", word(folder)))
            .collect::<String>()
    };
    for (words, names) in [
        (["pack", "-", "-q"], names("\n")),
        (["pack", "-", "-q"], names("\n").trim_end().to_string()),
        (["pack", "-0", "-"], names("\0")),
        (["pack", "-0", "-q"], names("\0")),
    ] {
        let packed = run(mlat(&words), names.as_bytes());
        packed.is_silent(0);
        is_same(&packed.out, &stream);
    }
}

#[test]
fn a_file_is_written_whole() {
    let scratch = Scratch::new();
    let out = scratch.file("out", b"as it was");
    let (fix, nowhere) = (example("fix"), scratch.path("nowhere"));
    call(&["pack", "-o", word(&out), word(&fix), word(&nowhere)]).is_fault(4, &["nowhere"]);
    assert_eq!(fs::read(&out).expect("it"), b"as it was");
    call(&["pack", "-o", word(&out), word(&fix)]).is_silent(0);
    is_same(&fs::read(&out).expect("it"), &stream_of(&example_inputs("fix")));
    assert_eq!(scratch.names(), ["out"]);
}

#[test]
fn a_folder_is_packed_as_soon_as_it_is_named() {
    let mut command = mlat(&["pack", "-"]);
    command
        .stdin(Stdio::piped())
        .stdout(Stdio::piped())
        .stderr(Stdio::piped());
    let mut child = command.spawn().expect("mlat runs");
    let mut names = child.stdin.take().expect("a pipe");
    let mut out = child.stdout.take().expect("a pipe");
    for name in EXAMPLES {
        writeln!(names, "{}", word(&example(name))).expect("it is read");
        let stream = stream_of(&example_inputs(name));
        let mut packed = vec![0; stream.len()];
        out.read_exact(&mut packed).expect("it is written");
        is_same(&packed, &stream);
    }
    drop(names);
    done(child).is_silent(0);
}

#[test]
fn a_name_that_is_no_folder_is_told() {
    let names = format!("{}\n\n", word(&example("fix")));
    let packed = run(mlat(&["pack", "-"]), names.as_bytes());
    packed.is_fault(2, &["the name of a folder is empty"]);
    let packed = run(mlat(&["pack", "-"]), b"/nowhere\n");
    packed.is_fault(4, &["/nowhere cannot be read: No such file"]);
    assert!(packed.out.is_empty());
}
