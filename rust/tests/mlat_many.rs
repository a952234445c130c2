//! `mlat many` on streams: of files, of pipes, one at a time, torn, far too long, onto outputs that fail.

mod mlat_problems_help;

use std::fs::{self, File};
use std::io::{Read, Seek, SeekFrom, Write};
use std::os::unix::process::ExitStatusExt;
use std::process::{Command, Stdio};
use std::thread;
use std::time::Duration;

use jifrosk::{ABSENT, RECORD};
use mlat_problems_help::{
    call, done, example_inputs, is_same, mlat, recorded, recorded_stream, run, stream_of, Done, Scratch,
};

/// The longest that a test waits for what should come at once.
const PATIENCE: Duration = Duration::from_secs(60);

#[test]
fn files_give_the_recorded_records() {
    let scratch = Scratch::new();
    let (stream, records) = recorded_stream(&recorded());
    let file = scratch.file("all.stream", &stream).display().to_string();
    for threads in ["1", "2", "5"] {
        let solved = call(&["many", "-j", threads, &file]);
        solved.is_silent(0);
        is_same(&solved.out, &records);
    }
    let out = scratch.path("out").display().to_string();
    call(&["many", &file, "-o", &out, "-j2"]).is_silent(0);
    is_same(&fs::read(&out).expect("it"), &records);
    assert_eq!(scratch.names(), ["all.stream", "out"]);
}

#[test]
fn several_files_and_standard_input_are_one_after_the_other() {
    let scratch = Scratch::new();
    let problems = recorded();
    let (_, records) = recorded_stream(&problems);
    let streams: Vec<Vec<u8>> = problems.chunks(500).map(|some| recorded_stream(some).0).collect();
    let mut words = vec!["many".to_string()];
    for (k, stream) in streams.iter().enumerate() {
        let file = scratch.file(&format!("{k}.stream"), stream).display().to_string();
        words.push(if k == 2 { "-".to_string() } else { file });
    }
    words.push(scratch.file("empty", &[]).display().to_string());
    let solved = run(mlat(&words), &streams[2]);
    solved.is_silent(0);
    is_same(&solved.out, &records);
}

/// Sends a stream in pieces of so many bytes.
fn in_pieces(stream: &[u8], size: usize, threads: &str) -> Done {
    let mut command = mlat(&["many", "-j", threads]);
    command
        .stdin(Stdio::piped())
        .stdout(Stdio::piped())
        .stderr(Stdio::piped());
    let mut child = command.spawn().expect("mlat runs");
    let mut stdin = child.stdin.take().expect("a pipe");
    thread::scope(|scope| {
        scope.spawn(move || {
            stream
                .chunks(size)
                .for_each(|piece| stdin.write_all(piece).expect("it is read"))
        });
        done(child)
    })
}

#[test]
fn pieces_of_any_size_give_the_recorded_records() {
    let problems = recorded();
    let (stream, records) = recorded_stream(&problems);
    for (size, threads) in [(997, "1"), (4_099, "2"), (70_001, "5")] {
        let solved = in_pieces(&stream, size, threads);
        solved.is_silent(0);
        is_same(&solved.out, &records);
    }
    let (stream, records) = recorded_stream(&problems[..150]);
    for threads in ["1", "2", "5"] {
        let solved = in_pieces(&stream, 1, threads);
        solved.is_silent(0);
        is_same(&solved.out, &records);
    }
}

#[test]
fn a_consumer_gets_each_record_at_once() {
    for threads in ["1", "2", "5"] {
        let mut command = mlat(&["many", "-j", threads]);
        let mut child = command
            .stdin(Stdio::piped())
            .stdout(Stdio::piped())
            .spawn()
            .expect("mlat runs");
        let (mut stdin, mut out) = (
            child.stdin.take().expect("a pipe"),
            child.stdout.take().expect("a pipe"),
        );
        let (sender, given) = std::sync::mpsc::channel();
        thread::spawn(move || {
            let mut record = [0; RECORD];
            while out.read_exact(&mut record).is_ok() && sender.send(record).is_ok() {}
        });
        for (k, problem) in recorded().iter().enumerate().step_by(13) {
            stdin.write_all(&stream_of(&problem.inputs)).expect("it is read");
            let record = given
                .recv_timeout(PATIENCE)
                .expect("a record without a further problem");
            assert_eq!(record.as_slice(), problem.record, "problem {k}");
        }
        drop(stdin);
        assert!(child.wait().expect("it ends").success());
    }
}

/// Two problems of one reception each, which are refused by 1, with every input there.
fn short_stream() -> (Vec<u8>, usize) {
    let [receptions, _, altitude, reference] = example_inputs("fix");
    let one = receptions.map(|bytes| bytes[..132].to_vec());
    let problem = stream_of(&[one, Some(vec![0; 8]), altitude, reference]);
    (problem.repeat(2), problem.len())
}

#[test]
fn a_stream_that_ends_within_a_problem_is_torn() {
    let (stream, size) = short_stream();
    let whole = run(mlat(&["many"]), &stream);
    whole.is_silent(0);
    assert_eq!(whole.out[..4], 1_u32.to_le_bytes());
    for length in 0..=stream.len() {
        let torn = run(mlat(&["many", "-j", "2"]), &stream[..length]);
        let (place, there) = (length / size, length % size);
        is_same(&torn.out, &whole.out[..place * RECORD]);
        if there == 0 {
            torn.is_silent(0);
            continue;
        }
        let begins = format!(
            "within problem {place}, which begins at byte {}: {there} bytes",
            place * size
        );
        torn.is_fault(3, &["standard input: torn stream (16): ", &begins]);
    }
}

#[test]
fn a_torn_file_is_named_and_the_tail_passed_over() {
    let scratch = Scratch::new();
    let (stream, size) = short_stream();
    let records = run(mlat(&["many"]), &stream).out;
    let torn = scratch.file("torn.stream", &stream[..size + 7]).display().to_string();
    let whole = scratch.file("whole.stream", &stream).display().to_string();
    let out = scratch.file("out", b"as it was").display().to_string();
    let solved = call(&["many", &whole, &torn, &whole]);
    let begins = format!("within problem 1, which begins at byte {size}: 7 bytes");
    solved.is_fault(3, &["torn.stream: torn stream (16)", &begins]);
    is_same(&solved.out, &records.repeat(2)[..3 * RECORD]);
    call(&["many", &torn, "-o", &out]).is_fault(3, &["torn.stream"]);
    assert_eq!(fs::read(&out).expect("it"), b"as it was");
    let solved = call(&["many", "--tail", &torn, &whole]);
    solved.is_fault(0, &["torn.stream: torn stream (16)", "passed over"]);
    is_same(&solved.out, &records.repeat(2)[..3 * RECORD]);
    assert_eq!(scratch.names(), ["out", "torn.stream", "whole.stream"]);
}

/// Problems whose receptions or clock are far too long, by holes, the first with the longest that a stream can tell;
/// answers by document 01: 15 a torn input, 10 too many, 13 the clock's size.
#[test]
fn inputs_that_are_far_too_long_take_no_memory() {
    let scratch = Scratch::new();
    let path = scratch.path("long.stream");
    let mut file = File::create(&path).expect("a file of the test");
    let long = ABSENT - 1;
    let cases = [
        ([long, 288, 16, 8], 15),
        ([132 * 500_000, 288, 16, 8], 10),
        ([792, 1 << 26, 16, 8], 13),
    ];
    let fix = example_inputs("fix");
    for (lengths, _) in cases {
        file.write_all(&lengths.map(u32::to_le_bytes).concat())
            .expect("it is written");
        for (input, length) in fix.iter().flatten().zip(lengths) {
            let at = file.stream_position().expect("a file");
            file.write_all(input).expect("it is written");
            file.seek(SeekFrom::Start(at + u64::from(length))).expect("a hole");
        }
    }
    file.write_all(&stream_of(&fix)).expect("it is written");
    let limited = "ulimit -v 1000000; exec \"$0\" many -j 2 \"$1\"";
    let mut command = Command::new("sh");
    command.args(["-c", limited, env!("CARGO_BIN_EXE_mlat")]).arg(&path);
    let solved = run(command, &[]);
    solved.is_silent(0);
    assert_eq!(solved.out.len(), 4 * RECORD);
    for (record, (lengths, answer)) in solved.out.chunks(RECORD).zip(cases) {
        assert_eq!(record[..4], u32::to_le_bytes(answer), "{lengths:?}");
    }
    is_same(&solved.out[3 * RECORD..], &run(mlat(&["many"]), &stream_of(&fix)).out);
}

#[test]
fn absent_and_empty_inputs_are_not_alike() {
    let [receptions, _, altitude, reference] = example_inputs("fix");
    let absent = stream_of(&[receptions.clone(), None, altitude.clone(), reference.clone()]);
    let empty = stream_of(&[receptions, Some(Vec::new()), altitude, reference]);
    let solved = run(mlat(&["many"]), &[absent, empty].concat());
    solved.is_silent(0);
    assert_eq!(solved.out[..4], 7_u32.to_le_bytes());
    assert_eq!(solved.out[RECORD..RECORD + 4], 13_u32.to_le_bytes());
}

#[test]
fn a_reader_that_goes_is_told() {
    let (stream, _) = recorded_stream(&recorded());
    let mut command = mlat(&["many"]);
    command
        .stdin(Stdio::piped())
        .stdout(Stdio::piped())
        .stderr(Stdio::piped());
    let mut child = command.spawn().expect("mlat runs");
    let mut stdin = child.stdin.take().expect("a pipe");
    drop(child.stdout.take());
    // the stream stays open: it is the output that ends the command
    let _ = stdin.write_all(&stream[..2_000]);
    let ended = done(child);
    drop(stdin);
    ended.is_fault(5, &["standard output cannot be written: Broken pipe"]);
}

#[test]
fn a_full_disk_is_told() {
    let (stream, _) = short_stream();
    run(mlat(&["many", "-o", "/dev/full"]), &stream).is_fault(5, &["/dev/full cannot be written: No space left"]);
    let mut command = mlat(&["many"]);
    let full = File::options().write(true).open("/dev/full").expect("/dev/full");
    command.stdin(Stdio::piped()).stdout(full).stderr(Stdio::piped());
    let mut child = command.spawn().expect("mlat runs");
    child
        .stdin
        .take()
        .expect("a pipe")
        .write_all(&stream)
        .expect("it is read");
    done(child).is_fault(5, &["standard output cannot be written: No space left"]);
}

#[test]
fn an_interrupt_leaves_the_output_as_it_was() {
    let scratch = Scratch::new();
    let out = scratch.file("out", b"as it was").display().to_string();
    let (stream, _) = short_stream();
    let mut command = mlat(&["many", "-o", &out]);
    let mut child = command
        .stdin(Stdio::piped())
        .stderr(Stdio::piped())
        .spawn()
        .expect("mlat runs");
    let mut stdin = child.stdin.take().expect("a pipe");
    stdin.write_all(&stream).expect("it is read");
    while scratch.names().len() < 2 {
        thread::sleep(Duration::from_millis(5));
    }
    let number = child.id().to_string();
    assert!(Command::new("kill")
        .args(["-INT", &number])
        .status()
        .expect("kill runs")
        .success());
    assert_eq!(child.wait().expect("it ends").signal(), Some(2));
    assert_eq!(scratch.names(), ["out"]);
    assert_eq!(fs::read(&out).expect("it"), b"as it was");
}

#[test]
fn wrong_calls_and_missing_files_are_told() {
    let scratch = Scratch::new();
    let file = scratch.file("a.stream", &short_stream().0).display().to_string();
    let nowhere = scratch.path("nowhere").display().to_string();
    let folder = scratch.0.display().to_string();
    let missing = call(&["many", &file, &nowhere]);
    missing.is_fault(4, &["nowhere cannot be read: No such file"]);
    assert!(missing.out.is_empty());
    call(&["many", &file, &folder]).is_fault(4, &["s a directory"]);
    call(&["many", "-j", "0", &file]).is_fault(2, &["-j is from 1 to 1024"]);
    call(&["many", "-j", "two", &file]).is_fault(2, &["-j is a whole number"]);
    call(&["many", &file, "-j"]).is_fault(2, &["-j needs a value"]);
    call(&["many", "--json", &file]).is_fault(2, &["--json goes with --why"]);
    call(&["many", "-o", &folder, &file]).is_fault(5, &["cannot be written"]);
}
