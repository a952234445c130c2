//! bench/many runs it: `mlat many` beside a plain loop of `solve_next` over the same problems in memory; `mlat pack`.

use std::fs::{self, File};
use std::path::Path;
use std::process::{Command, Stdio};
use std::time::Instant;

use jifrosk::{solve_next, ABSENT, RECORD};

const RECORDED: &str = concat!(env!("CARGO_MANIFEST_DIR"), "/../crates/replay/stdin");

/// About how many problems a stream has.
const PROBLEMS: usize = 100_000;

/// How many folders are packed.
const FOLDERS: usize = 20_000;

/// A problem of a stream and the original's record of it.
struct Recorded {
    inputs: [Option<Vec<u8>>; 4],
    record: Vec<u8>,
}

impl Recorded {
    fn put(&self, stream: &mut Vec<u8>) {
        for input in &self.inputs {
            let length = input.as_ref().map_or(ABSENT, |bytes| bytes.len() as u32);
            stream.extend(length.to_le_bytes());
        }
        stream.extend(self.inputs.iter().flatten().flatten());
    }
}

/// oracle/kept.rs has the form.
fn recorded() -> Vec<Recorded> {
    let bytes = fs::read(RECORDED).expect("the recording of crates/replay");
    let (mut at, mut all) = (0, Vec::new());
    while at < bytes.len() {
        let head = &bytes[at..at + 8];
        let length = |k: usize| usize::from(u16::from_le_bytes([head[k], head[k + 1]]));
        let lengths = [length(0), length(2), head[4].into(), head[5].into()];
        let bits = [3, 0, 1, 2].map(|bit: u8| head[6] >> bit & 1 == 1);
        at += 8;
        let inputs = [0, 1, 2, 3].map(|k| {
            at += lengths[k];
            bits[k].then(|| bytes[at - lengths[k]..at].to_vec())
        });
        let record = bytes[at..at + RECORD].to_vec();
        at += RECORD;
        all.push(Recorded { inputs, record });
    }
    all
}

/// Seconds that the plain loop takes.
fn loop_over(stream: &[u8], records: &[u8]) -> f64 {
    let (mut at, mut record) = (0, [0; RECORD]);
    let since = Instant::now();
    for wanted in records.chunks_exact(RECORD) {
        at += solve_next(&stream[at..], &mut record)
            .expect("whole problems")
            .1;
        assert_eq!(record, wanted, "the original's record");
    }
    since.elapsed().as_secs_f64()
}

/// Seconds that the command takes, from its start to its end; its records go to a file.
fn many(stream: &Path, out: &Path, threads: &str, records: &[u8]) -> f64 {
    let mut command = Command::new(env!("CARGO_BIN_EXE_mlat"));
    command
        .args(["many", "-j", threads])
        .arg(stream)
        .stdout(File::create(out).expect("a file"));
    let since = Instant::now();
    assert!(command.status().expect("mlat runs").success());
    let seconds = since.elapsed().as_secs_f64();
    assert!(
        fs::read(out).expect("its records") == records,
        "the original's records"
    );
    seconds
}

fn tell_many(name: &str, problems: &[&Recorded], turns: u32, folder: &Path) {
    let times = PROBLEMS.div_ceil(problems.len());
    let (mut stream, mut records) = (Vec::new(), Vec::new());
    for problem in (0..times).flat_map(|_| problems) {
        problem.put(&mut stream);
        records.extend(&problem.record);
    }
    let (file, out) = (folder.join("many.stream"), folder.join("many.records"));
    fs::write(&file, &stream).expect("the stream");
    let mut least = [f64::INFINITY; 3];
    for _ in 0..turns {
        let taken = [
            loop_over(&stream, &records),
            many(&file, &out, "1", &records),
            many(&file, &out, "2", &records),
        ];
        least = [0, 1, 2].map(|k| least[k].min(taken[k]));
    }
    let count = (times * problems.len()) as f64;
    let [plain, one, two] = least.map(|seconds| seconds / count * 1e6);
    println!("{name}, {count} problems: {plain:.2} us a problem by the loop");
    println!("  many -j 1   {one:.2} us, {:.3} of the loop", one / plain);
    println!(
        "  many -j 2   {two:.2} us, {:.2} times as many a second",
        one / two
    );
}

fn tell_pack(problems: &[Recorded], turns: u32, folder: &Path) {
    let folders = folder.join("folders");
    let _ = fs::remove_dir_all(&folders);
    let mut names = String::new();
    for (k, problem) in problems.iter().cycle().take(FOLDERS).enumerate() {
        let folder = folders.join(k.to_string());
        fs::create_dir_all(&folder).expect("a folder");
        for (name, input) in ["receptions", "clock", "altitude", "reference"]
            .iter()
            .zip(&problem.inputs)
        {
            if let Some(bytes) = input {
                fs::write(folder.join(format!("{name}.bin")), bytes).expect("a file");
            }
        }
        names += &format!("{}\n", folder.display());
    }
    let list = folder.join("folders.txt");
    fs::write(&list, names).expect("the list");
    let pack = || {
        let mut command = Command::new(env!("CARGO_BIN_EXE_mlat"));
        command
            .args(["pack", "-"])
            .stdin(File::open(&list).expect("the list"))
            .stdout(Stdio::null());
        let since = Instant::now();
        assert!(command.status().expect("mlat runs").success());
        since.elapsed().as_secs_f64()
    };
    let least = (0..turns).map(|_| pack()).fold(f64::INFINITY, f64::min);
    println!(
        "pack, {FOLDERS} folders: {least:.2} s, {:.1} us a folder",
        least / FOLDERS as f64 * 1e6
    );
    let _ = fs::remove_dir_all(&folders);
}

fn main() {
    let words: Vec<String> = std::env::args()
        .skip(1)
        .filter(|word| word != "--bench")
        .collect();
    let [turns, folder] = words.as_slice() else {
        panic!("usage: many TURNS FOLDER");
    };
    let turns = turns.parse().expect("a number");
    let problems = recorded();
    let fixes: Vec<&Recorded> = problems
        .iter()
        .filter(|problem| problem.record[..4] == [0; 4])
        .collect();
    tell_many(
        "all recorded",
        &problems.iter().collect::<Vec<_>>(),
        turns,
        Path::new(folder),
    );
    tell_many("those with a fix", &fixes, turns, Path::new(folder));
    tell_pack(&problems, turns, Path::new(folder));
}
