//! cargo run --release --example threads THREADS TIMES FOLDER.. >RECORDS: solves the problems of the folders, all of
//! them TIMES times over, by THREADS threads, and writes their records in order, refusals too. Progress goes to standard
//! error while that is a terminal, and a last line with the rate wherever it goes.

use jifrosk::{solve_bytes, RECORD};
use std::io::{ErrorKind, IsTerminal, Write};
use std::process::ExitCode;
use std::sync::atomic::{AtomicUsize, Ordering::Relaxed};
use std::sync::Mutex;
use std::time::{Duration, Instant};

/// The bytes of a folder's four files; a file that is not there is an absent input.
struct Files {
    receptions: Vec<u8>,
    clock: Option<Vec<u8>>,
    altitude: Option<Vec<u8>>,
    reference: Option<Vec<u8>>,
}

/// The bytes of a file, none where there is no such file.
fn input(folder: &str, name: &str) -> Result<Option<Vec<u8>>, String> {
    let path = format!("{folder}/{name}.bin");
    match std::fs::read(&path) {
        Ok(bytes) => Ok(Some(bytes)),
        Err(error) if error.kind() == ErrorKind::NotFound => Ok(None),
        Err(error) => Err(format!("{path}: {error}")),
    }
}

impl Files {
    fn of_folder(folder: &str) -> Result<Self, String> {
        let file = |name| input(folder, name);
        Ok(Self {
            receptions: file("receptions")?.ok_or(format!("{folder} has no receptions.bin"))?,
            clock: file("clock")?,
            altitude: file("altitude")?,
            reference: file("reference")?,
        })
    }

    /// Writes the record, and says whether it is a refusal.
    fn solve(&self, record: &mut [u8; RECORD]) -> bool {
        let (clock, altitude) = (self.clock.as_deref(), self.altitude.as_deref());
        solve_bytes(&self.receptions, clock, altitude, self.reference.as_deref(), record) != 0
    }
}

/// How far the threads are.
#[derive(Default)]
struct Progress {
    solved: AtomicUsize,
    refused: AtomicUsize,
}

impl Progress {
    fn line(&self, since: Instant) -> String {
        let (solved, refused) = (self.solved.load(Relaxed), self.refused.load(Relaxed));
        let rate = solved as f64 / since.elapsed().as_secs_f64();
        format!("{solved} solved, {refused} of them refused, {rate:.0} a second")
    }
}

/// The records of the problems, in their order. A thread that is done with some takes the next ones, so that none waits
/// for a slow problem of another's; each record is written where it belongs.
fn solve_all(problems: &[&Files], threads: usize) -> Vec<[u8; RECORD]> {
    let mut records = vec![[0; RECORD]; problems.len()];
    let (progress, since) = (Progress::default(), Instant::now());
    let work = Mutex::new(problems.chunks(16).zip(records.chunks_mut(16)));
    std::thread::scope(|scope| {
        for _ in 0..threads {
            scope.spawn(|| loop {
                let Some((problems, records)) = work.lock().expect("no thread panics").next() else {
                    return;
                };
                for (files, record) in problems.iter().zip(records) {
                    progress.refused.fetch_add(usize::from(files.solve(record)), Relaxed);
                    progress.solved.fetch_add(1, Relaxed);
                }
            });
        }
        while std::io::stderr().is_terminal() && progress.solved.load(Relaxed) < problems.len() {
            eprint!("{}\r", progress.line(since));
            std::thread::sleep(Duration::from_millis(200));
        }
    });
    eprintln!("{}; threads: {threads}", progress.line(since));
    records
}

/// Whole numbers above 0, and the folders' problems.
fn given() -> Result<(usize, usize, Vec<Files>), String> {
    let words: Vec<String> = std::env::args().skip(1).collect();
    let [threads, times, _, ..] = words.as_slice() else {
        return Err("usage: threads THREADS TIMES FOLDER.. >RECORDS".to_string());
    };
    let whole = |word: &str| match word.parse() {
        Ok(number) if number > 0 => Ok(number),
        _ => Err(format!("{word} is no whole number above 0")),
    };
    let (threads, times) = (whole(threads)?, whole(times)?);
    let files: Result<_, _> = words[2..].iter().map(|folder| Files::of_folder(folder)).collect();
    Ok((threads, times, files?))
}

fn main() -> ExitCode {
    let written = given().and_then(|(threads, times, files)| {
        let problems: Vec<&Files> = (0..times).flat_map(|_| &files).collect();
        let records = solve_all(&problems, threads);
        let mut out = std::io::stdout().lock();
        let written = records.iter().try_for_each(|record| out.write_all(record));
        written.map_err(|error| error.to_string())
    });
    if let Err(error) = written {
        eprintln!("threads: {error}");
        return ExitCode::from(2);
    }
    ExitCode::SUCCESS
}
