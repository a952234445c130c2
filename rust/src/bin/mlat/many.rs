//! `mlat many`: a stream of problems, solved by all cores.

use std::ffi::{OsStr, OsString};
use std::thread::available_parallelism;

use jifrosk::{solve_next, RECORD};

use crate::args::{parse, whole, Given, Takes};
use crate::crew::{work, Part, Results};
use crate::fault::Fault;
use crate::frames::Frames;
use crate::output::Output;
use crate::progress::Progress;
use crate::receivers;

pub const HELP: &str = "\
usage: mlat many [-j N] [-o OUT] [--tail] [-q] [FILE..]
       mlat many --why [--json] [-j N] [-o OUT] [--tail] [-q] [FILE..]

Solves streams of problems (`mlat pack` makes them): the files one after the other, or standard input. Writes a record
of 176 bytes for each problem, of a refusal too, in their order, each as soon as it is solved and those before it are.

  -j N          by N threads; by as many as there are cores, if nothing is said
  -o OUT        to OUT, which is whole or as it was, instead of standard output
  --tail        pass over a last problem that is half written, and say so
  -q, --quiet   do not say how far it is, on a terminal
  --why         instead of records a line for each receiver, those first that are used least: of its receptions in
                solved problems how many were used, left out and removed, its residuals, and in how many refused
                problems it took part
  --json        with --why: one object on one line, with whole keys

A stream that ends within a problem is a fault (3); what was solved before it is on standard output.
";

const TAKES: Takes = Takes {
    flags: &["--why", "--json", "--tail", "-q", "--quiet"],
    valued: &["-j", "-o"],
};

/// The most threads that can be asked for.
const THREADS: u64 = 1024;

pub fn many(words: &[OsString]) -> Result<(), Fault> {
    let given = parse(words, &TAKES)?;
    let threads = threads(&given)?;
    if given.has("--json") && !given.has("--why") {
        return Err(Fault::Call("--json goes with --why: records are bytes".to_string()));
    }
    let out = match given.value("-o") {
        None if given.has("--why") => Output::text()?,
        named => Output::bytes(named.unwrap_or(OsStr::new("-")))?,
    };
    let frames = Frames::open(&given.operands, given.has("--tail"))?;
    let progress = Progress::unless(given.is_quiet());
    match given.has("--why") {
        true => receivers::tally(
            work(frames, threads, receivers::tell_part)?,
            progress,
            out,
            given.has("--json"),
        ),
        false => write_records(work(frames, threads, solve_part)?, progress, out),
    }
}

fn threads(given: &Given) -> Result<usize, Fault> {
    let Some(word) = given.value("-j") else {
        return Ok(available_parallelism().map_or(1, usize::from));
    };
    match whole("-j", word)? {
        threads @ 1..=THREADS => Ok(threads as usize),
        threads => Err(Fault::Call(format!("-j is from 1 to {THREADS}, not {threads}"))),
    }
}

/// How many problems are done, and how many of them are fixes.
#[derive(Default)]
pub struct Count {
    pub problems: u64,
    pub fixes: u64,
}

impl Count {
    pub fn add(&mut self, other: &Count) {
        self.problems += other.problems;
        self.fixes += other.fixes;
    }

    /// For the line that tells how far the command is.
    pub fn line(&self, seconds: f64) -> String {
        let (problems, fixes, refused) = (self.problems, self.fixes, self.problems - self.fixes);
        let rate = problems as f64 / seconds;
        format!("{problems} problems, {fixes} fixes, {refused} refused, {rate:.0} a second")
    }
}

fn write_records(solved: Results<Solved>, mut progress: Progress, mut out: Output) -> Result<(), Fault> {
    let mut count = Count::default();
    for solved in solved {
        let (records, solved) = solved?;
        out.put(&records)?;
        out.flush()?;
        count.add(&solved);
        progress.tell(|seconds| count.line(seconds));
    }
    out.finish()
}

/// Records in the order of their problems, and how many.
type Solved = (Vec<u8>, Count);

fn solve_part(part: &Part) -> Solved {
    let mut records = vec![0; RECORD * part.ends.len()];
    let mut count = Count::default();
    let mut at = 0;
    for record in records.chunks_exact_mut(RECORD) {
        let (answer, taken) = solve_next(&part.bytes[at..], record).expect("a part is whole problems");
        at += taken;
        count.problems += 1;
        count.fixes += u64::from(answer == 0);
    }
    (records, count)
}
