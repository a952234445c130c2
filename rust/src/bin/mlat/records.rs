//! `mlat records`: a file of records counted, or listed.

use std::ffi::OsString;

use jifrosk::RECORD;

use crate::args::{parse, Takes};
use crate::counts::Counts;
use crate::fault::Fault;
use crate::input::Entries;
use crate::output::{say, Output};
use crate::rows::Rows;
use crate::skipped::Skipped;

pub const HELP: &str = "\
usage: mlat records [--csv|--json] [--skip-malformed] [--tail] [-q] FILE

Counts the records of FILE, 176 bytes each: how many have each answer; when the first and the last fix were sent, in
picoseconds after the reference; and how many fixes were sent in each minute (transmit time / 60 s, rounded down).

  --csv              list them instead, a line each with all fields, and a head
  --json             the same, a JSON object a line
  --skip-malformed   leave out records that are malformed (18), and say how many; else they are counted and listed
                     with the answer 18, and the exit status is 3
  --tail             pass over a last record that is half written, and say so
  -q, --quiet        do not say how far it is, on a terminal

Floats are the shortest decimals that are read back to the same bits. FILE may be -.
";

const TAKES: Takes = Takes {
    flags: &["--csv", "--json", "--skip-malformed", "--tail", "-q", "--quiet"],
    valued: &[],
};

pub fn records(words: &[OsString]) -> Result<(), Fault> {
    let given = parse(words, &TAKES)?;
    let [file] = given.operands("mlat records [--csv|--json] FILE")?;
    let rows = match (given.has("--csv"), given.has("--json")) {
        (true, true) => return Err(Fault::Call("a list is --csv or --json, not both".to_string())),
        (true, false) => Some((Rows::csv(), Rows::head())),
        (false, true) => Some((Rows::json(), String::new())),
        (false, false) => None,
    };
    let mut entries = Entries::open(file, RECORD, &given)?;
    let mut skipped = Skipped::new(&entries.input.name, given.has("--skip-malformed"));
    match rows {
        Some((rows, head)) => list(&mut entries, &rows, &head, &mut skipped)?,
        None => count(&mut entries, &mut skipped)?,
    }
    entries.say_rest();
    skipped.end()
}

fn list(entries: &mut Entries, rows: &Rows, head: &str, skipped: &mut Skipped) -> Result<(), Fault> {
    let mut out = Output::text()?;
    out.put(head.as_bytes())?;
    entries.each(|place, record| {
        let held = jifrosk::read(record);
        if !skipped.leaves_out(place, record, &held) {
            rows.put(out.buffer(), place, &held);
        }
        out.put(b"")
    })?;
    out.finish()
}

fn count(entries: &mut Entries, skipped: &mut Skipped) -> Result<(), Fault> {
    let mut counts = Counts::default();
    entries.each(|place, record| {
        let held = jifrosk::read(record);
        if !skipped.leaves_out(place, record, &held) {
            counts.add(&held);
        }
        Ok(())
    })?;
    say(&(counts.answers() + &counts.times()))
}
