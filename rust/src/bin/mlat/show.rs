//! `mlat show`: one record of a file, in words.

use std::ffi::{OsStr, OsString};

use jifrosk::{Record, Refusal, RECORD};

use crate::args::{parse, Takes};
use crate::fault::Fault;
use crate::input::Entries;
use crate::json;
use crate::output::Output;
use crate::words::{self, Extent};

pub const HELP: &str = "\
usage: mlat show [--json] [--tail] [-q] FILE PLACE

Shows the record at PLACE, from 0, of FILE, records of 176 bytes: every field of a fix; or why there is none and what to
do about it, and then the exit status is 1.

  --json        a JSON object
  --tail        a last record that is half written is no fault
  -q, --quiet   do not say how far it is, on a terminal: a pipe is read to its end

A file that is not whole records is refused (16) before its place is looked at. FILE may be -.
";

const TAKES: Takes = Takes {
    flags: &["--json", "--tail", "-q", "--quiet"],
    valued: &[],
};

pub fn show(words: &[OsString]) -> Result<(), Fault> {
    let given = parse(words, &TAKES)?;
    let [file, place] = given.operands("mlat show FILE PLACE")?;
    let place = place_of(place)?;
    let mut entries = Entries::open(file, RECORD, &given)?;
    let bytes = find(&mut entries, place)?;
    let name = &entries.input.name;
    let record = jifrosk::read(&bytes).map_err(|refusal| Fault::record(name, place, &bytes, refusal))?;
    let mut out = Output::text()?;
    if given.has("--json") {
        put_json(out.buffer(), place, &record);
    } else {
        out.put(in_words(name, place, &record).as_bytes())?;
    }
    out.finish()?;
    match record {
        Record::Fix(_) => Ok(()),
        Record::Refused { .. } => Err(Fault::Refused),
    }
}

/// A place of so many digits that no file has it is past every file's end.
fn place_of(word: &OsStr) -> Result<u64, Fault> {
    let digits = word.to_str().filter(|text| text.bytes().all(|c| c.is_ascii_digit()));
    match digits {
        Some(text) if !text.is_empty() => Ok(text.parse().unwrap_or(u64::MAX)),
        _ => Err(Fault::Call(format!(
            "PLACE is a whole number from 0, not {}",
            word.display()
        ))),
    }
}

/// The record at a place: sought in a file, waited for in a pipe, which is read to its end, for it may be torn.
fn find(entries: &mut Entries, place: u64) -> Result<[u8; RECORD], Fault> {
    if let Some(size) = entries.input.size {
        let count = size / RECORD as u64;
        if place >= count {
            return Err(no_such_place(&entries.input.name, count));
        }
        let mut record = [0; RECORD];
        entries.input.skip(place * RECORD as u64)?;
        entries.input.fill(&mut record)?;
        return Ok(record);
    }
    let mut found = None;
    entries.each(|at, record| {
        if at == place {
            found = record.try_into().ok();
        }
        Ok(())
    })?;
    found.ok_or_else(|| no_such_place(&entries.input.name, entries.count()))
}

fn no_such_place(name: &str, count: u64) -> Fault {
    let number = Refusal::NoSuchPlace.number();
    Fault::Refusal(match count {
        0 => format!("{name}: no such place ({number}): it has no records"),
        _ => format!("{name}: no such place ({number}): its records are 0 to {}", count - 1),
    })
}

fn in_words(name: &str, place: u64, record: &Record) -> String {
    let lines = words::record(record, Extent::Whole);
    let lines: String = lines.lines().map(|line| format!("  {line}\n")).collect();
    format!("the record at place {place} of {name}:\n{lines}")
}

fn put_json(out: &mut Vec<u8>, place: u64, record: &Record) {
    let mut object = json::Object::begin(out);
    object.whole("place", place);
    json::put_record(&mut object, record);
    json::put_told(&mut object, record);
    object.end();
    out.push(b'\n');
}
