//! `mlat solve`: the fix of one problem.

use std::ffi::{OsStr, OsString};
use std::path::Path;

use jifrosk::{read, Record, RECORD};

use crate::args::{parse, Takes};
use crate::fault::Fault;
use crate::folder::Folder;
use crate::output::{say, Output};
use crate::words::Extent;
use crate::{json, words};

pub const HELP: &str = "\
usage: mlat solve [--json|--record] FOLDER

Solves the problem of FOLDER: receptions.bin, clock.bin, altitude.bin and reference.bin, of which one that is not there
is an absent input. Says where the aircraft was, or why there is no fix and what to do about it.

  --json     one object on one line, with every field
  --record   the record, 176 bytes, of a refusal too

Exit status: 0 a fix; 1 a refusal; 2 a wrong call; 4 cannot read; 5 cannot write.
";

const TAKES: Takes = Takes {
    flags: &["--json", "--record"],
    valued: &[],
};

pub fn solve(words: &[OsString]) -> Result<(), Fault> {
    let given = parse(words, &TAKES)?;
    let [folder] = given.operands("mlat solve [--json|--record] FOLDER")?;
    if given.has("--json") && given.has("--record") {
        return Err(Fault::Call("--json and --record do not go together".to_string()));
    }
    if given.has("--record") {
        return put_record(Path::new(folder));
    }
    let problem = Folder::of(Path::new(folder))?;
    tell(&problem, &held(&solved(&problem)), given.has("--json"))
}

fn put_record(folder: &Path) -> Result<(), Fault> {
    let mut out = Output::bytes(OsStr::new("-"))?;
    let record = solved(&Folder::of(folder)?);
    out.put(&record)?;
    out.finish()?;
    answered(&held(&record))
}

/// The bytes of a problem's record.
pub fn solved(problem: &Folder) -> [u8; RECORD] {
    let [receptions, clock, altitude, reference] = problem.inputs();
    let mut record = [0; RECORD];
    jifrosk::solve_bytes(receptions.unwrap_or_default(), clock, altitude, reference, &mut record);
    record
}

/// What a record of the solve holds. One with a number that is not finite, and none is known, is refused by the reader.
pub fn held(record: &[u8; RECORD]) -> Record {
    read(record).unwrap_or_else(|refusal| Record::Refused { refusal, n: 0 })
}

/// Tells the answer to a problem; where lengths decided it, a person is told these too.
pub fn tell(problem: &Folder, record: &Record, json: bool) -> Result<(), Fault> {
    let by_lengths = [13, 15].contains(&record.fix().map_or_else(|refusal| refusal.number(), |_| 0));
    match json {
        true => say(json::record(record))?,
        false if by_lengths => say(words::record(record, Extent::Short) + &lengths(problem))?,
        false => say(words::record(record, Extent::Short))?,
    }
    answered(record)
}

/// The files' lengths, and those that they should have.
fn lengths(problem: &Folder) -> String {
    let lengths = problem.lengths();
    format!("{lengths}: receptions have 132 bytes each, the clock 8 n n for n of them, altitude 16, reference 8\n")
}

fn answered(record: &Record) -> Result<(), Fault> {
    record.fix().map(|_| ()).map_err(|_| Fault::Refused)
}
