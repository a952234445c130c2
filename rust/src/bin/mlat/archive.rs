//! `mlat archive` and `mlat unarchive`: records moved to the archive's form of 152 bytes, and back.

use std::ffi::OsString;

use jifrosk::{Refusal, ARCHIVED, RECORD};

use crate::args::{parse, Takes};
use crate::counts::counted;
use crate::fault::Fault;
use crate::input::Entries;
use crate::output::Output;
use crate::progress::say;
use crate::skipped::Skipped;

pub const ARCHIVE_HELP: &str = "\
usage: mlat archive [--skip-malformed] [--tail] [-q] IN OUT

Moves the records of IN, 176 bytes each, to the archive's form of 152, which has six covariance entries for nine.
`mlat unarchive` gives the same bytes again.

  --skip-malformed   pass over records that are malformed (18) or have an unequal mirror (20), and say how many
  --tail             pass over a last record that is half written, and say so
  -q, --quiet        do not say how far it is, on a terminal, nor how many records were moved

OUT is whole or as it was. IN and OUT may be -.
";

pub const UNARCHIVE_HELP: &str = "\
usage: mlat unarchive [--skip-malformed] [--tail] [-q] IN OUT

Moves the records of IN, 152 bytes each in the archive's form, back to records of 176.

  --skip-malformed   pass over records that are malformed (18), and say how many
  --tail             pass over a last record that is half written, and say so
  -q, --quiet        do not say how far it is, on a terminal, nor how many records were moved

OUT is whole or as it was. IN and OUT may be -.
";

const TAKES: Takes = Takes {
    flags: &["--skip-malformed", "--tail", "-q", "--quiet"],
    valued: &[],
};

/// A record of one form, moved to the other.
type Moved<const TO: usize> = fn(&[u8]) -> Result<[u8; TO], Refusal>;

pub fn archive(words: &[OsString]) -> Result<(), Fault> {
    move_records("mlat archive IN OUT", words, RECORD, to_archive)
}

pub fn unarchive(words: &[OsString]) -> Result<(), Fault> {
    move_records("mlat unarchive IN OUT", words, ARCHIVED, from_archive)
}

fn to_archive(record: &[u8]) -> Result<[u8; ARCHIVED], Refusal> {
    let mut moved = [0; ARCHIVED];
    jifrosk::to_archive(record, &mut moved).map(|()| moved)
}

fn from_archive(record: &[u8]) -> Result<[u8; RECORD], Refusal> {
    let mut moved = [0; RECORD];
    jifrosk::from_archive(record, &mut moved).map(|()| moved)
}

fn move_records<const TO: usize>(usage: &str, words: &[OsString], from: usize, moved: Moved<TO>) -> Result<(), Fault> {
    let given = parse(words, &TAKES)?;
    let [input, output] = given.operands(usage)?;
    let mut entries = Entries::open(input, from, &given)?;
    let mut out = Output::bytes(output)?;
    let mut skipped = Skipped::new(&entries.input.name, given.has("--skip-malformed"));
    let mut count = 0_u64;
    entries.each(|place, record| match moved(record) {
        Ok(bytes) => {
            count += 1;
            out.put(&bytes)
        }
        Err(refusal) => skipped.pass_over(place, record, refusal),
    })?;
    out.finish()?;
    entries.say_rest();
    skipped.end()?;
    if !given.is_quiet() {
        let (before, after) = (count * from as u64, count * TO as u64);
        say(&format!(
            "{} moved, {before} bytes to {after}",
            counted(count, "record")
        ));
    }
    Ok(())
}
