//! `mlat check`: what is wrong with a file of records.

use std::ffi::OsString;
use std::fmt::Write;

use jifrosk::{Refusal, RECORD};

use crate::args::{parse, Takes};
use crate::counts::{counted, Counts};
use crate::fault::{turned_away, Fault};
use crate::input::{torn, Entries};
use crate::output::say;

pub const HELP: &str = "\
usage: mlat check [--tail] [-q] FILE

Reads every record of FILE, 176 bytes each, as every other command does. It prints each malformed record with its place,
from 0, and the rule that it breaks, the first 20 of them; whether the file is torn; and how many records have each
answer. The exit status is 0 where the file is whole and every record can be read, and 3 otherwise.

  --tail        a last record that is half written is no fault: say so
  -q, --quiet   print nothing: the exit status tells

FILE may be -.
";

const TAKES: Takes = Takes {
    flags: &["--tail", "-q", "--quiet"],
    valued: &[],
};

/// How many malformed records are printed.
const MOST: u64 = 20;

/// What is wrong with the records of a file.
#[derive(Default)]
struct Findings {
    malformed: u64,
    text: String,
}

impl Findings {
    fn add(&mut self, place: u64, record: &[u8], refusal: Refusal) {
        self.malformed += 1;
        if self.malformed <= MOST {
            // writing to a string does not fail
            let _ = writeln!(self.text, "record {place} {}", turned_away(record, refusal));
        }
    }
}

pub fn check(words: &[OsString]) -> Result<(), Fault> {
    let given = parse(words, &TAKES)?;
    let [file] = given.operands("mlat check FILE")?;
    let mut entries = Entries::open_torn(file, RECORD, &given)?;
    let (mut counts, mut found) = (Counts::default(), Findings::default());
    entries.each(|place, record| {
        let held = jifrosk::read(record);
        counts.add(&held);
        if let Err(refusal) = held {
            found.add(place, record, refusal);
        }
        Ok(())
    })?;
    let is_torn = entries.rest > 0 && !given.has("--tail");
    if given.is_quiet() {
        return if is_torn || found.malformed > 0 {
            Err(Fault::Unsound)
        } else {
            Ok(())
        };
    }
    tell(&entries, &counts, found, is_torn)
}

fn tell(entries: &Entries, counts: &Counts, mut found: Findings, is_torn: bool) -> Result<(), Fault> {
    if found.malformed > MOST {
        let more = counted(found.malformed - MOST, "more malformed record");
        let _ = writeln!(found.text, "and {more}");
    }
    let words = torn(entries.input.done, RECORD);
    if is_torn {
        let _ = writeln!(found.text, "{words}");
    } else {
        entries.say_rest();
    }
    say(&(found.text + &counts.answers()))?;
    let malformed = format!("malformed records (18): {} of {}", found.malformed, entries.count());
    let fault = match (found.malformed, is_torn) {
        (0, false) => return Ok(()),
        (0, true) => words,
        (_, false) => malformed,
        (_, true) => format!("{malformed}; {words}"),
    };
    Err(Fault::Input(format!("{}: {fault}", entries.input.name)))
}
