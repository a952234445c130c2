//! `mlat asterix`: the fixes of a file as items of Eurocontrol's category 020.

use std::ffi::OsString;

use jifrosk::{Refusal, ITEMS, RECORD};

use crate::args::{parse, Takes};
use crate::counts::counted;
use crate::fault::Fault;
use crate::input::Entries;
use crate::output::Output;
use crate::progress::say;
use crate::skipped::Skipped;

pub const HELP: &str = "\
usage: mlat asterix [--skip-malformed] [--tail] [-q] IN OUT

Writes the fixes of IN, records of 176 bytes, as items I020/041 and I020/105 of Eurocontrol's category 020: ten bytes a
fix, in the file's order. Records that hold no fix, or a position beyond the limits of the wire, are passed over.

  --skip-malformed   pass over records that are malformed (18) too, and say how many
  --tail             pass over a last record that is half written, and say so
  -q, --quiet        do not say how far it is, on a terminal, nor how many fixes were written

OUT is whole or as it was. IN and OUT may be -.
";

const TAKES: Takes = Takes {
    flags: &["--skip-malformed", "--tail", "-q", "--quiet"],
    valued: &[],
};

/// What became of the records.
#[derive(Default)]
struct Export {
    written: u64,
    without_fix: u64,
    beyond_wire: u64,
    beyond_items: u64,
}

pub fn asterix(words: &[OsString]) -> Result<(), Fault> {
    let given = parse(words, &TAKES)?;
    let [input, output] = given.operands("mlat asterix IN OUT")?;
    let mut entries = Entries::open(input, RECORD, &given)?;
    let mut out = Output::bytes(output)?;
    let mut skipped = Skipped::new(&entries.input.name, given.has("--skip-malformed"));
    let mut export = Export::default();
    entries.each(|place, record| match items(record) {
        Ok(items) => {
            export.written += 1;
            out.put(&items)
        }
        Err(refusal) if export.counts(record, refusal) => Ok(()),
        Err(refusal) => skipped.pass_over(place, record, refusal),
    })?;
    out.finish()?;
    entries.say_rest();
    skipped.end()?;
    if !given.is_quiet() {
        export.say();
    }
    Ok(())
}

fn items(record: &[u8]) -> Result<[u8; ITEMS], Refusal> {
    jifrosk::to_wire(record)?.to_asterix()
}

impl Export {
    /// Whether a record is one that is passed over, and then it is counted.
    fn counts(&mut self, record: &[u8], refusal: Refusal) -> bool {
        match refusal {
            // the answer of a fix is 0
            Refusal::BeyondTheWire if record[..4] != [0; 4] => self.without_fix += 1,
            Refusal::BeyondTheWire => self.beyond_wire += 1,
            Refusal::BeyondTheItems => self.beyond_items += 1,
            _ => return false,
        }
        true
    }

    fn say(&self) {
        let passed = self.without_fix + self.beyond_wire + self.beyond_items;
        let reasons = [
            (self.without_fix, "without a fix"),
            (self.beyond_wire, "beyond the wire (19)"),
            (self.beyond_items, "beyond the items (23)"),
        ];
        let why: Vec<String> = reasons
            .into_iter()
            .filter(|(count, _)| *count > 0)
            .map(|(count, words)| format!("{count} {words}"))
            .collect();
        let why = if why.is_empty() {
            String::new()
        } else {
            format!(": {}", why.join(", "))
        };
        let (written, passed) = (counted(self.written, "fix"), counted(passed, "record"));
        say(&format!("{written} written, {passed} passed over{why}"));
    }
}
