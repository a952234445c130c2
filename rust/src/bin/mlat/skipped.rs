use jifrosk::Refusal;

use crate::counts::counted;
use crate::fault::{turned_away, Fault};
use crate::progress::say;

/// The records of a file that the library turns away: a fault, or passed over and counted.
pub struct Skipped {
    name: String,
    /// Whether they are passed over: `--skip-malformed`.
    on: bool,
    count: u64,
    /// The first of them, in words.
    first: Option<String>,
}

impl Skipped {
    pub fn new(name: &str, on: bool) -> Self {
        Skipped {
            name: name.to_string(),
            on,
            count: 0,
            first: None,
        }
    }

    /// The record at a place is refused: a fault at once, unless such are passed over.
    pub fn pass_over(&mut self, place: u64, record: &[u8], refusal: Refusal) -> Result<(), Fault> {
        if !self.on {
            return Err(Fault::record(&self.name, place, record, refusal));
        }
        self.count(place, record, refusal);
        Ok(())
    }

    /// Whether a record that was read is to be left out; one that is refused is counted, and [`Skipped::end`] tells.
    pub fn leaves_out<T>(&mut self, place: u64, record: &[u8], held: &Result<T, Refusal>) -> bool {
        let Err(refusal) = held else {
            return false;
        };
        self.count(place, record, *refusal);
        self.on
    }

    fn count(&mut self, place: u64, record: &[u8], refusal: Refusal) {
        self.count += 1;
        self.first
            .get_or_insert_with(|| format!("record {place} {}", turned_away(record, refusal)));
    }

    /// Where there were any: says how many were passed over, or is the fault of those that were not.
    pub fn end(&self) -> Result<(), Fault> {
        let Some(first) = &self.first else {
            return Ok(());
        };
        let name = &self.name;
        if !self.on {
            let count = counted(self.count, "malformed record");
            return Err(Fault::Input(format!("{name}: {count}, the first: {first}")));
        }
        let count = counted(self.count, "record");
        say(&format!("{name}: {count} passed over, the first: {first}"));
        Ok(())
    }
}
