//! How many records have each answer, and when the fixes were sent.

use std::collections::BTreeMap;
use std::fmt::Write;

use jifrosk::{Record, Refusal};

/// The picoseconds of a minute.
const MINUTE: i64 = 60_000_000_000_000;

/// Answers are 0, a fix, and the numbers of refusals, 1 to 24.
const ANSWERS: usize = 25;

/// So many things, as `1 record` and `2 fixes`.
pub fn counted(count: u64, thing: &str) -> String {
    let ending = match (count, thing.ends_with('x')) {
        (1, _) => "",
        (_, true) => "es",
        (_, false) => "s",
    };
    format!("{count} {thing}{ending}")
}

#[derive(Default)]
pub struct Counts {
    answers: [u64; ANSWERS],
    /// The least and the greatest transmit time of the fixes, picoseconds.
    sent: Option<[i64; 2]>,
    /// The fixes of each minute; transmit times have under 310,000 minutes.
    minutes: BTreeMap<i64, u64>,
    /// Fixes of one minute, one after the other, which `minutes` has not yet.
    run: (i64, u64),
}

impl Counts {
    /// Counts a record, or one that the library turns away.
    pub fn add(&mut self, held: &Result<Record, Refusal>) {
        match held {
            Ok(Record::Fix(fix)) => self.add_fix(fix.transmit_ps),
            Ok(Record::Refused { refusal, .. }) | Err(refusal) => self.answers[refusal.number() as usize] += 1,
        }
    }

    fn add_fix(&mut self, transmit_ps: i64) {
        self.answers[0] += 1;
        let [least, most] = self.sent.unwrap_or([transmit_ps; 2]);
        self.sent = Some([least.min(transmit_ps), most.max(transmit_ps)]);
        let minute = transmit_ps.div_euclid(MINUTE);
        if minute != self.run.0 {
            self.end_run();
            self.run = (minute, 0);
        }
        self.run.1 += 1;
    }

    fn end_run(&mut self) {
        let (minute, fixes) = self.run;
        if fixes > 0 {
            *self.minutes.entry(minute).or_default() += fixes;
        }
    }

    /// How many records there are, and how many of each answer: a line each.
    pub fn answers(&self) -> String {
        let total: u64 = self.answers.iter().sum();
        let width = total.to_string().len();
        let mut text = format!("records {total}\n");
        for (answer, count) in (0..).zip(self.answers).filter(|(_, count)| *count > 0) {
            // writing to a string does not fail
            let _ = writeln!(text, "answer {answer:>2} {:<16} {count:>width$}", name(answer));
        }
        text
    }

    /// When the fixes were sent, and how many in each minute.
    pub fn times(mut self) -> String {
        self.end_run();
        let Some([first, last]) = self.sent else {
            return String::new();
        };
        let mut text = format!("first sent at {first} ps\nlast sent at {last} ps\n");
        for (minute, fixes) in self.minutes {
            let _ = writeln!(text, "minute {minute} fixes {fixes}");
        }
        text
    }
}

fn name(answer: u32) -> &'static str {
    Refusal::of(answer, 0).map_or("FIX", |refusal| refusal.name())
}
