//! The port's moves to the archive's form and back beside the oracle's, on records of every kind. Built and run by
//! compare/archive.

#[path = "../oracle/archive.rs"]
mod archive;
#[path = "../oracle/archives.rs"]
mod archives;
mod port_archive;
#[allow(dead_code)]
#[path = "../oracle/random.rs"]
mod random;
#[allow(dead_code)]
#[path = "../oracle/reader.rs"]
mod reader;
#[allow(dead_code)]
#[path = "../oracle/records.rs"]
mod records;

use archive::ARCHIVED;
use archives::{cut, mirrored, unequal};
use random::Random;
use reader::LENGTH;

const RECORDED: &str = "crates/replay/stdin";

/// Bytes before and after the output that are not lent.
const SPARE: usize = 8;

#[derive(Default)]
struct Tally {
    /// Calls of either side.
    inputs: u64,
    differences: u64,
    /// Records that came back as they were, of either form.
    back: [u64; 2],
    /// How many calls gave each number, by way.
    answers: [[u64; 21]; 2],
}

const WAYS: [&str; 2] = ["there", "back"];

impl Tally {
    fn differs(&mut self, what: &str, words: String) {
        self.differences += 1;
        if self.differences <= 20 {
            println!("{what}: {words}");
        }
    }

    /// One record by both sides, there (0) or back (1), into an output of this length: the number, every byte of the
    /// output and those beside it.
    fn moved(&mut self, what: &str, way: usize, record: &[u8], length: usize) -> Option<Vec<u8>> {
        let given = record.to_vec();
        let before = vec![self.inputs as u8; length + 2 * SPARE];
        let (mut ours, mut theirs) = (before.clone(), before);
        let lent = SPARE..SPARE + length;
        let (found, number) = if way == 0 {
            (
                port_archive::to_archive(record, &mut ours[lent.clone()]),
                archive::to_archive(record, &mut theirs[lent.clone()]),
            )
        } else {
            (
                port_archive::from_archive(record, &mut ours[lent.clone()]),
                archive::from_archive(record, &mut theirs[lent.clone()]),
            )
        };
        if found != number || ours != theirs || given != record {
            let words = format!("to {length} bytes gives {found}, {ours:02x?}; the oracle {number}, {theirs:02x?}");
            self.differs(what, format!("{} {words}; {record:02x?}", WAYS[way]));
        }
        self.inputs += 1;
        self.answers[way][number as usize] += 1;
        (number == 0).then(|| ours[lent].to_vec())
    }

    /// An old record there, and what it becomes back; its bytes without those left of the diagonal back, and what they
    /// become there. What is moved comes back byte for byte.
    fn both_ways(&mut self, what: &str, record: &[u8; LENGTH]) {
        let more = self.inputs as usize % 40;
        if let Some(form) = self.moved(what, 0, record, ARCHIVED + more) {
            let back = self.moved(what, 1, &form[..ARCHIVED], LENGTH + more);
            if back.is_none_or(|back| back[..LENGTH] != *record) {
                self.differs(what, format!("did not come back: {record:02x?}"));
            }
            self.back[0] += 1;
        }
        let form = cut(record);
        if let Some(old) = self.moved(what, 1, &form, LENGTH + more) {
            let again = self.moved(what, 0, &old[..LENGTH], ARCHIVED + more);
            if again.is_none_or(|again| again[..ARCHIVED] != form) {
                self.differs(what, format!("did not come back: {form:02x?}"));
            }
            self.back[1] += 1;
        }
    }

    fn report(&self) {
        for (way, row) in WAYS.iter().zip(self.answers) {
            let given = (0..row.len()).filter(|number| row[*number] > 0);
            let words: Vec<String> = given.map(|number| format!("{number} {} times", row[number])).collect();
            println!("{way:<5} answers {}", words.join(", "));
        }
        println!("{} old records and {} new ones came back byte for byte", self.back[0], self.back[1]);
        println!("{} inputs, {} differences", self.inputs, self.differences);
    }
}

/// Every record of the recorded sample, and each with every single byte changed.
fn recorded(tally: &mut Tally, random: &mut Random) {
    let bytes = std::fs::read(RECORDED).unwrap_or_else(|error| panic!("{RECORDED}: {error}"));
    for record in records::recorded(&bytes) {
        if archive::to_archive(&record, &mut [0; ARCHIVED]) != 0 {
            tally.differs("a record of the original's solve", format!("the oracle does not move it: {record:02x?}"));
        }
        tally.both_ways("a recorded record", &record);
        for at in 0..LENGTH {
            let mut changed = record;
            changed[at] ^= 1 << random.below(8);
            tally.both_ways("a recorded record, one byte changed", &changed);
        }
    }
}

/// Both sides of each limit of the reader's rules, with an equal mirror and with another.
fn limits(tally: &mut Tally, random: &mut Random) {
    for (what, fields) in records::limits() {
        for fields in [fields, mirrored(fields), unequal(random, fields)] {
            if let Some(record) = fields.bytes() {
                tally.both_ways(what, &record);
            }
        }
    }
}

/// Records by chance: with an equal mirror, with another, with a field changed, with bytes changed, and of any bytes.
fn by_chance(tally: &mut Tally, random: &mut Random, count: u64) {
    for k in 0..count {
        let sound = records::sound(random);
        let fields = match k % 5 {
            0 | 1 => mirrored(sound),
            2 => unequal(random, sound),
            3 => records::changed(random, mirrored(sound)),
            _ => sound,
        };
        let Some(mut record) = fields.bytes() else { continue };
        if k % 10 == 9 {
            (0..1 + random.below(3)).for_each(|_| record[random.below(LENGTH)] = random.bits() as u8);
        }
        if k % 50 == 4 {
            let kept = random.of(&[0, 4, 12, 80, 152, 160, 168]);
            record[kept..].iter_mut().for_each(|byte| *byte = random.bits() as u8);
        }
        tally.both_ways("a record by chance", &record);
    }
}

/// Records and outputs of every length up to 400.
fn lengths(tally: &mut Tally, random: &mut Random) {
    for length in 0..=400 {
        let sound = records::sound(random);
        let other = unequal(random, sound);
        for fields in [mirrored(sound), other] {
            let record = fields.bytes().expect("fields that their bytes hold");
            let repeated: Vec<u8> = record.iter().copied().cycle().take(length).collect();
            for way in 0..2 {
                for out in [0, 151, 152, 175, 176, 400] {
                    tally.moved("a record of another length", way, &repeated, out);
                }
            }
            tally.moved("an output of another length", 0, &record, length);
            tally.moved("an output of another length", 1, &cut(&record), length);
        }
    }
}

fn main() {
    let number = |word: String| word.parse().expect("COUNT and SEED are numbers");
    let words: Vec<u64> = std::env::args().skip(1).map(number).collect();
    let count = words.first().copied().unwrap_or(1_000_000);
    let mut random = Random::new(words.get(1).copied().unwrap_or(1));
    let mut tally = Tally::default();
    lengths(&mut tally, &mut random);
    limits(&mut tally, &mut random);
    recorded(&mut tally, &mut random);
    by_chance(&mut tally, &mut random, count);
    tally.report();
    std::process::exit((tally.differences > 0) as i32);
}
