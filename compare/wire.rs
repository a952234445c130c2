//! The port's wire numbers beside the oracle's, on records and whole numbers of every kind. Built and run by
//! compare/wire.

mod port_wire;
#[path = "../oracle/positions.rs"]
mod positions;
#[allow(dead_code)]
#[path = "../oracle/random.rs"]
mod random;
#[allow(dead_code)]
#[path = "../oracle/reader.rs"]
mod reader;
#[allow(dead_code)]
#[path = "../oracle/records.rs"]
mod records;
#[path = "../oracle/wire.rs"]
mod wire;

use random::Random;
use reader::{Fields, LENGTH};

const RECORDED: &str = "crates/replay/stdin";

#[derive(Default)]
struct Tally {
    /// Calls of either side.
    calls: u64,
    differences: u64,
    /// How many calls gave each number: writing, reading back.
    answers: [[u64; 20]; 2],
}

impl Tally {
    fn counts(&mut self, call: usize, number: u32, alike: bool, words: impl Fn() -> String) {
        self.calls += 1;
        self.answers[call][number as usize] += 1;
        if alike {
            return;
        }
        self.differences += 1;
        if self.differences <= 20 {
            println!("{}", words());
        }
    }

    /// One record by both sides: the number and the lent memory, which stays where it is refused.
    fn write(&mut self, record: &[u8]) {
        let found = [self.calls as i32; 3];
        let mut ours = found;
        let answer = port_wire::to_wire(record, &mut ours);
        let theirs = wire::to_wire(record);
        let (number, after) = theirs.map_or_else(|number| (number, found), |wire| (0, wire));
        let alike = answer == number && ours == after;
        self.counts(0, number, alike, || format!("{answer}, {ours:?}; the oracle {number}, {after:?}; {record:02x?}"));
    }

    /// Whole numbers by both sides; those that are read are written again, in this fix, as they were.
    fn read(&mut self, whole: [i32; 3], fix: Fields) {
        let found = [f64::from(self.calls as u32); 3];
        let mut ours = found;
        let answer = port_wire::from_wire(whole, &mut ours);
        let theirs = wire::from_wire(whole);
        let (number, after) = theirs.map_or_else(|number| (number, found), |position| (0, position));
        let alike = answer == number && ours.map(f64::to_bits) == after.map(f64::to_bits);
        self.counts(1, number, alike, || format!("{answer}, {ours:?}; the oracle {number}, {after:?}; {whole:?}"));
        if number != 0 {
            return;
        }
        let record = positions::placed(fix, ours).bytes().expect("fields that their bytes hold");
        let mut again = [0; 3];
        let answer = port_wire::to_wire(&record, &mut again);
        let alike = answer == 0 && again == whole;
        self.counts(0, 0, alike, || format!("{whole:?} comes back as {answer}, {again:?}"));
    }
}

/// A sound fix.
fn fix(random: &mut Random) -> Fields {
    loop {
        let fields = records::sound(random);
        if fields.answer == 0 {
            return fields;
        }
    }
}

/// Every special number at each coordinate, the others in the middle.
fn special(tally: &mut Tally, random: &mut Random) {
    for k in 0..3 {
        for x in positions::special(k) {
            let mut position = [0.0; 3];
            position[k] = x;
            let fields = positions::placed(fix(random), position);
            tally.write(&fields.bytes().expect("fields that their bytes hold"));
        }
    }
    let ends = |k: usize| wire::LIMITS[k].0 as i64 * wire::UNITS[k] as i64..=wire::LIMITS[k].1 as i64 * wire::UNITS[k] as i64;
    for k in 0..3 {
        for end in [*ends(k).start(), *ends(k).end(), 0, i64::from(i32::MIN) + 2, i64::from(i32::MAX) - 2] {
            for whole in end - 2..=end + 2 {
                let mut wire = [0; 3];
                wire[k] = whole as i32;
                tally.read(wire, fix(random));
            }
        }
    }
}

/// The records of the recorded solves, refusals among them, and records of other lengths.
fn recorded(tally: &mut Tally) {
    let bytes = std::fs::read(RECORDED).unwrap_or_else(|error| panic!("{RECORDED}: {error}"));
    for record in records::recorded(&bytes) {
        tally.write(&record);
    }
    let record = records::recorded(&bytes)[0];
    for length in 0..=400 {
        tally.write(&record.iter().copied().cycle().take(length).collect::<Vec<u8>>());
    }
}

/// Positions by chance in sound fixes, one in eight of them damaged or a refusal; whole numbers by chance.
fn by_chance(tally: &mut Tally, random: &mut Random, count: u64) {
    let mut sound = fix(random);
    for k in 0..count {
        if k % 16 == 0 {
            sound = fix(random);
        }
        let position = std::array::from_fn(|k| positions::coordinate(random, k));
        let placed = positions::placed(sound, position);
        let fields = match random.below(16) {
            0 => records::changed(random, placed),
            1 => positions::placed(records::sound(random), position),
            _ => placed,
        };
        let mut record = fields.bytes().unwrap_or([0; LENGTH]);
        if random.one_in(64) {
            record[random.below(LENGTH)] = random.bits() as u8;
        }
        tally.write(&record);
        tally.read(std::array::from_fn(|k| positions::whole(random, k)), sound);
    }
}

fn main() {
    let number = |word: String| word.parse().expect("COUNT and SEED are numbers");
    let words: Vec<u64> = std::env::args().skip(1).map(number).collect();
    let count = words.first().copied().unwrap_or(1_000_000);
    let mut random = Random::new(words.get(1).copied().unwrap_or(1));
    let mut tally = Tally::default();
    special(&mut tally, &mut random);
    recorded(&mut tally);
    by_chance(&mut tally, &mut random, count);
    for (call, row) in ["writing", "reading back"].iter().zip(tally.answers) {
        let given = (0..row.len()).filter(|number| row[*number] > 0);
        let words: Vec<String> = given.map(|number| format!("{number} {} times", row[number])).collect();
        println!("{call} answers {}", words.join(", "));
    }
    println!("{} calls, {} differences", tally.calls, tally.differences);
    std::process::exit((tally.differences > 0) as i32);
}
