//! The port's reader beside the oracle's on records and files of every kind. Built and run by compare/reader.

mod port_reader;
#[allow(dead_code)]
#[path = "../oracle/random.rs"]
mod random;
#[path = "../oracle/reader.rs"]
mod reader;
#[path = "../oracle/records.rs"]
mod records;

use port_reader::Lent;
use random::Random;
use reader::{Fields, LENGTH};

const RECORDED: &str = "crates/replay/stdin";

/// Bytes before and after the output that are not lent.
const SPARE: usize = 8;

#[derive(Default)]
struct Tally {
    /// Calls of either side.
    inputs: u64,
    differences: u64,
    /// How many calls gave each number, by call: the place, the read, the write.
    answers: [[u64; 19]; 3],
}

const CALLS: [&str; 3] = ["place", "read", "write"];

impl Tally {
    fn differs(&mut self, what: &str, words: String) {
        self.differences += 1;
        if self.differences <= 20 {
            println!("{what}: {words}");
        }
    }

    fn counts(&mut self, call: usize, number: u32) {
        self.inputs += 1;
        self.answers[call][number as usize] += 1;
    }

    /// One record by both sides: the number, every field, and all that was lent where it is refused.
    fn read(&mut self, what: &str, record: &[u8]) -> Result<Fields, u32> {
        let given = record.to_vec();
        let theirs = reader::read(record);
        let before = Lent::filled(self.inputs as u8);
        let mut lent = before;
        let ours = port_reader::read(record, &mut lent);
        let (number, after) = theirs.map_or_else(|number| (number, before), |fields| (0, before.with(&fields)));
        if ours != number || lent != after {
            self.differs(what, format!("read gives {ours}, {lent:?}; the oracle {number}, {after:?}; {record:02x?}"));
        }
        if given != record {
            self.differs(what, format!("the record changed: {record:02x?}"));
        }
        self.counts(1, number);
        theirs
    }

    /// One value by both sides, into an output of this length: the number, every byte, and those beside the output.
    fn write(&mut self, what: &str, fields: &Fields, length: usize) -> [Vec<u8>; 2] {
        let before = vec![self.inputs as u8; length + 2 * SPARE];
        let mut outs = [before.clone(), before];
        let [ours, theirs] = &mut outs;
        let number = reader::write(fields, &mut theirs[SPARE..SPARE + length]);
        let found = port_reader::write(fields, &mut ours[SPARE..SPARE + length]);
        if found != number || ours != theirs {
            let words = format!("to {length} bytes gives {found}, {ours:02x?}; the oracle {number}, {theirs:02x?}");
            self.differs(what, format!("write {words}; {fields:x?}"));
        }
        self.counts(2, number);
        outs
    }

    /// A record read; what was read is written and gives its bytes again. Where it is refused, the fields of its bytes
    /// are tried all the same.
    fn there_and_back(&mut self, what: &str, record: &[u8; LENGTH]) {
        let length = LENGTH + self.inputs as usize % 40;
        let read = self.read(what, record);
        let fields = read.unwrap_or_else(|_| Fields::of(record));
        for out in self.write(what, &fields, length) {
            if read.is_ok() && out[SPARE..SPARE + LENGTH] != *record {
                self.differs(what, format!("the bytes do not come again: {out:02x?}; {record:02x?}"));
            }
        }
    }

    /// A value written; where its bytes hold it, they are read.
    fn value(&mut self, what: &str, fields: &Fields) {
        let length = LENGTH + self.inputs as usize % 40;
        self.write(what, fields, length);
        if let Some(record) = fields.bytes() {
            self.there_and_back(what, &record);
        }
    }

    /// A place of a file: the number, and the offset, which stays where it is refused.
    fn place(&mut self, file: &[u8], place: u64) {
        let found = self.inputs.wrapping_mul(0x9e37_79b9_7f4a_7c15);
        let mut at = found;
        let ours = port_reader::record_at(file, place, &mut at);
        let theirs = reader::record_at(file, place);
        let offset = |part: &[u8]| part.as_ptr() as u64 - file.as_ptr() as u64;
        let (number, after) = theirs.map_or_else(|number| (number, found), |part| (0, offset(part)));
        if ours != number || at != after {
            let words = format!("of {} bytes, place {place}: {ours}, {at}; the oracle {number}, {after}", file.len());
            self.differs("a file", words);
        }
        self.counts(0, number);
    }

    fn report(&self) {
        for (call, row) in CALLS.iter().zip(self.answers) {
            let given = (0..row.len()).filter(|number| row[*number] > 0);
            let words: Vec<String> = given.map(|number| format!("{number} {} times", row[number])).collect();
            println!("{call:<6} answers {}", words.join(", "));
        }
        println!("{} inputs, {} differences", self.inputs, self.differences);
    }
}

/// Every record of the recorded sample, and each with every single byte changed to several values: each bit turned, the
/// next values, the ends and any one.
fn recorded(tally: &mut Tally, random: &mut Random) {
    let bytes = std::fs::read(RECORDED).unwrap_or_else(|error| panic!("{RECORDED}: {error}"));
    for record in records::recorded(&bytes) {
        tally.there_and_back("a recorded record", &record);
        for (at, byte) in record.into_iter().enumerate() {
            let bits = (0..8).map(|bit| byte ^ 1 << bit);
            let others = [byte.wrapping_add(1), byte.wrapping_sub(1), 0, 255, random.bits() as u8];
            for value in bits.chain(others).filter(|value| *value != byte) {
                let mut changed = record;
                changed[at] = value;
                tally.there_and_back("a recorded record, one byte changed", &changed);
            }
        }
    }
}

/// Both sides of each limit and each rule broken alone; of those that are read, every byte turned.
fn limits(tally: &mut Tally) {
    for (what, fields) in records::limits() {
        tally.value(what, &fields);
        let Some(record) = fields.bytes() else { continue };
        if reader::read(&record).is_err() {
            continue;
        }
        for (at, by) in (0..LENGTH).flat_map(|at| [1, 0x80, 0xff].map(|by| (at, by))) {
            let mut changed = record;
            changed[at] ^= by;
            tally.there_and_back("a record at a limit, one byte changed", &changed);
        }
    }
}

/// Records by chance: sound, with a field changed, with bytes changed, and of any bytes, most with a sound start.
fn by_chance(tally: &mut Tally, random: &mut Random, count: u64) {
    for k in 0..count {
        let sound = records::sound(random);
        let mut record = sound.bytes().expect("fields that their bytes hold");
        match k % 4 {
            0 => {
                if reader::read(&record) != Ok(sound) {
                    tally.differs("a sound record", format!("the oracle does not read it: {record:02x?}"));
                }
                tally.value("a sound record", &sound);
            }
            1 => {
                let changed = records::changed(random, sound);
                tally.value("a record with a field changed", &changed);
            }
            2 => {
                (0..1 + random.below(3)).for_each(|_| record[random.below(LENGTH)] = random.bits() as u8);
                tally.there_and_back("a record with bytes changed", &record);
            }
            _ => {
                let kept = random.of(&[0, 4, 8, 12, 16, 160, 163, 168]);
                record[kept..].iter_mut().for_each(|byte| *byte = random.bits() as u8);
                tally.there_and_back("any bytes", &record);
            }
        }
    }
}

/// Records and outputs of every length up to 400.
fn lengths(tally: &mut Tally, random: &mut Random) {
    for length in 0..=400 {
        let [fix, other] = [records::sound(random), records::sound(random)];
        let record = fix.bytes().expect("fields that their bytes hold");
        let repeated: Vec<u8> = record.iter().copied().cycle().take(length).collect();
        if tally.read("a record of another length", &repeated).is_ok() != (length == LENGTH) {
            tally.differs("a length", format!("{length} bytes"));
        }
        for fields in [fix, other, records::changed(random, other)] {
            tally.write("an output of another length", &fields, length);
        }
    }
}

/// Files of every length up to three records, of up to 64 whole ones and of over 2^32, with places of every kind.
fn files(tally: &mut Tally) {
    let bytes = [7; 64 * LENGTH];
    for length in (0..=3 * LENGTH + 1).chain((0..=64).map(|count| count * LENGTH)) {
        records::places(length).into_iter().for_each(|place| tally.place(&bytes[..length], place));
    }
    for length in [LENGTH << 33, (LENGTH << 33) + 1, LENGTH * ((1 << 32) + 1)] {
        match reserved(length) {
            Some(file) => records::places(length).into_iter().for_each(|place| tally.place(file, place)),
            None => println!("a file of {length} bytes cannot be mapped here: not tried"),
        }
    }
}

extern "C" {
    fn mmap(at: *mut u8, length: usize, protection: i32, flags: i32, file: i32, offset: i64) -> *mut u8;
}

/// So many zero bytes, which take no memory until they are read.
fn reserved(length: usize) -> Option<&'static [u8]> {
    const READ: i32 = 1;
    const PRIVATE_ANONYMOUS_UNRESERVED: i32 = 0x02 | 0x20 | 0x4000;
    let bytes = unsafe { mmap(std::ptr::null_mut(), length, READ, PRIVATE_ANONYMOUS_UNRESERVED, -1, 0) };
    (bytes as isize != -1).then(|| unsafe { std::slice::from_raw_parts(bytes, length) })
}

fn main() {
    let number = |word: String| word.parse().expect("COUNT and SEED are numbers");
    let words: Vec<u64> = std::env::args().skip(1).map(number).collect();
    let count = words.first().copied().unwrap_or(1_000_000);
    let mut random = Random::new(words.get(1).copied().unwrap_or(1));
    let mut tally = Tally::default();
    files(&mut tally);
    lengths(&mut tally, &mut random);
    limits(&mut tally);
    recorded(&mut tally, &mut random);
    by_chance(&mut tally, &mut random, count);
    tally.report();
    std::process::exit((tally.differences > 0) as i32);
}
