//! asterix_recording RECORDED OUT RECORDS ITEMS: calls of the items with the oracle's answers, for replaying, in the
//! form of crates/replay_asterix/RECORDING.md; and a file of records with the items that it becomes.
//! RECORDED are the recorded inputs of the solve (crates/replay/stdin), whose records are in that file. Built and run by
//! oracle/keep_asterix.

mod asterix;
mod displays;
#[allow(dead_code)]
mod positions;
#[allow(dead_code)]
mod random;
#[allow(dead_code)]
mod reader;
#[allow(dead_code)]
mod records;
#[allow(dead_code)]
mod wire;

use random::Random;

/// What the lent memory is filled with before a call.
const FOUND: u8 = 0xa5;

#[derive(Default)]
struct Recording {
    bytes: Vec<u8>,
    /// How many calls gave 0 and 23: exporting, writing, reading.
    answers: [[u64; 2]; 3],
}

impl Recording {
    fn call(&mut self, which: u8, length: usize, input: &[u8], after: Result<Vec<u8>, usize>) {
        let number = if after.is_ok() { 0 } else { asterix::BEYOND_THE_ITEMS };
        self.answers[usize::from(which)][usize::from(number != 0)] += 1;
        self.bytes.extend([which, number as u8, length as u8, 0, 0, 0, 0, 0]);
        self.bytes.extend(input);
        self.bytes.extend(after.unwrap_or_else(|lent| vec![FOUND; lent]));
    }

    /// The wire's numbers, to so many lent bytes.
    fn export(&mut self, numbers: [i32; 3], length: usize) {
        let after = asterix::to_asterix(numbers, length).map(Vec::from);
        self.call(0, length, &bytes(numbers), after.map_err(|_| length));
    }

    /// Multiples, to so many lent bytes.
    fn write(&mut self, multiples: [i32; 3], length: usize) {
        let after = asterix::write_asterix(multiples, length).map(Vec::from);
        self.call(1, length, &bytes(multiples), after.map_err(|_| length));
    }

    fn read(&mut self, items: &[u8]) {
        let after = asterix::read_asterix(items).map(bytes);
        self.call(2, items.len(), items, after.map_err(|_| 12));
    }
}

fn bytes(numbers: [i32; 3]) -> Vec<u8> {
    numbers.into_iter().flat_map(i32::to_le_bytes).collect()
}

/// Every special number at each coordinate, the others 0; the corners of the globe.
fn special(recording: &mut Recording) {
    for k in 0..3 {
        for whole in displays::special(k) {
            let mut numbers = [0; 3];
            numbers[k] = whole;
            recording.export(numbers, asterix::LENGTH);
            recording.write(numbers, asterix::LENGTH);
        }
    }
    for k in 0..8 {
        let end = |bit: i32, whole: i32| if k & bit == 0 { whole } else { -whole };
        recording.export([end(1, 900_000_000), end(2, 1_800_000_000), end(4, 62_422_087)], asterix::LENGTH);
    }
}

/// Each call with every length from 0 to 12.
fn lengths(recording: &mut Recording, random: &mut Random) {
    for length in 0..=12 {
        recording.export([475_000_000, -1_225_000_000, 10_668_000], length);
        recording.export([900_000_001, 0, 0], length);
        recording.write([8_854_529, -22_835_366, 5_600], length);
        recording.read(&(0..length).map(|_| random.bits() as u8).collect::<Vec<u8>>());
        recording.read(&vec![0xff; length]);
    }
}

fn by_chance(recording: &mut Recording, random: &mut Random) {
    for k in 0..700 {
        let numbers = std::array::from_fn(|k| displays::whole(random, k));
        recording.export(numbers, asterix::LENGTH);
        recording.write(displays::multiples(random), asterix::LENGTH);
        let items: [u8; 10] = std::array::from_fn(|_| random.bits() as u8);
        recording.read(&items);
        if k % 4 == 0 {
            asterix::to_asterix(numbers, asterix::LENGTH).into_iter().for_each(|items| recording.read(&items));
        }
    }
}

/// Records of the solve, refusals among them, then fixes at the ends of the items' range and beyond the wire; and the
/// items of those that the wire has.
fn file(random: &mut Random, all: &[[u8; reader::LENGTH]]) -> (Vec<u8>, Vec<u8>, usize) {
    let taken = |(k, record): &(usize, &[u8; reader::LENGTH])| k % if record[0] == 0 { 8 } else { 60 } == 0;
    let solved = all.iter().enumerate().filter(taken);
    let mut found: Vec<[u8; reader::LENGTH]> = solved.map(|(_, record)| *record).collect();
    let corners = [[90.0, 180.0, 25_000.0], [-90.0, -180.0, -1_500.0]];
    let ends = [corners[0], corners[1], [0.0, 179.999_997_4, 0.0], [-45.0, 179.999_997_3, 0.952_5]];
    let beyond = [[90.000_1, 0.0, 0.0], [0.0, 180.000_1, 0.0], [0.0, 0.0, 25_000.1], [0.0, 0.0, f64::MAX]];
    for position in ends.into_iter().chain(beyond) {
        let fields = positions::placed(records::fix_of(random, 5, 0), position);
        found.push(fields.bytes().expect("fields that their bytes hold"));
    }
    let written: Vec<[i32; 3]> = found.iter().filter_map(|record| wire::to_wire(record).ok()).collect();
    let items = |numbers: &[i32; 3]| asterix::to_asterix(*numbers, asterix::LENGTH).expect("the wire's limits");
    (found.concat(), written.iter().flat_map(items).collect(), found.len() - written.len())
}

fn main() {
    let words: Vec<String> = std::env::args().skip(1).collect();
    let [from, out, old, new] = words.as_slice() else {
        panic!("asterix_recording RECORDED OUT RECORDS ITEMS");
    };
    let mut recording = Recording::default();
    let mut random = Random::new(1);
    special(&mut recording);
    lengths(&mut recording, &mut random);
    by_chance(&mut recording, &mut random);
    for (call, row) in ["exporting", "writing", "reading"].iter().zip(recording.answers) {
        println!("{call}: 0 {} times, 23 {} times", row[0], row[1]);
    }
    let calls: u64 = recording.answers.iter().flatten().sum();
    println!("{calls} calls, {} bytes", recording.bytes.len());
    std::fs::write(out, recording.bytes).expect("the recording is writable");
    let all = records::recorded(&std::fs::read(from).expect("the recorded inputs are readable"));
    let (before, after, passed) = file(&mut random, &all);
    let count = before.len() / reader::LENGTH;
    println!("{count} records in a file, {passed} of them passed over, {} bytes of items", after.len());
    std::fs::write(old, before).expect("the file is writable");
    std::fs::write(new, after).expect("the file is writable");
}
