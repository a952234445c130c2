//! wire_recording RECORDED OUT: calls of the wire with the oracle's answers, for replaying, in the form of
//! crates/replay_wire/RECORDING.md. RECORDED are the recorded inputs of the solve (crates/replay/stdin), whose records
//! are written. Built and run by oracle/keep_wire.

mod positions;
#[allow(dead_code)]
mod random;
#[allow(dead_code)]
mod reader;
#[allow(dead_code)]
mod records;
mod wire;

use random::Random;
use reader::{Fields, LENGTH};
use wire::{LIMITS, UNITS};

/// What the lent memory is filled with before a call.
const FOUND: u8 = 0xa5;

#[derive(Default)]
struct Recording {
    bytes: Vec<u8>,
    /// How many calls gave each number: writing, reading back.
    answers: [[u64; 20]; 2],
}

impl Recording {
    fn call(&mut self, which: u8, number: u32, input: &[u8], length: usize, after: &[u8]) {
        self.answers[usize::from(which)][number as usize] += 1;
        self.bytes.extend([which, number as u8, 0, 0]);
        self.bytes.extend((length as u32).to_le_bytes());
        self.bytes.extend(input);
        self.bytes.extend(after);
    }

    fn write(&mut self, record: &[u8]) {
        let (number, after) = match wire::to_wire(record) {
            Ok(whole) => (0, whole.into_iter().flat_map(i32::to_le_bytes).collect()),
            Err(number) => (number, vec![FOUND; 12]),
        };
        self.call(0, number, record, record.len(), &after);
    }

    fn place(&mut self, random: &mut Random, position: [f64; 3]) {
        let fields = positions::placed(fix(random), position);
        self.write(&fields.bytes().expect("fields that their bytes hold"));
    }

    fn read(&mut self, whole: [i32; 3]) {
        let (number, after) = match wire::from_wire(whole) {
            Ok(position) => (0, position.into_iter().flat_map(f64::to_le_bytes).collect()),
            Err(number) => (number, vec![FOUND; 24]),
        };
        let input: Vec<u8> = whole.into_iter().flat_map(i32::to_le_bytes).collect();
        self.call(1, number, &input, 0, &after);
    }
}

fn fix(random: &mut Random) -> Fields {
    std::iter::repeat_with(|| records::sound(random)).find(|fields| fields.answer == 0).expect("a fix")
}

/// Every special number at each coordinate, the others in the middle; the corners.
fn special(recording: &mut Recording, random: &mut Random) {
    for k in 0..3 {
        for x in positions::special(k) {
            let mut position = [0.0; 3];
            position[k] = x;
            recording.place(random, position);
        }
        for end in [LIMITS[k].0, LIMITS[k].1].map(|end| i128::from(end) * UNITS[k]).into_iter().chain([0]) {
            for whole in end - 1..=end + 1 {
                let mut wire = [0; 3];
                wire[k] = whole as i32;
                recording.read(wire);
            }
        }
        for whole in [i32::MIN, i32::MAX] {
            let mut wire = [0; 3];
            wire[k] = whole;
            recording.read(wire);
        }
    }
    let corner = |high: [bool; 3]| std::array::from_fn(|k| f64::from(if high[k] { LIMITS[k].1 } else { LIMITS[k].0 }));
    for k in 0..8 {
        recording.place(random, corner([k & 1 == 1, k & 2 == 2, k & 4 == 4]));
    }
}

/// The first few records of each answer of the solve, one of them in other lengths and with bytes changed.
fn recorded(recording: &mut Recording, random: &mut Random, all: &[[u8; LENGTH]]) {
    let mut found = [0; 16];
    for record in all {
        let answer = usize::from(record[0]);
        found[answer] += 1;
        if found[answer] <= if answer == 0 { 40 } else { 3 } {
            recording.write(record);
        }
        if answer == 0 && found[0] == 1 {
            for length in [0, 1, 8, 175, 177, 352] {
                recording.write(&record.iter().copied().cycle().take(length).collect::<Vec<u8>>());
            }
            for at in (0..LENGTH).step_by(3) {
                let mut changed = *record;
                changed[at] ^= 1 << random.below(8);
                recording.write(&changed);
            }
        }
    }
}

/// Positions, whole numbers and records by chance.
fn by_chance(recording: &mut Recording, random: &mut Random) {
    for k in 0..1_000 {
        let position = std::array::from_fn(|k| positions::coordinate(random, k));
        recording.place(random, position);
        if k % 2 == 0 {
            recording.read(std::array::from_fn(|k| positions::whole(random, k)));
        }
        if k % 10 == 0 {
            let fields = positions::placed(records::sound(random), position);
            fields.bytes().into_iter().for_each(|record| recording.write(&record));
            let placed = positions::placed(fix(random), position);
            let changed = records::changed(random, placed);
            changed.bytes().into_iter().for_each(|record| recording.write(&record));
        }
    }
}

fn main() {
    let words: Vec<String> = std::env::args().skip(1).collect();
    let [from, out] = words.as_slice() else {
        panic!("wire_recording RECORDED OUT");
    };
    let all = records::recorded(&std::fs::read(from).expect("the recorded inputs are readable"));
    let mut recording = Recording::default();
    let mut random = Random::new(1);
    special(&mut recording, &mut random);
    recorded(&mut recording, &mut random, &all);
    by_chance(&mut recording, &mut random);
    for (call, row) in ["writing", "reading back"].iter().zip(recording.answers) {
        let given = (0..row.len()).filter(|number| row[*number] > 0);
        let words: Vec<String> = given.map(|number| format!("{number} {} times", row[number])).collect();
        println!("{call}: {}", words.join(", "));
    }
    let calls: u64 = recording.answers.iter().flatten().sum();
    println!("{calls} calls, {} bytes", recording.bytes.len());
    std::fs::write(out, recording.bytes).expect("the recording is writable");
}
