//! reader_recording RECORDED OUT: cases of the reader with the oracle's answers, for replaying. RECORDED are the
//! recorded inputs of the solve (crates/replay/stdin), whose records are read. Built and run by oracle/keep_records.

#[allow(dead_code)]
mod random;
mod reader;
#[allow(dead_code)]
mod reader_cases;
#[allow(dead_code)]
mod records;

use random::Random;
use reader::{Fields, LENGTH};
use reader_cases::{Call, Case, case};

const MOST_BYTES: usize = 1_000_000;

#[derive(Default)]
struct Recording {
    cases: Vec<Case>,
}

impl Recording {
    fn read(&mut self, record: &[u8]) {
        self.cases.push(case(Call::Read { record: record.to_vec() }));
    }

    fn write(&mut self, fields: &Fields, length: usize) {
        self.cases.push(case(Call::Write { fields: *fields, length }));
    }
}

/// Files of whole records and torn ones, places about their ends and those whose 176-fold wraps.
fn places(recording: &mut Recording, random: &mut Random) {
    for length in [0, 1, 175, 176, 177, 352, 353, 528] {
        let file: Vec<u8> = (0..length).map(|_| random.bits() as u8).collect();
        let count = (length / LENGTH) as u64;
        let wrap = u64::MAX / LENGTH as u64 + 1;
        let mut places = vec![0, 1, 2, 3, count + 1, 1 << 32, wrap, 1 << 60, (1 << 60) + 1, 1 << 63, u64::MAX];
        places.dedup();
        for place in places {
            recording.cases.push(case(Call::Place { place, file: file.clone() }));
        }
    }
}

/// The first few of each answer, some of them with each byte changed, and records of other lengths.
fn recorded(recording: &mut Recording, random: &mut Random, all: &[[u8; LENGTH]]) {
    let mut found = [0; 16];
    for record in all {
        let answer = usize::from(record[0]);
        found[answer] += 1;
        if found[answer] <= if answer == 0 { 40 } else { 6 } {
            recording.read(record);
        }
        if found[answer] == 3 && [0, 1, 12].contains(&answer) {
            for at in 0..LENGTH {
                let mut changed = *record;
                changed[at] ^= 1 << random.below(8);
                recording.read(&changed);
            }
            for length in [0, 1, 8, 175, 177, 352] {
                recording.read(&record.iter().copied().cycle().take(length).collect::<Vec<u8>>());
            }
        }
    }
}

/// Limits that are kept to either side, all of them.
fn is_kept(what: &str, fields: &Fields) -> bool {
    match what {
        "a refusal's detail" => [1, 11, 12].contains(&fields.answer),
        "a mask in a refusal" | "a version in a refusal" | "a kind in a refusal" | "a transmit time in a refusal" => {
            fields.answer == 1
        }
        "a fix's version" | "a fix's kind" | "a fix's float" => fields.n == 7,
        what => what == "few used",
    }
}

/// Those, and of the other limits one of each kind and answer, and some more.
fn limits(recording: &mut Recording, random: &mut Random) {
    let mut found = std::collections::BTreeMap::new();
    for (what, fields) in records::limits() {
        let accepted = reader::write(&fields, &mut [0; LENGTH]) == 0;
        let count: &mut usize = found.entry((what, accepted, fields.answer)).or_default();
        *count += 1;
        if *count > 1 && !is_kept(what, &fields) && !random.one_in(60) {
            continue;
        }
        match fields.bytes() {
            Some(record) if !random.one_in(4) => recording.read(&record),
            _ => recording.write(&fields, LENGTH + random.below(4)),
        }
    }
}

/// Sound values, and values with a field changed, read and written; outputs of other lengths.
fn by_chance(recording: &mut Recording, random: &mut Random) {
    for k in 0..240 {
        let sound = records::sound(random);
        let fields = if k % 3 == 0 { sound } else { records::changed(random, sound) };
        recording.write(&fields, LENGTH + random.below(4));
        if let Some(record) = fields.bytes().filter(|_| k % 3 == 0) {
            recording.read(&record);
        }
    }
    for length in [0, 1, 8, 175, 176, 177, 200] {
        let sound = records::sound(random);
        recording.write(&sound, length);
        recording.write(&Fields { answer: 14, ..sound }, length);
    }
}

fn main() {
    let words: Vec<String> = std::env::args().skip(1).collect();
    let [from, out] = words.as_slice() else {
        panic!("reader_recording RECORDED OUT");
    };
    let all = records::recorded(&std::fs::read(from).expect("the recorded inputs are readable"));
    let mut recording = Recording::default();
    let mut random = Random::new(1);
    places(&mut recording, &mut random);
    recorded(&mut recording, &mut random, &all);
    limits(&mut recording, &mut random);
    by_chance(&mut recording, &mut random);
    let bytes: Vec<u8> = recording.cases.iter().flat_map(Case::bytes).collect();
    for number in [0, 14, 16, 17, 18] {
        println!("{number}: {}", recording.cases.iter().filter(|case| case.number == number).count());
    }
    println!("{} cases, {} bytes", recording.cases.len(), bytes.len());
    assert!(bytes.len() <= MOST_BYTES, "over {MOST_BYTES} bytes");
    std::fs::write(out, bytes).expect("the recording is writable");
}
