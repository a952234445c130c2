//! states_recording OUT: inputs with what why.rs tells of them, for replaying: the eight bytes and the files as kept.rs has them, then number and detail, u32 each, and a
//! buffer of 640 bytes that was A5 before. In this order: for each telling kind the first solved ones by what becomes of their receptions; for each other kind and
//! answer the first few.

use oracle::damage::{self, KINDS};
use oracle::kept::{self, Kept};
use oracle::random::Random;
use oracle::record;
use oracle::scene::Files;
use oracle::why::{self, LEAST, State, Told};

const SEED: u64 = 9;

/// Outliers, few receptions beside outliers, screened, correlated clocks with outliers.
const TELLING: [usize; 4] = [2, 3, 4, 11];

#[derive(Default)]
struct Recording {
    bytes: Vec<u8>,
    inputs: usize,
    answers: [usize; 16],
}

impl Recording {
    fn keep(&mut self, files: &Files) {
        let Some(mut bytes) = kept::bytes(&Kept { files: files.clone(), record: [0; record::LENGTH] }) else { return };
        bytes.truncate(bytes.len() - record::LENGTH);
        let (mut states, mut detail) = ([0xA5; LEAST], 0);
        let number = why::why(files, &mut states, &mut detail);
        self.bytes.extend(bytes);
        self.bytes.extend(number.to_le_bytes());
        self.bytes.extend(detail.to_le_bytes());
        self.bytes.extend(states);
        self.inputs += 1;
        self.answers[number as usize] += 1;
    }
}

/// A name, and whether the states of a solved problem are of that sort.
type Sort = (&'static str, fn(&Told) -> bool);

fn removed(told: &Told) -> usize {
    told.states.iter().filter(|state| matches!(state, State::Removed { .. })).count()
}

fn left_out(told: &Told) -> usize {
    told.states.iter().filter(|state| matches!(state, State::LeftOut(_))).count()
}

const SORTS: [Sort; 7] = [
    ("all used", |told| removed(told) + left_out(told) == 0),
    ("one removed", |told| removed(told) == 1),
    ("three or more removed", |told| removed(told) > 2),
    ("a removal in few failing pairs after one in more", |told| {
        told.states.iter().any(|state| matches!(state, State::Removed { turn, clashes: 1 } if *turn > 1))
    }),
    ("one left out", |told| left_out(told) == 1),
    ("three or more left out", |told| left_out(told) > 2),
    ("both", |told| removed(told) > 0 && left_out(told) > 0),
];

fn sorts(recording: &mut Recording, quota: usize) {
    let mut found = [0; SORTS.len()];
    for k in 0..40_000u64 {
        let files = damage::files(&mut Random::of_problem(SEED, k), TELLING[k as usize % TELLING.len()]);
        let told = why::told(&files);
        let of: Vec<usize> = (0..SORTS.len()).filter(|sort| told.number == 0 && found[*sort] < quota && SORTS[*sort].1(&told)).collect();
        if !of.is_empty() {
            of.iter().for_each(|sort| found[*sort] += 1);
            recording.keep(&files);
        }
    }
    SORTS.iter().zip(found).for_each(|((name, _), count)| println!("{name}: {count}"));
}

fn kinds(recording: &mut Recording, quota: usize) {
    let mut found = [[0; 16]; KINDS];
    for k in 0..20_000u64 {
        let kind = k as usize % KINDS;
        let files = damage::files(&mut Random::of_problem(SEED + 1, k), kind);
        let count = &mut found[kind][why::told(&files).number as usize];
        if *count < quota {
            *count += 1;
            recording.keep(&files);
        }
    }
}

fn main() {
    let words: Vec<String> = std::env::args().skip(1).collect();
    let [out] = words.as_slice() else {
        panic!("states_recording OUT");
    };
    let mut recording = Recording::default();
    sorts(&mut recording, 25);
    kinds(&mut recording, 1);
    println!("answers: {:?}", recording.answers);
    println!("{} inputs, {} bytes", recording.inputs, recording.bytes.len());
    std::fs::write(out, recording.bytes).expect("the recording is writable");
}
