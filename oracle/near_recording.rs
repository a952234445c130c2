//! near_recording RECORDED OUT FILE WORDS SAID: searches of files with the oracle's answers, for replaying; and a file of
//! records of the recorded solves (RECORDED, crates/replay/stdin) with a query of it, as words, and what a person is to be
//! told. Built and run by oracle/keep_near.

mod near;
#[allow(dead_code)]
mod near_cases;
mod near_files;
#[allow(dead_code)]
mod random;
#[allow(dead_code)]
mod reader;
#[allow(dead_code)]
mod records;

use near_cases::{Case, case};
use near_files::{Asked, damaged, sound};
use random::Random;
use reader::LENGTH;

const MOST_BYTES: usize = 1_000_000;

#[derive(Default)]
struct Recording {
    cases: Vec<Case>,
}

impl Recording {
    /// Those within the radius, and the nearest.
    fn both(&mut self, asked: &Asked) {
        let [x, y, z] = asked.point.map(f64::to_bits);
        let query = [x, y, z, asked.radius.to_bits()];
        self.cases.push(case(false, &asked.file, query, asked.entries));
        self.cases.push(case(true, &asked.file, query, 0));
    }
}

/// The radius, metres, and what is added to the first fix's coordinates, cut to whole metres, for the point.
const RADIUS: f64 = 3_000_000.0;
const APART: [f64; 3] = [-1200.0, 350.0, 2100.0];

/// The file, the words of the query, and what is said of it: the nearest, then each within the radius.
fn told(all: &[[u8; LENGTH]]) -> (Vec<u8>, String, String) {
    let file: Vec<u8> = all.iter().step_by(4).flatten().copied().collect();
    let position = |place: u64| {
        let record: &[u8; LENGTH] = file[LENGTH * place as usize..].first_chunk().expect("a record");
        reader::Fields::of(record).ecef.map(f64::from_bits)
    };
    let first = (0..).find(|place| file[LENGTH * *place as usize] == 0).expect("a fix");
    let point: [f64; 3] = std::array::from_fn(|k| position(first)[k].trunc() + APART[k]);
    let line = |place: u64| {
        let [x, y, z]: [f64; 3] = std::array::from_fn(|k| position(place)[k] - point[k]);
        format!("place {place}, {:.3} m away\n", (x * x + y * y + z * z).sqrt())
    };
    let (mut place, mut places, mut count) = (0, vec![0; file.len() / LENGTH], 0);
    assert_eq!(near::nearest(&file, &point, &mut place), 0);
    assert_eq!(near::within(&file, &point, RADIUS, &mut places, &mut count), 0);
    let lines: String = places[..count as usize].iter().map(|place| line(*place)).collect();
    let [x, y, z] = point;
    let words = format!("--ecef\n{x}\n{y}\n{z}\n{RADIUS}\n");
    println!("{} records in a file, {count} fixes within the radius", file.len() / LENGTH);
    let said = format!("nearest: {}{lines}", line(place));
    (file, words, said)
}

fn main() {
    let words: Vec<String> = std::env::args().skip(1).collect();
    let [from, out, file, asked, said] = words.as_slice() else {
        panic!("near_recording RECORDED OUT FILE WORDS SAID");
    };
    let all = records::recorded(&std::fs::read(from).expect("the recorded inputs are readable"));
    let mut random = Random::new(12);
    let mut recording = Recording::default();
    for count in 0..=10 {
        (0..16).for_each(|_| recording.both(&sound(&mut random, count)));
        (0..14).for_each(|_| recording.both(&damaged(&mut random, count)));
    }
    for count in [33, 64, 80] {
        (0..2).for_each(|_| recording.both(&sound(&mut random, count)));
        recording.both(&damaged(&mut random, count));
    }
    let bytes: Vec<u8> = recording.cases.iter().flat_map(Case::bytes).collect();
    for number in [0, 14, 16, 18, 22] {
        println!("{number}: {}", recording.cases.iter().filter(|case| case.number == number).count());
    }
    println!("{} cases, {} bytes", recording.cases.len(), bytes.len());
    assert!(bytes.len() <= MOST_BYTES, "over {MOST_BYTES} bytes");
    std::fs::write(out, bytes).expect("the recording is writable");
    let (records, query, lines) = told(&all);
    std::fs::write(file, records).expect("the file is writable");
    std::fs::write(asked, query).expect("the words are writable");
    std::fs::write(said, lines).expect("the lines are writable");
}
