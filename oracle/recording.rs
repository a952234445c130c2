//! recording OUT LIST: problems with the original's answers, for replaying (kept.rs has the form). In this order: the whole outputs that document 01 states; the edges of edges.rs;
//! identities decided by each field; corrections of an altitude; for each kind and answer the first few; rare courses of the rounds, a few of each; and the inputs whose numbers stand in LIST (seed and number of
//! compare/solve), which tell mutants from the original.

use oracle::damage::{self, KINDS};
use oracle::edges::{EDGES, SEED};
use oracle::identities::{PLACES, decided};
use oracle::input;
use oracle::kept::{self, Kept};
use oracle::obs::ObservationId;
use oracle::random::Random;
use oracle::record;
use oracle::scene::{Files, RECEPTION, Scene};
use oracle::sky;
use oracle::steep;
use oracle::trace::{Change, Trace, trace};

const MOST_BYTES: usize = 4_000_000;

#[derive(Default)]
struct Recording {
    bytes: Vec<u8>,
    problems: usize,
    answers: [usize; 16],
}

impl Recording {
    fn keep(&mut self, files: &Files) {
        let (answer, record) = record::record(files);
        if let Some(bytes) = kept::bytes(&Kept { files: files.clone(), record }) {
            self.bytes.extend(bytes);
            self.problems += 1;
            self.answers[answer as usize] += 1;
        }
    }
}

fn receptions(files: &Files) -> usize {
    files.receptions.as_ref().map_or(0, |bytes| bytes.len() / RECEPTION)
}

fn whole_outputs(recording: &mut Recording) {
    recording.keep(&Files::default());
    recording.keep(&Files { clock: Some(Vec::new()), ..Files::default() });
}

fn edges(recording: &mut Recording) {
    for (name, find, numbers) in EDGES {
        for k in numbers {
            let scenes = find(&mut Random::of_problem(SEED, *k)).unwrap_or_else(|| panic!("{name}: number {k} has none"));
            scenes.iter().for_each(|scene| recording.keep(&scene.files()));
        }
        println!("{name}: {}", numbers.len());
    }
}

/// A problem with a fix, its identities ascending by one byte, each pair of neighbours swapped, and one twice: for the places of `PLACES`, and for those of the
/// receiver with short number and message alike.
fn identities(recording: &mut Recording) {
    let mut random = Random::new(SEED);
    let scene = loop {
        let scene = sky::sound(&mut random, 4, true).scene;
        if record::record(&scene.files()).0 == 0 {
            break scene;
        }
    };
    let mut keep = |names: [ObservationId; 4]| {
        let mut scene = scene.clone();
        scene.receptions.iter_mut().zip(names).for_each(|(r, name)| r.identity = name);
        recording.keep(&scene.files());
    };
    let alike = PLACES.iter().filter(|place| **place < 32).map(|place| (*place, true));
    for (place, alike) in PLACES.iter().map(|place| (*place, false)).chain(alike) {
        let [a, b, c, d] = decided(place, alike);
        for names in [[a, b, c, d], [b, a, c, d], [a, c, b, d], [a, b, d, c], [a, b, c, c]] {
            keep(names);
        }
    }
}

/// Five receptions of an aircraft with a barometric altitude of less than that size, and a fix.
fn barometric(random: &mut Random, most: f64) -> Scene {
    loop {
        let scene = sky::sound(random, 5, true).scene;
        if scene.altitude.is_some_and(|(kind, metres)| kind == 1 && metres.abs() < most) && record::record(&scene.files()).0 == 0 {
            return scene;
        }
    }
}

/// A problem with a fix, with corrections on both sides of every end, against which its metres are changed or not; one near the ground with both zeros and the ends of
/// the metres' domain; and the same altitudes by GNSS.
fn corrections(recording: &mut Recording) {
    const CORRECTIONS: [i32; 17] = [0, 1, -1, 99, 100, -350, 9_850, -12_345, 99_999, 100_000, 100_001, -99_999, -100_000, -100_001, 1 << 24, i32::MAX, i32::MIN];
    let mut random = Random::new(SEED);
    let (aloft, low) = (barometric(&mut random, 100_000.0), barometric(&mut random, 100.0));
    let height = aloft.altitude.map_or(0.0, |(_, metres)| metres);
    let beyond = f64::from_bits(100_000f64.to_bits() + 1);
    let mut keep = |scene: &Scene, kind: u8, metres: f64, correction: i32| {
        recording.keep(&Scene { altitude: Some((kind, metres)), correction, ..scene.clone() }.files());
    };
    for kind in [1, 2] {
        for correction in CORRECTIONS {
            keep(&aloft, kind, height, correction);
            keep(&aloft, kind, height - f64::from(correction) / 100.0, correction);
        }
        for metres in [0.0, -0.0, 100_000.0, -100_000.0, beyond, -beyond] {
            for correction in [0, 1, -1, 35, 5_000, 100_000, -100_000] {
                keep(&low, kind, metres, correction);
            }
        }
    }
    // all of a height under 1,000 m is the correction: one that a product with 0.01 would make another number
    let hill = barometric(&mut Random::new(SEED), 900.0);
    let least = hill.altitude.map_or(0, |(_, metres)| (100.0 * metres) as i32);
    let correction = (least..).find(|cm| f64::from(*cm) * 0.01 != f64::from(*cm) / 100.0).unwrap_or(0);
    keep(&hill, 1, 0.0, correction);
    keep(&hill, 1, -0.0, correction);
}

/// The first of each kind and answer with few receptions (or too many), and some with more.
fn kinds(recording: &mut Recording, seed: u64, few: usize, many: usize) {
    let mut found = [[[0; 2]; 16]; KINDS];
    for k in 0..60_000u64 {
        let kind = k as usize % KINDS;
        let files = damage::files(&mut Random::of_problem(seed, k), kind);
        let size = usize::from((9..33).contains(&receptions(&files)));
        let count = &mut found[kind][record::record(&files).0 as usize][size];
        if *count < [few, many][size] {
            *count += 1;
            recording.keep(&files);
        }
    }
}

/// A name, and whether a problem's rounds took that course.
type Course = (&'static str, fn(&Scene, &Trace, u32) -> bool);

const COURSES: [Course; 9] = [
    ("no fixed point", |_, _, answer| answer == 4),
    ("a fix after a return", |_, told, answer| answer == 0 && told.returns() > 0),
    ("a fix after two returns", |_, told, answer| answer == 0 && told.returns() > 1),
    ("a refusal after a return", |_, told, answer| answer != 0 && answer != 4 && told.returns() > 0),
    ("four of three by a return", |_, told, _| {
        told.rounds.iter().any(|round| round.subset.len() == 3 && matches!(round.change, Some(Change::Return(_))))
    }),
    ("too few after a removal", |_, told, answer| answer == 1 && told.changes().count() > 0),
    ("ambiguous after a removal", |_, told, answer| answer == 8 && told.changes().count() > 0),
    ("no plausible fit after a removal", |_, told, answer| answer == 3 && told.rounds.last().is_some_and(|round| round.fit.is_err()) && told.rounds.len() > 1),
    ("a fix after five removals", |_, told, answer| answer == 0 && told.changes().count() > 4),
];

/// Kinds in which the rounds make changes.
const CHANGING: [usize; 5] = [2, 3, 10, 11, 16];

fn courses(recording: &mut Recording, seed: u64, quota: usize) {
    let mut found = [0; COURSES.len()];
    for k in 0..60_000u64 {
        let files = damage::files(&mut Random::of_problem(seed, k), CHANGING[k as usize % CHANGING.len()]);
        if receptions(&files) > 12 || found.iter().all(|count| *count >= quota) {
            continue;
        }
        let Ok(scene) = input::read(&files) else { continue };
        let answer = record::record(&files).0;
        let told = trace(&scene.problem());
        let fits: Vec<usize> = (0..COURSES.len()).filter(|c| found[*c] < quota && COURSES[*c].1(&scene, &told, answer)).collect();
        if !fits.is_empty() {
            fits.iter().for_each(|course| found[*course] += 1);
            recording.keep(&files);
        }
    }
    COURSES.iter().zip(found).for_each(|((name, _), count)| println!("{name}: {count}"));
}

/// Lines of a seed and a number; the rest of a line is a remark.
fn listed(recording: &mut Recording, list: &str) {
    for line in list.lines().filter(|line| !line.starts_with('#')) {
        let numbers: Vec<u64> = line.split_whitespace().take(2).map(|word| word.parse().expect("a seed and a number")).collect();
        recording.keep(&damage::files(&mut Random::of_problem(numbers[0], numbers[1]), numbers[1] as usize % KINDS));
    }
}

fn main() {
    let words: Vec<String> = std::env::args().skip(1).collect();
    let [out, list] = words.as_slice() else {
        panic!("recording OUT LIST");
    };
    let mut recording = Recording::default();
    whole_outputs(&mut recording);
    edges(&mut recording);
    recording.keep(&steep::files_off());
    identities(&mut recording);
    corrections(&mut recording);
    kinds(&mut recording, 1, 9, 1);
    courses(&mut recording, 2, 25);
    listed(&mut recording, &std::fs::read_to_string(list).expect("the list is readable"));
    println!("answers: {:?}", recording.answers);
    println!("{} problems, {} bytes", recording.problems, recording.bytes.len());
    assert!(recording.bytes.len() <= MOST_BYTES, "over {MOST_BYTES} bytes");
    std::fs::write(out, recording.bytes).expect("the recording is writable");
}
