//! archive_recording RECORDED OUT OLD NEW: moves to the archive's form and back with the oracle's answers, for replaying;
//! and a file of records with what it is moved to. RECORDED are the recorded inputs of the solve (crates/replay/stdin),
//! whose records are moved. Built and run by oracle/keep_archive.

mod archive;
#[allow(dead_code)]
mod archive_cases;
#[allow(dead_code)]
mod archives;
#[allow(dead_code)]
mod random;
#[allow(dead_code)]
mod reader;
#[allow(dead_code)]
mod records;

use archive::ARCHIVED;
use archive_cases::{Case, case};
use archives::{MIRRORED, cut, mirrored, unequal};
use random::Random;
use reader::{Fields, LENGTH};

const MOST_BYTES: usize = 1_000_000;

#[derive(Default)]
struct Recording {
    cases: Vec<Case>,
}

impl Recording {
    /// A record there, and, cut to the new form, back.
    fn both(&mut self, random: &mut Random, record: &[u8; LENGTH]) {
        self.cases.push(case(false, record, ARCHIVED + random.below(4)));
        self.cases.push(case(true, &cut(record), LENGTH + random.below(4)));
    }

    fn of(&mut self, random: &mut Random, fields: &Fields) {
        if let Some(record) = fields.bytes() {
            self.both(random, &record);
        }
    }
}

/// The first few of each answer; one fix and one refusal with each byte changed.
fn recorded(recording: &mut Recording, random: &mut Random, all: &[[u8; LENGTH]]) {
    let mut found = [0; 16];
    for record in all {
        let answer = usize::from(record[0]);
        found[answer] += 1;
        if found[answer] <= if answer == 0 { 30 } else { 3 } {
            recording.both(random, record);
        }
        if found[answer] == 3 && [0, 1].contains(&answer) {
            for at in 0..LENGTH {
                let mut changed = *record;
                changed[at] ^= 1 << random.below(8);
                recording.cases.push(case(false, &changed, ARCHIVED));
                if at < ARCHIVED {
                    let mut changed = cut(record);
                    changed[at] ^= 1 << random.below(8);
                    recording.cases.push(case(true, &changed, LENGTH));
                }
            }
        }
    }
}

/// Each bit of each mirrored entry turned, on either side; 0 beside -0; not-a-numbers, which are 18 and not 20.
fn mirrors(recording: &mut Recording, random: &mut Random) {
    let plain = mirrored(records::fix_of(random, 8, 1));
    for (right, left) in MIRRORED {
        for bit in 0..64 {
            let mut fields = plain;
            fields.covariance[if bit % 2 == 0 { right } else { left }] ^= 1 << bit;
            recording.of(random, &fields);
        }
        for (a, b) in [(0, 1 << 63), (1 << 63, 0), (0x7ff8 << 48, 0x7ff8 << 48), (0x7ff0 << 48, 1)] {
            let mut fields = plain;
            fields.covariance[right] = a;
            fields.covariance[left] = b;
            recording.of(random, &fields);
        }
    }
    // entries left of the diagonal beside a refusal
    for at in 0..9 {
        let mut fields = Fields { answer: 5, n: 7, ..Fields::default() };
        fields.covariance[at] = 1;
        recording.of(random, &fields);
    }
}

/// Records with an equal mirror, with another, and with a field changed; records and outputs of other lengths.
fn by_chance(recording: &mut Recording, random: &mut Random) {
    for k in 0..240 {
        let sound = records::sound(random);
        let fields = match k % 3 {
            0 => mirrored(sound),
            1 => unequal(random, sound),
            _ => {
                let changed = records::changed(random, sound);
                mirrored(changed)
            }
        };
        recording.of(random, &fields);
    }
    let record = mirrored(records::fix_of(random, 9, 2)).bytes().expect("a fix");
    let fix = records::fix_of(random, 9, 2);
    let other = unequal(random, fix).bytes().expect("a fix");
    let malformed = [7; LENGTH];
    for length in [0, 1, 8, 128, 151, 152, 153, 175, 176, 177, 200, 352] {
        let repeated: Vec<u8> = record.iter().copied().cycle().take(length).collect();
        for out in [0, 151, 152, 175, 176, 177] {
            for back in [false, true] {
                recording.cases.push(case(back, &repeated, out));
            }
        }
        for bytes in [record, other, malformed] {
            recording.cases.push(case(false, &bytes, length));
            recording.cases.push(case(true, &cut(&bytes), length));
        }
    }
}

/// Records of the solve, all of which are moved: a whole file of them, and what it becomes.
fn file(all: &[[u8; LENGTH]]) -> (Vec<u8>, Vec<u8>) {
    let mut files = (Vec::new(), Vec::new());
    for record in all.iter().step_by(20) {
        let mut form = [0; ARCHIVED];
        assert_eq!(archive::to_archive(record, &mut form), 0, "a record of the solve is not moved");
        files.0.extend(record);
        files.1.extend(form);
    }
    files
}

fn main() {
    let words: Vec<String> = std::env::args().skip(1).collect();
    let [from, out, old, new] = words.as_slice() else {
        panic!("archive_recording RECORDED OUT OLD NEW");
    };
    let all = records::recorded(&std::fs::read(from).expect("the recorded inputs are readable"));
    let mut recording = Recording::default();
    let mut random = Random::new(1);
    recorded(&mut recording, &mut random, &all);
    mirrors(&mut recording, &mut random);
    by_chance(&mut recording, &mut random);
    let bytes: Vec<u8> = recording.cases.iter().flat_map(Case::bytes).collect();
    for number in [0, 14, 16, 18, 20] {
        println!("{number}: {}", recording.cases.iter().filter(|case| case.number == number).count());
    }
    println!("{} cases, {} bytes", recording.cases.len(), bytes.len());
    assert!(bytes.len() <= MOST_BYTES, "over {MOST_BYTES} bytes");
    std::fs::write(out, bytes).expect("the recording is writable");
    let (before, after) = file(&all);
    println!("{} records in a file, {} bytes and {}", before.len() / LENGTH, before.len(), after.len());
    std::fs::write(old, before).expect("the file is writable");
    std::fs::write(new, after).expect("the file is writable");
}
