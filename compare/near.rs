//! The port's searches of files of fix records beside the oracle's. Built and run by compare/near.

#[path = "../oracle/near.rs"]
mod near;
#[path = "../oracle/near_files.rs"]
mod near_files;
mod port_near;
#[allow(dead_code)]
#[path = "../oracle/random.rs"]
mod random;
#[allow(dead_code)]
#[path = "../oracle/reader.rs"]
mod reader;
#[allow(dead_code)]
#[path = "../oracle/records.rs"]
mod records;

use near_files::Asked;
use random::Random;
use reader::LENGTH;

/// The most records of a file.
const MOST: usize = 300;

/// Entries before and after the buffer that are not lent.
const SPARE: usize = 4;

#[derive(Default)]
struct Tally {
    files: u64,
    records: u64,
    differences: u64,
    /// How many calls gave each number: of `within` and of `nearest`.
    answers: [[u64; 23]; 2],
    /// Places listed, files with some and with none of their fixes listed, and files with a nearest.
    listed: u64,
    nearest: u64,
    none: u64,
}

impl Tally {
    fn differs(&mut self, words: String) {
        self.differences += 1;
        if self.differences <= 20 {
            println!("{words}");
        }
    }

    /// One file and query by both sides: the number, the count or place, every entry lent and those beside them.
    fn file(&mut self, asked: &Asked) {
        let Asked { file, point, radius, entries } = asked;
        let given = file.clone();
        let filled = self.files | 1 << 63;
        let before = vec![filled; entries + 2 * SPARE];
        let lent = SPARE..SPARE + entries;
        let (mut ours, mut theirs) = (before.clone(), before);
        let (mut our_count, mut count) = (filled, filled);
        let found = port_near::within(file, point, *radius, &mut ours[lent.clone()], &mut our_count);
        let number = near::within(file, point, *radius, &mut theirs[lent], &mut count);
        if (found, our_count) != (number, count) || ours != theirs || given != *file {
            self.differs(format!("within {radius} of {point:?}: {found}, {our_count}; the oracle {number}, {count}"));
        }
        let (mut our_place, mut place) = (filled, filled);
        let our_other = port_near::nearest(file, point, &mut our_place);
        let other = near::nearest(file, point, &mut place);
        if (our_other, our_place) != (other, place) || given != *file {
            self.differs(format!("nearest to {point:?}: {our_other}, {our_place}; the oracle {other}, {place}"));
        }
        self.files += 1;
        self.records += (file.len() / LENGTH) as u64;
        self.answers[0][number as usize] += 1;
        self.answers[1][other as usize] += 1;
        self.listed += if number == 0 { count } else { 0 };
        self.nearest += u64::from(other == 0 && place != near::NONE);
        self.none += u64::from(other == 0 && place == near::NONE);
    }

    fn report(&self) {
        for (call, row) in ["within", "nearest"].iter().zip(self.answers) {
            let given = (0..row.len()).filter(|number| row[*number] > 0);
            let words: Vec<String> = given.map(|number| format!("{number} {} times", row[number])).collect();
            println!("{call:<7} answers {}", words.join(", "));
        }
        println!("{} places listed; a nearest in {} files, none in {}", self.listed, self.nearest, self.none);
        println!("{} files, {} records, {} differences", self.files, self.records, self.differences);
    }
}

fn main() {
    let number = |word: String| word.parse().expect("COUNT and SEED are numbers");
    let words: Vec<u64> = std::env::args().skip(1).map(number).collect();
    let count = words.first().copied().unwrap_or(20_000);
    let mut random = Random::new(words.get(1).copied().unwrap_or(1));
    let mut tally = Tally::default();
    for k in 0..count {
        let records = if k % 4 == 0 { random.below(12) } else { random.below(MOST + 1) };
        let asked = match k % 5 {
            0 | 1 => near_files::damaged(&mut random, records),
            _ => near_files::sound(&mut random, records),
        };
        tally.file(&asked);
    }
    tally.report();
    std::process::exit((tally.differences > 0) as i32);
}
