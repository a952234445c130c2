//! The port's items beside the oracle's, on numbers of every kind. Built and run by compare/asterix.

#[path = "../oracle/asterix.rs"]
mod asterix;
#[path = "../oracle/displays.rs"]
mod displays;
mod port_asterix;
#[allow(dead_code)]
#[path = "../oracle/random.rs"]
mod random;

use asterix::LENGTH;
use random::Random;

/// What lent bytes are before a call.
const FOUND: u8 = 0xa5;

#[derive(Default)]
struct Tally {
    /// Calls of either side.
    calls: u64,
    differences: u64,
    /// How many calls gave 0 and 23: exporting, writing, reading.
    answers: [[u64; 2]; 3],
}

impl Tally {
    fn counts(&mut self, call: usize, number: u32, alike: bool, words: impl Fn() -> String) {
        self.calls += 1;
        self.answers[call][usize::from(number != 0)] += 1;
        if alike {
            return;
        }
        self.differences += 1;
        if self.differences <= 20 {
            println!("{}", words());
        }
    }

    /// Three numbers by both sides, exported or written, to so many lent bytes.
    fn written(&mut self, export: bool, numbers: [i32; 3], length: usize) {
        let mut lent = [FOUND; 12];
        let ours = &mut lent[..length];
        let (answer, theirs) = if export {
            (port_asterix::to_asterix(numbers, ours), asterix::to_asterix(numbers, length))
        } else {
            (port_asterix::write_asterix(numbers, ours), asterix::write_asterix(numbers, length))
        };
        let (number, alike) = match theirs {
            Ok(items) => (0, ours == items),
            Err(number) => (number, ours.iter().all(|byte| *byte == FOUND)),
        };
        self.counts(usize::from(!export), number, alike && answer == number, || {
            format!("{numbers:?} to {length} bytes: {answer}, {ours:02x?}; the oracle {theirs:02x?}")
        });
    }

    fn export(&mut self, numbers: [i32; 3]) {
        self.written(true, numbers, LENGTH);
    }

    /// Bytes by both sides; ten that are read are written again, as they were.
    fn read(&mut self, items: &[u8]) {
        let found = [self.calls as i32; 3];
        let mut ours = found;
        let answer = port_asterix::read_asterix(items, &mut ours);
        let theirs = asterix::read_asterix(items);
        let (number, after) = theirs.map_or_else(|number| (number, found), |multiples| (0, multiples));
        let alike = answer == number && ours == after;
        self.counts(2, number, alike, || format!("{items:02x?}: {answer}, {ours:?}; the oracle {number}, {after:?}"));
        if number != 0 {
            return;
        }
        let mut again = [FOUND; LENGTH];
        let answer = port_asterix::write_asterix(ours, &mut again);
        let alike = answer == 0 && again == items;
        self.counts(1, 0, alike, || format!("{items:02x?} comes back as {answer}, {again:02x?}"));
    }
}

/// COUNT latitudes and longitudes at equal steps from one limit to the other.
fn angles(tally: &mut Tally, count: u64) {
    for (k, limit) in [(0, 900_000_000i64), (1, 1_800_000_000)] {
        for step in 0..=count as i64 {
            let mut numbers = [0; 3];
            numbers[k] = (-limit + (i128::from(step) * 2 * i128::from(limit) / i128::from(count.max(1))) as i64) as i32;
            tally.export(numbers);
        }
    }
}

/// Every height of 16 bits: the multiple itself, and the numbers beside the halves below and above it.
fn heights(tally: &mut Tally) {
    for multiple in i64::from(i16::MIN)..=i64::from(i16::MAX) {
        let (first, last) = (displays::last_of(multiple - 1, 2) + 1, displays::last_of(multiple, 2));
        for mm in [first - 1, first, 1_905 * multiple, last, last + 1] {
            tally.export([0, 0, mm as i32]);
        }
        tally.written(false, [0, 0, multiple as i32], LENGTH);
    }
}

/// Every special number at each coordinate, the others in the middle; every length from 0 to 12.
fn special(tally: &mut Tally, random: &mut Random) {
    for k in 0..3 {
        for whole in displays::special(k) {
            for length in 0..=12 {
                let mut numbers = [0; 3];
                numbers[k] = whole;
                tally.written(true, numbers, length);
                tally.written(false, numbers, length);
            }
        }
    }
    for length in 0..=12 {
        for _ in 0..1_000 {
            let bytes: Vec<u8> = (0..length).map(|_| random.bits() as u8).collect();
            tally.read(&bytes);
        }
    }
}

fn by_chance(tally: &mut Tally, random: &mut Random, count: u64) {
    for _ in 0..count {
        tally.export(std::array::from_fn(|k| displays::whole(random, k)));
        tally.written(false, displays::multiples(random), LENGTH);
        let bits = u128::from(random.bits()) << 64 | u128::from(random.bits());
        tally.read(&bits.to_le_bytes()[..LENGTH]);
    }
}

fn main() {
    let number = |word: String| word.parse().expect("COUNT and SEED are numbers");
    let words: Vec<u64> = std::env::args().skip(1).map(number).collect();
    let count = words.first().copied().unwrap_or(10_000_000);
    let mut random = Random::new(words.get(1).copied().unwrap_or(1));
    let mut tally = Tally::default();
    special(&mut tally, &mut random);
    angles(&mut tally, count);
    heights(&mut tally);
    by_chance(&mut tally, &mut random, count);
    for (call, row) in ["exporting", "writing", "reading"].iter().zip(tally.answers) {
        println!("{call} answers 0 {} times, 23 {} times", row[0], row[1]);
    }
    println!("{} calls, {} differences", tally.calls, tally.differences);
    std::process::exit((tally.differences > 0) as i32);
}
