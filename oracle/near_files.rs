//! Files of fix records to search, and queries: ties, fixes at just the radius, infinite distances, refusals in
//! between, damaged and torn files, bad queries and short buffers.

use crate::random::Random;
use crate::reader::{Fields, LENGTH};
use crate::records;

/// A file, a point, a radius, and how many entries are lent.
#[derive(Clone, Debug)]
pub struct Asked {
    pub file: Vec<u8>,
    pub point: [f64; 3],
    pub radius: f64,
    pub entries: usize,
}

/// Of these the sums of the squares of whole multiples are exact squares: a fix this far from a point on whole metres
/// is at just a whole distance.
const EXACT: [([f64; 3], f64); 6] = [
    ([3.0, 4.0, 0.0], 5.0),
    ([2.0, 3.0, 6.0], 7.0),
    ([1.0, 4.0, 8.0], 9.0),
    ([-4.0, 4.0, 7.0], 9.0),
    ([0.0, 0.0, -1.0], 1.0),
    ([-6.0, -6.0, -7.0], 11.0),
];

/// Both sides of each limit of a query, for a coordinate and for a radius.
const LIMITS: [f64; 16] = [
    0.0,
    -0.0,
    1e8,
    -1e8,
    100_000_000.000_000_01,
    100_000_000.000_000_02,
    -100_000_000.000_000_02,
    1e9,
    -1.0,
    -5e-324,
    5e-324,
    1e300,
    f64::INFINITY,
    f64::NEG_INFINITY,
    f64::NAN,
    f64::MAX,
];

/// A point: on whole metres somewhere on the ground, the origin, or any within 10^8.
fn point(random: &mut Random) -> [f64; 3] {
    match random.below(5) {
        0 => [0.0, -0.0, 0.0],
        1 => std::array::from_fn(|_| random.within(1e8)),
        _ => std::array::from_fn(|_| random.whole(-6_400_000, 6_400_000) as f64),
    }
}

/// So far away that the distance is infinite, or nearly so.
fn far(random: &mut Random) -> [f64; 3] {
    std::array::from_fn(|_| random.within(1.0) * random.of(&[f64::MAX, f64::MAX, 1e200, 1e155, 1.4e154]))
}

/// A position for a fix: at an exact distance, about the point, at it, that of an earlier fix, mirrored at the point,
/// so far away that the distance is infinite or large, or so near that it is lost.
fn position(random: &mut Random, point: &[f64; 3], scale: f64, earlier: &[[f64; 3]]) -> [f64; 3] {
    let again = |random: &mut Random| if earlier.is_empty() { *point } else { random.of(earlier) };
    match random.below(16) {
        0..=3 => {
            let (apart, _) = random.of(&EXACT);
            let sign = if random.one_in(2) { scale } else { -scale };
            std::array::from_fn(|k| point[k] + sign * apart[k])
        }
        4..=7 => std::array::from_fn(|k| point[k] + random.within(20.0 * scale)),
        8 => *point,
        9 | 10 => again(random),
        11 | 12 => {
            let other = again(random);
            std::array::from_fn(|k| point[k] - (other[k] - point[k]))
        }
        13 => far(random),
        14 => std::array::from_fn(|k| point[k] + random.within(1e-160)),
        _ => std::array::from_fn(|_| random.within(2e8)),
    }
}

/// The distance of a fix: where that is rounded, another order of its steps shows.
fn just_at(position: [f64; 3], point: &[f64; 3]) -> f64 {
    let [x, y, z]: [f64; 3] = std::array::from_fn(|k| position[k] - point[k]);
    (x * x + y * y + z * z).sqrt().min(1e8)
}

/// One of the positions, of several tries one that is not on whole metres.
fn rough(random: &mut Random, positions: &[[f64; 3]]) -> [f64; 3] {
    let mut found = random.of(positions);
    for _ in 0..8 {
        if found.iter().all(|x| x.fract() == 0.0) {
            found = random.of(positions);
        }
    }
    found
}

fn finite(position: [f64; 3]) -> bool {
    position.iter().all(|x| x.is_finite())
}

/// A sound file of `count` records and a good query of it.
pub fn sound(random: &mut Random, count: usize) -> Asked {
    let point = point(random);
    let scale = random.of(&[1.0, 100.0, 1000.0, 65_536.0]);
    // one file in six has no fix, and one in six has those alone that are infinitely far away
    let fixes = random.below(6);
    let mut file = Vec::with_capacity(LENGTH * count);
    let mut earlier = Vec::new();
    for _ in 0..count {
        let mut fields = records::sound(random);
        if fields.answer == 0 && fixes == 0 {
            fields = Fields { answer: 5, n: 7, ..Fields::default() };
        }
        if fields.answer == 0 {
            let at = if fixes == 1 { far(random) } else { position(random, &point, scale, &earlier) };
            let at = if finite(at) { at } else { point };
            fields.ecef = at.map(f64::to_bits);
            earlier.push(at);
        }
        file.extend(fields.bytes().expect("sound fields"));
    }
    let radius = match random.below(12) {
        0 => random.of(&[0.0, -0.0, 5e-324, 1e8]),
        1 => 20.0 * scale * random.part(),
        2 => random.part() * 1e8,
        3..=8 if !earlier.is_empty() => just_at(rough(random, &earlier), &point),
        _ => scale * random.of(&EXACT).1,
    };
    let entries = count + random.of(&[0, 0, 1, 7]);
    Asked { file, point, radius, entries }
}

/// The same with something wrong with it, or with two things, so that the order of the tests shows.
pub fn damaged(random: &mut Random, count: usize) -> Asked {
    let mut asked = sound(random, count);
    for _ in 0..1 + random.below(2) {
        match random.below(6) {
            0 => asked.entries = random.below(count + 1),
            1 if random.one_in(2) => asked.file.truncate(random.below(asked.file.len() + 1)),
            1 => asked.file.extend((0..1 + random.below(2 * LENGTH)).map(|_| 0)),
            2 | 3 => {
                let at = random.below(asked.file.len().max(1));
                if let Some(byte) = asked.file.get_mut(at) {
                    *byte ^= 1 << random.below(8);
                }
            }
            4 => asked.radius = random.of(&LIMITS),
            _ => asked.point[random.below(3)] = random.of(&LIMITS),
        }
    }
    asked
}
