//! Inputs of every kind: the problems of kinds.rs, damaged files of every sort, and raw bytes.

use crate::kinds::{Kind, SCENES};
use crate::random::Random;
use crate::scene::{Files, RECEPTION};

pub const DAMAGED: [Kind<Files>; 12] = [
    ("a reception's field outside", bad_field),
    ("a filler not zero", filler),
    ("identities in disorder", disorder),
    ("clock.bin of another size", clock_size),
    ("a clock entry outside", bad_entry),
    ("a bad altitude", bad_altitude),
    ("torn files", torn),
    ("over 32 receptions", too_many),
    ("files absent or empty", absent),
    ("several faults at once", several),
    ("any byte changed", any_byte),
    ("raw bytes", raw),
];

/// The bytes of a reception that are its identity.
const IDENTITY: usize = 76;

pub const KINDS: usize = SCENES.len() + DAMAGED.len();

pub fn name(kind: usize) -> &'static str {
    if kind < SCENES.len() { SCENES[kind].0 } else { DAMAGED[kind - SCENES.len()].0 }
}

pub fn files(random: &mut Random, kind: usize) -> Files {
    if kind < SCENES.len() { SCENES[kind].1(random).files() } else { DAMAGED[kind - SCENES.len()].1(random) }
}

/// A sound input of at least one reception, with altitude and reference.
fn whole(random: &mut Random) -> Files {
    loop {
        let kind = random.below(5);
        let mut scene = SCENES[kind].1(random);
        scene.altitude.get_or_insert((1, 3_000.0));
        scene.reference.get_or_insert(7);
        if scene.n() > 0 {
            return scene.files();
        }
    }
}

fn part(file: &mut Option<Vec<u8>>) -> &mut Vec<u8> {
    file.get_or_insert_with(Vec::new)
}

fn put(file: &mut Option<Vec<u8>>, at: usize, word: u64) {
    part(file)[at..at + 8].copy_from_slice(&word.to_le_bytes());
}

/// A number next to or beyond the ends, or none at all.
fn outside(random: &mut Random, low: f64, high: f64) -> u64 {
    let next = |x: f64, away: bool| f64::from_bits(if away { x.to_bits() + 1 } else { x.to_bits() - 1 });
    let below = if low == 0.0 { -5e-324 } else { next(low, low < 0.0) };
    let values = [below, next(high, true), f64::NAN, f64::INFINITY, f64::NEG_INFINITY, -1e300, low, high];
    match random.below(8) {
        0 => random.bits(),
        _ => random.of(&values).to_bits(),
    }
}

fn reception(random: &mut Random, files: &Files) -> usize {
    RECEPTION * random.below(files.receptions.as_ref().map_or(1, |bytes| bytes.len() / RECEPTION).max(1))
}

fn bad_field(random: &mut Random) -> Files {
    let mut files = whole(random);
    let at = reception(random, &files);
    let axis = random.below(3);
    let (offset, word) = match random.below(4) {
        0 => (76, random.of(&[-1, 10_000_000_000_001, i64::MIN, i64::MAX, 10_000_000_000_000]) as u64),
        1 => (84 + 8 * axis, random.of(&[-10_000_000_001, 10_000_000_001, i64::MIN, i64::MAX, 10_000_000_000]) as u64),
        2 => (108, outside(random, 0.0, 3e9)),
        _ => (116, outside(random, 1e-6, 1e12)),
    };
    put(&mut files.receptions, at + offset, word);
    files
}

fn filler(random: &mut Random) -> Files {
    let mut files = whole(random);
    let at = reception(random, &files) + 124 + random.below(8);
    part(&mut files.receptions)[at] = 1 << random.below(8);
    files
}

/// One byte changed, often by 1, at times with others that follow it in the file.
fn near(random: &mut Random, identity: &mut [u8]) {
    let (any, some) = (random.below(IDENTITY), random.bits() as u8);
    let place = random.of(&[0, 31, 32, 35, 36, 43, 44, 75, any]);
    let by = random.of(&[1, 255, 128, some]);
    identity[place] = identity[place].wrapping_add(by);
    if random.one_in(2) {
        identity[place + 1..].iter_mut().for_each(|byte| *byte = random.bits() as u8);
    }
}

fn disorder(random: &mut Random) -> Files {
    let mut files = whole(random);
    let (at, of) = (reception(random, &files), reception(random, &files));
    let mut random = Random::new(random.bits());
    let of = if random.one_in(2) { at.saturating_sub(RECEPTION) } else { of };
    let mut identity = part(&mut files.receptions)[of..of + IDENTITY].to_vec();
    match random.below(6) {
        0 => {}
        1 => identity.fill(random.of(&[0, 255])),
        _ => near(&mut random, &mut identity),
    }
    part(&mut files.receptions)[at..at + IDENTITY].copy_from_slice(&identity);
    files
}

fn clock_size(random: &mut Random) -> Files {
    let mut files = whole(random);
    let clock = part(&mut files.clock);
    let length = clock.len();
    let longer = random.of(&[1, 8, 64, 8 * length]);
    let size = random.of(&[length + longer, length.saturating_sub(longer), 0, length - 1]);
    clock.resize(size, 0);
    files
}

fn bad_entry(random: &mut Random) -> Files {
    let mut files = whole(random);
    let length = part(&mut files.clock).len();
    for _ in 0..1 + random.below(2) {
        let at = 8 * random.below(length / 8);
        let word = outside(random, 0.0, 1e12);
        put(&mut files.clock, at, word);
    }
    files
}

fn bad_altitude(random: &mut Random) -> Files {
    let mut files = whole(random);
    match random.below(3) {
        0 => part(&mut files.altitude)[0] = random.of(&[0, 3, 255]),
        1 => part(&mut files.altitude)[1 + random.below(7)] = 1 << random.below(8),
        _ => put(&mut files.altitude, 8, outside(random, -100_000.0, 100_000.0)),
    }
    files
}

fn torn(random: &mut Random) -> Files {
    let mut files = whole(random);
    for _ in 0..1 + random.below(2) {
        let file = match random.below(3) {
            0 => &mut files.receptions,
            1 => &mut files.altitude,
            _ => &mut files.reference,
        };
        let bytes = part(file);
        let size = random.of(&[bytes.len() + 1, bytes.len().saturating_sub(1), 0, bytes.len() / 2, 2 * bytes.len()]);
        bytes.resize(size, 0);
    }
    files
}

fn too_many(random: &mut Random) -> Files {
    let mut files = whole(random);
    let n = random.of(&[33, 34, 64, 100]);
    let bytes = part(&mut files.receptions);
    let one = bytes[..RECEPTION].to_vec();
    while bytes.len() < RECEPTION * n {
        bytes.extend(&one);
    }
    if random.one_in(4) {
        bytes.push(0);
    }
    files
}

fn absent(random: &mut Random) -> Files {
    let mut files = whole(random);
    let faults = 1 + random.below(15);
    for (k, file) in [&mut files.receptions, &mut files.clock, &mut files.altitude, &mut files.reference].into_iter().enumerate() {
        if faults >> k & 1 == 1 {
            *file = random.one_in(4).then(Vec::new);
        }
    }
    files
}

/// Parts of damaged files put together: which refusal comes first is seen here.
fn several(random: &mut Random) -> Files {
    let base = bad_field(random);
    let n = part(&mut base.receptions.clone()).len() / RECEPTION;
    let other = DAMAGED[random.below(9)].1(random);
    let mut clock = base.clock.clone();
    if random.one_in(2) {
        let at = 8 * random.below(n * n);
        put(&mut clock, at, f64::NAN.to_bits());
    }
    Files {
        receptions: if random.one_in(3) { other.receptions } else { base.receptions },
        clock: if random.one_in(3) { other.clock } else { clock },
        altitude: if random.one_in(2) { other.altitude } else { bad_altitude(random).altitude },
        reference: if random.one_in(2) { other.reference } else { base.reference },
    }
}

fn any_byte(random: &mut Random) -> Files {
    let mut files = whole(random);
    for _ in 0..1 + random.below(3) {
        let file = match random.below(4) {
            0 | 1 => &mut files.receptions,
            2 => &mut files.clock,
            _ => &mut files.altitude,
        };
        let bytes = part(file);
        if !bytes.is_empty() {
            let at = random.below(bytes.len());
            bytes[at] = random.bits() as u8;
        }
    }
    files
}

fn raw(random: &mut Random) -> Files {
    let mut bytes = |size: usize| -> Vec<u8> { (0..size).map(|_| random.bits() as u8).collect() };
    let n = bytes(1)[0] as usize % 34;
    let sizes = bytes(4);
    let file = |k: usize, size: usize, bytes: &mut dyn FnMut(usize) -> Vec<u8>| match sizes[k] % 4 {
        0 => None,
        1 => Some(bytes(sizes[k] as usize)),
        _ => Some(bytes(size)),
    };
    Files {
        receptions: file(0, RECEPTION * n, &mut bytes),
        clock: file(1, 8 * n * n, &mut bytes),
        altitude: file(2, 16, &mut bytes),
        reference: file(3, 8, &mut bytes),
    }
}
