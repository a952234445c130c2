//! Fix records to read: sound ones of every kind, both sides of each limit of document 02's item 1, each rule broken
//! alone, and files with places in them.

use crate::random::Random;
use crate::reader::{Fields, LENGTH};

/// A name, and fields to write or, where their bytes hold them, to read.
pub type Tried = (&'static str, Fields);

/// f64 by their bits: zeros, subnormals, the least and the greatest, infinities, not-a-numbers of either sign.
pub const FLOATS: [u64; 17] = [
    0,
    1 << 63,
    1,
    0x8000_0000_0000_0001,
    0x000f_ffff_ffff_ffff,
    0x0010_0000_0000_0000,
    0x3ff0_0000_0000_0000,
    0xbff0_0000_0000_0000,
    0x7fef_ffff_ffff_ffff,
    0xffef_ffff_ffff_ffff,
    0x7ff0_0000_0000_0000,
    0xfff0_0000_0000_0000,
    0x7ff0_0000_0000_0001,
    0x7ff8_0000_0000_0000,
    0xfff8_0000_0000_0000,
    0x7fff_ffff_ffff_ffff,
    0xffff_ffff_ffff_ffff,
];

/// Words about every limit that a rule has, and about those of their bytes.
const WORDS: [u32; 44] = [
    0, 1, 2, 3, 4, 5, 7, 8, 9, 10, 11, 12, 13, 14, 15, 16, 17, 18, 30, 31, 32, 33, 64, 99, 100, 101, 130, 131, 132, 199,
    200, 201, 255, 256, 257, 258, 264, 0xffff, 0x1_0000, 0x1_0008, 0x7fff_ffff, 0x8000_0000, 0xffff_fffe, 0xffff_ffff,
];

/// The records of the recorded inputs (oracle/kept.rs has the form), all of them as the original's solve gives them.
pub fn recorded(mut bytes: &[u8]) -> Vec<[u8; LENGTH]> {
    let mut all = Vec::new();
    while !bytes.is_empty() {
        let two = |k: usize| usize::from(u16::from_le_bytes([bytes[k], bytes[k + 1]]));
        let files = two(0) + two(2) + usize::from(bytes[4]) + usize::from(bytes[5]);
        let (case, rest) = bytes.split_at(8 + files + LENGTH);
        all.push(*case.last_chunk().expect("a record"));
        bytes = rest;
    }
    all
}

/// A finite f64, of any size or of a special one.
fn finite(random: &mut Random) -> u64 {
    match random.below(3) {
        0 => random.of(&FLOATS[..10]),
        1 => random.within(7e6).to_bits(),
        _ => random.bits() % 0x7ff0_0000_0000_0000 | random.bits() & 1 << 63,
    }
}

/// A fix of n receptions with an altitude of this kind, as many used as a fix needs or more: n is at least 4, or 3 with
/// an altitude.
pub fn fix_of(random: &mut Random, n: u32, kind: u32) -> Fields {
    let least = if kind == 0 { 4 } else { 3 };
    let all = ((1u64 << n) - 1) as u32;
    let mut mask = random.bits() as u32 & all;
    while mask.count_ones() < least {
        mask |= 1 << random.below(n as usize);
    }
    let mut fields = Fields { n, mask, detail: mask.count_ones() - least, version: 8, kind, ..Fields::default() };
    (0..17).for_each(|k| *fields.float_mut(k) = finite(random));
    fields.transmit_ps = random.of(&[random.clone().bits() as i64, 0, -1, 1, i64::MIN, i64::MAX]);
    fields.metres = if kind == 0 { 0 } else { finite(random) };
    fields
}

fn fix(random: &mut Random) -> Fields {
    let kind = random.below(3) as u32;
    let n = random.whole(if kind == 0 { 4 } else { 3 }, 32) as u32;
    fix_of(random, n, kind)
}

/// The least and the greatest detail of each run that a refusal may have.
fn details(answer: u32) -> &'static [(u32, u32)] {
    match answer {
        1 => &[(0, 3)],
        11 => &[(1, 31)],
        12 => &[(0, 31), (100, 131), (200, 200)],
        _ => &[(0, 0)],
    }
}

const REFUSALS: [u32; 14] = [1, 2, 3, 4, 5, 6, 7, 8, 9, 10, 11, 12, 13, 15];

fn refusal(random: &mut Random) -> Fields {
    let answer = random.of(&REFUSALS);
    let (low, high) = random.of(details(answer));
    let n = if answer <= 9 { random.below(33) as u32 } else { 0 };
    Fields { answer, detail: random.whole(low.into(), high.into()) as u32, n, ..Fields::default() }
}

/// Fields that meet every rule, by construction.
pub fn sound(random: &mut Random) -> Fields {
    if random.one_in(3) { refusal(random) } else { fix(random) }
}

/// One field of these set to any value: most break one rule alone.
pub fn changed(random: &mut Random, mut fields: Fields) -> Fields {
    let word = if random.one_in(4) { random.bits() as u32 } else { random.of(&WORDS) };
    match random.below(9) {
        0 => fields.answer = word,
        1 => fields.detail = random.of(&[word, fields.detail.wrapping_add(1), fields.detail.wrapping_sub(1)]),
        2 => {
            let due = 32 - fields.mask.leading_zeros();
            fields.n = random.of(&[word, due, due.saturating_sub(1)]);
        }
        3 => fields.mask ^= 1 << random.below(32),
        4 => fields.version = word,
        5 => fields.kind = word,
        6 => fields.transmit_ps = random.bits() as i64,
        _ => *fields.float_mut(random.below(18)) = random.of(&FLOATS),
    }
    fields
}

/// Both sides of each limit, and each rule broken alone.
pub fn limits() -> Vec<Tried> {
    let mut random = Random::new(20_260);
    let mut all = Vec::new();
    numbers_of_refusals(&mut all);
    unused_in_refusals(&mut random, &mut all);
    for (n, kind) in [(4, 0), (3, 1), (3, 2), (6, 0), (6, 1), (7, 2), (31, 0), (31, 1), (32, 0), (32, 1), (32, 2)] {
        words_of_a_fix(fix_of(&mut random, n, kind), &mut all);
        floats_of_a_fix(fix_of(&mut random, n, kind), &mut all);
    }
    masks(&mut random, &mut all);
    too_few_used(&mut random, &mut all);
    all
}

/// Every answer with details and n about their limits.
fn numbers_of_refusals(all: &mut Vec<Tried>) {
    for answer in (0..=20).chain([24, 255, 256, 257, 271, 0x1_0000, 0x1_0001, 0x8000_0001, 0xffff_ffff]) {
        all.extend(WORDS.map(|detail| ("a refusal's detail", Fields { answer, detail, ..Fields::default() })));
        let detail = details(answer)[0].0;
        all.extend(WORDS.map(|n| ("a refusal's n", Fields { answer, detail, n, ..Fields::default() })));
    }
}

/// A field that a refusal does not use, not zero, each alone.
fn unused_in_refusals(random: &mut Random, all: &mut Vec<Tried>) {
    for answer in REFUSALS {
        let plain = Fields { answer, detail: details(answer)[0].1, ..Fields::default() };
        all.push(("a refusal", plain));
        for mask in [1, 0x8000_0000, random.bits() as u32] {
            all.push(("a mask in a refusal", Fields { mask, ..plain }));
        }
        for word in [1, 8, 256, 0x1_0000, 0x1_0008] {
            all.push(("a version in a refusal", Fields { version: word, ..plain }));
            all.push(("a kind in a refusal", Fields { kind: word, ..plain }));
        }
        for transmit_ps in [1, -1, i64::MIN, 1 << 32] {
            all.push(("a transmit time in a refusal", Fields { transmit_ps, ..plain }));
        }
        for (k, float) in (0..18).flat_map(|k| FLOATS.map(|float| (k, float))) {
            let mut fields = plain;
            *fields.float_mut(k) = float;
            all.push(("a float in a refusal", fields));
        }
    }
}

/// Each word of a fix about every limit; its detail about its dof, also where that would wrap.
fn words_of_a_fix(fix: Fields, all: &mut Vec<Tried>) {
    all.push(("a fix", fix));
    for word in WORDS {
        all.push(("a fix's version", Fields { version: word, ..fix }));
        all.push(("a fix's kind", Fields { kind: word, ..fix }));
        all.push(("a fix's n", Fields { n: word, ..fix }));
        all.push(("a fix's detail", Fields { detail: word, ..fix }));
        all.push(("a fix's answer", Fields { answer: word, ..fix }));
    }
    for by in [1, u32::MAX, 4, 256, 0x1_0000] {
        all.push(("a fix's dof", Fields { detail: fix.detail.wrapping_add(by), ..fix }));
    }
    for kind in 0..=3 {
        let dof = (fix.mask.count_ones() + u32::from(kind != 0)).wrapping_sub(4);
        for metres in [0, 1 << 63, fix.metres] {
            all.push(("another kind of altitude", Fields { kind, detail: dof, metres, ..fix }));
        }
    }
}

fn floats_of_a_fix(fix: Fields, all: &mut Vec<Tried>) {
    for (k, float) in (0..18).flat_map(|k| FLOATS.map(|float| (k, float))) {
        let mut fields = fix;
        *fields.float_mut(k) = float;
        all.push(("a fix's float", fields));
    }
}

/// A mask with its highest bit at n - 1, and at n, for every n, the detail that of its dof.
fn masks(random: &mut Random, all: &mut Vec<Tried>) {
    for n in 0..=33u32 {
        for kind in 0..3 {
            let base = fix_of(random, 32, kind);
            for top in [n.saturating_sub(1), n, 31].map(|bit| bit.min(31)) {
                let mask = ((1u64 << (top + 1)) - 1) as u32;
                let detail = (mask.count_ones() + u32::from(kind != 0)).wrapping_sub(4);
                all.push(("a mask's highest bit", Fields { n, mask, detail, ..base }));
            }
        }
    }
}

/// Fewer used than a fix needs: the dof would be negative, and no detail equals it.
fn too_few_used(random: &mut Random, all: &mut Vec<Tried>) {
    for (used, kind) in (0..=4u32).flat_map(|used| (0..3).map(move |kind| (used, kind))) {
        let base = fix_of(random, 32, kind);
        let dof = (used + u32::from(kind != 0)).wrapping_sub(4);
        for detail in [dof, 0, dof.wrapping_neg(), dof & 0x7fff_ffff, dof & 0xff, dof & 0xffff] {
            all.push(("few used", Fields { mask: (1 << used) - 1, detail, ..base }));
        }
    }
}

/// Places about the ends of a file of this length and of their words, and those whose 176-fold wraps to a small number.
pub fn places(length: usize) -> Vec<u64> {
    let count = (length / LENGTH) as u64;
    let mut all = vec![0, 1, 2, count.saturating_sub(1), count, count + 1, length as u64];
    for power in [8, 16, 31, 32, 52, 53, 59, 60, 61, 62, 63] {
        all.extend([(1u64 << power) - 1, 1 << power, (1 << power) + 1]);
    }
    let whole = u64::MAX / LENGTH as u64;
    all.extend([whole - 1, whole, whole + 1, whole + 2, u64::MAX - 1, u64::MAX]);
    all
}
