//! Numbers for the items of a display: the wire's about every limit and every half of a multiple, multiples, bytes.

use crate::asterix::{self, DEGREES, STEPS};
use crate::random::Random;

/// The last number of the wire whose multiple this is, from below: the next has the next multiple.
pub fn last_of(multiple: i64, k: usize) -> i64 {
    // in half units: (multiple + 1/2) steps, rounded down; no number of the wire lies halfway
    let (step, parts) = (STEPS[k].0, STEPS[k].1);
    let units = if k == 2 { 1 } else { 10_000_000 };
    ((2 * i128::from(multiple) + 1) * step * units).div_euclid(2 * parts) as i64
}

/// The greatest multiples that a coordinate has on either side of zero.
pub fn most(k: usize) -> i64 {
    [1 << 24, 1 << 25, 1 << 15][k]
}

/// The numbers about each limit of a coordinate, about zero and about the first halves, and the ends of i32.
pub fn special(k: usize) -> Vec<i32> {
    let limit = if k == 2 { 25_000_000 } else { DEGREES[k] as i64 * 10_000_000 };
    let mut about = vec![0, limit, -limit, 1_905, -1_905, i64::from(i32::MIN), i64::from(i32::MAX)];
    for multiple in [0, 1, 2, most(k) - 2, most(k) - 1, most(k)] {
        about.extend([last_of(multiple, k), last_of(-multiple, k), last_of(-multiple - 1, k)]);
    }
    let near = about.into_iter().flat_map(|whole| whole - 2..=whole + 2);
    let mut found: Vec<i32> = near.filter_map(|whole| i32::try_from(whole).ok()).collect();
    found.sort_unstable();
    found.dedup();
    found
}

/// A number of the wire by chance: beside a half of a multiple, within the limits, or anywhere.
pub fn whole(random: &mut Random, k: usize) -> i32 {
    let limit = if k == 2 { 62_423_992 } else { DEGREES[k] as i64 * 10_000_000 };
    let anywhere = random.bits() as i32;
    let within = (i128::from(random.bits()) % (2 * i128::from(limit) + 1) - i128::from(limit)) as i64;
    let multiple = i64::from(asterix::nearest(within as i32, k));
    match random.below(16) {
        0 => anywhere,
        1..=7 => within as i32,
        _ => (last_of(multiple, k) + random.below(2) as i64) as i32,
    }
}

/// Multiples by chance: as they are exported, or anywhere; of the height some are outside 16 bits or at their ends.
pub fn multiples(random: &mut Random) -> [i32; 3] {
    let angle = |bits: u64, most: i64| {
        let within = (bits >> 8) as i64 % (most + 1);
        if bits & 3 == 0 { (bits >> 32) as i32 } else { within as i32 }
    };
    let height = match random.below(8) {
        0 => random.bits() as i32,
        1 => 32_767 + random.below(3) as i32,
        2 => -32_768 - random.below(3) as i32,
        _ => i32::from(random.bits() as i16),
    };
    let (lat, lon) = (angle(random.bits(), 1 << 24), angle(random.bits(), 1 << 25));
    let turned = |angle: i32, odd: bool| if odd { angle.wrapping_neg() } else { angle };
    [turned(lat, random.one_in(2)), turned(lon, random.one_in(2)), height]
}
