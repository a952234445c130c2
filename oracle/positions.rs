//! Positions and whole numbers to try: both sides of every kind of half, of whole units and of each limit, subnormals,
//! zeros, any number.

use crate::random::Random;
use crate::reader::Fields;
use crate::wire::{LIMITS, UNITS};

/// The numbers next to x, so many to either side, x among them.
pub fn about(x: f64, steps: u64) -> impl Iterator<Item = f64> {
    let order = |bits: u64| if bits >> 63 == 0 { bits as i64 } else { i64::MIN.wrapping_sub(bits as i64) };
    let back = |place: i64| f64::from_bits(if place < 0 { i64::MIN.wrapping_sub(place) } else { place } as u64);
    let middle = order(x.to_bits());
    (-(steps as i64)..=steps as i64).map(move |step| back(middle + step))
}

/// Numbers of coordinate k at which something changes: its limits, half a unit, zeros, subnormals, the ends of the
/// format, infinities and a not-a-number.
pub fn special(k: usize) -> Vec<f64> {
    let unit = UNITS[k] as f64;
    let ends = [LIMITS[k].0, LIMITS[k].1].map(f64::from);
    let halves = [0.0, 0.5 / unit, -0.5 / unit, 1.5 / unit, -1.5 / unit, 0.5, 1.0 / 256.0, -1.0 / 256.0];
    let steps = ends.into_iter().chain(halves).flat_map(|x| about(x, 3));
    let sizes = [-25, -26, -53, -54, -1022, -1023, -1074].map(|e| 2f64.powi(e));
    let small = sizes.into_iter().flat_map(|x| about(x, 1)).flat_map(|x| [x, -x]);
    let others = [0.0, 1e3, 3e4, 1e9, 1e300, f64::MAX, f64::INFINITY, f64::NAN].into_iter().flat_map(|x| [x, -x]);
    steps.chain(small).chain(others).collect()
}

/// A number of coordinate k within its limits or near them: a half of a unit that a float can be, any half, a whole
/// unit, each with its neighbours; a number of any size; a number between the limits.
pub fn coordinate(random: &mut Random, k: usize) -> f64 {
    let unit = UNITS[k] as f64;
    let (low, high) = (i64::from(LIMITS[k].0), i64::from(LIMITS[k].1));
    let whole = random.whole(low * UNITS[k] as i64, high * UNITS[k] as i64) as f64;
    // 10^7 is 2^7 * 5^7 and 1,000 is 2^3 * 5^3: half a unit is exact at odd multiples of 2^-8 and of 2^-4
    let exact = if k == 2 { 16 } else { 256 };
    let x = match random.below(6) {
        0 => (2 * random.whole(low * exact / 2, high * exact / 2 - 1) + 1) as f64 / exact as f64,
        1 => (whole + 0.5) / unit,
        2 => whole / unit,
        3 => f64::from_bits(random.bits() % 0x40e0_0000_0000_0000 | random.bits() & 1 << 63),
        4 => return random.of(&special(k)),
        _ => return low as f64 + (high - low) as f64 * random.part(),
    };
    let near: Vec<f64> = about(x, 2).collect();
    random.of(&near)
}

/// A fix with this position.
pub fn placed(fix: Fields, position: [f64; 3]) -> Fields {
    let [latitude, longitude, height] = position.map(f64::to_bits);
    Fields { latitude, longitude, height, ..fix }
}

/// A whole number for coordinate k: within the limits, at them, one beyond, or any.
pub fn whole(random: &mut Random, k: usize) -> i32 {
    let unit = UNITS[k] as i64;
    let (low, high) = (i64::from(LIMITS[k].0) * unit, i64::from(LIMITS[k].1) * unit);
    let any = random.bits() as i32;
    match random.below(8) {
        0 => random.of(&[low - 1, low, low + 1, high - 1, high, high + 1, -1, 0, 1]) as i32,
        1 => random.of(&[i32::MIN, i32::MAX, any]),
        _ => random.whole(low, high) as i32,
    }
}
