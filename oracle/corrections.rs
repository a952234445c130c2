//! Document 02, item 8: corrections of every size for altitudes that have none.

use crate::random::{Random, ten_to};
use crate::scene::Files;

/// "within ±100,000", centimetres.
const MOST: i32 = 100_000;

/// Of every size, some beyond the limits.
fn correction(random: &mut Random) -> i32 {
    match random.below(8) {
        0 => random.of(&[1, -1, MOST, -MOST, MOST - 1, 1 - MOST]),
        1 => random.of(&[MOST + 1, -MOST - 1, i32::MAX, i32::MIN, 1 << 24, -1 << 24]),
        2 => random.bits() as i32,
        _ => {
            let power = random.whole(0, 5);
            random.within(ten_to(power)).round() as i32
        }
    }
}

/// A correction in bytes 4 to 7 of an altitude, if there is one: three in four of the barometric ones get it, and one in eight of the others. Half of the metres are
/// changed against it, so that what is solved with is still near the aircraft's height.
pub fn correct(random: &mut Random, files: &mut Files) {
    let Some(bytes) = files.altitude.as_mut().filter(|bytes| bytes.len() == 16) else { return };
    let left_out = if bytes[0] == 1 { random.one_in(4) } else { !random.one_in(8) };
    if left_out {
        return;
    }
    let correction = correction(random);
    bytes[4..8].copy_from_slice(&correction.to_le_bytes());
    if random.one_in(2) {
        let metres = f64::from_le_bytes(bytes[8..].try_into().expect("eight bytes"));
        bytes[8..].copy_from_slice(&(metres - f64::from(correction) / 100.0).to_le_bytes());
    }
}
