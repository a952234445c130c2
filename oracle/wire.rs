//! Positions as the wire writes them, and back: document 02, item 5. Written from its words, not from the port.

use crate::reader;

pub const BEYOND_THE_WIRE: u32 = 19;

/// "Latitude and longitude in 10^-7 degree and height in millimetres."
pub const UNITS: [i128; 3] = [10_000_000, 10_000_000, 1_000];

/// "Latitude beyond ±90, longitude beyond ±180, heights beyond the solve's limits": document 01's `MIN_HEIGHT_M` and
/// `MAX_HEIGHT_M`.
pub const LIMITS: [(i32, i32); 3] = [(-90, 90), (-180, 180), (-1_500, 25_000)];

/// "Records that hold no fix aren't written"; 19 is "tested after the reader's refusals".
pub fn to_wire(record: &[u8]) -> Result<[i32; 3], u32> {
    let fields = reader::read(record)?;
    if fields.answer != 0 {
        return Err(BEYOND_THE_WIRE);
    }
    of_position([fields.latitude, fields.longitude, fields.height].map(f64::from_bits))
}

pub fn of_position(position: [f64; 3]) -> Result<[i32; 3], u32> {
    let within = |k: usize| (f64::from(LIMITS[k].0)..=f64::from(LIMITS[k].1)).contains(&position[k]);
    if !(0..3).all(within) {
        return Err(BEYOND_THE_WIRE);
    }
    Ok(std::array::from_fn(|k| nearest(position[k], UNITS[k])))
}

/// "Each is the whole number nearest the exact value of the float, halves away from zero." Of the whole numbers about a
/// guess in floating point, the one with the least distance to the exact value, and of two the one farther from zero.
/// The exact value of x times the unit is p / 2^k, and distances are taken times 2^k.
pub fn nearest(x: f64, unit: i128) -> i32 {
    let (m, k) = parts(x);
    let p = m * unit;
    // p is below 2^77: then the exact value is below a half, and 2^k times the candidates would not fit
    if k > 90 {
        return 0;
    }
    let guess = (x * unit as f64) as i128;
    let distance = |w: i128| ((w << k) - p).abs();
    let about = guess - 2..=guess + 2;
    about.min_by_key(|w| (distance(*w), -w.abs())).expect("five candidates") as i32
}

/// x is exactly m / 2^k; it is below 2^52 in size, so k is not negative.
fn parts(x: f64) -> (i128, u32) {
    let bits = x.to_bits();
    let fraction = i128::from(bits & ((1 << 52) - 1));
    let exponent = (bits >> 52 & 0x7ff) as u32;
    let (size, k) = if exponent == 0 { (fraction, 1_074) } else { (fraction + (1 << 52), 1_075 - exponent) };
    (if x.is_sign_negative() { -size } else { size }, k)
}

/// "The way back divides once." "Whole numbers beyond the same limits aren't read back."
pub fn from_wire(wire: [i32; 3]) -> Result<[f64; 3], u32> {
    let within = |k: usize| {
        let (low, high) = LIMITS[k];
        (i128::from(low) * UNITS[k]..=i128::from(high) * UNITS[k]).contains(&i128::from(wire[k]))
    };
    if !(0..3).all(within) {
        return Err(BEYOND_THE_WIRE);
    }
    Ok(std::array::from_fn(|k| f64::from(wire[k]) / UNITS[k] as f64))
}
