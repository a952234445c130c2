//! Items I020/041 and I020/105 of Eurocontrol's category 020: document 02, item 13. Written from its words, not from
//! the port.

pub const BEYOND_THE_ITEMS: u32 = 23;

/// The bytes of the two items.
pub const LENGTH: usize = 10;

/// A fraction of whole numbers.
type Fraction = (i128, i128);

/// "From the wire numbers of Item 5": a unit of latitude and of longitude in degrees, one of height in millimetres.
const UNITS: [Fraction; 3] = [(1, 10_000_000), (1, 10_000_000), (1, 1)];

/// "The nearest 32-bit multiples of 180/2^25 degree and .. the nearest 16-bit multiple of 6.25 ft, which is 1,905 mm."
pub const STEPS: [Fraction; 3] = [(180, 1 << 25), (180, 1 << 25), (1_905, 1)];

/// "Latitude beyond ±90 or longitude beyond ±180 degrees."
pub const DEGREES: [i128; 2] = [90, 180];

/// "The nearest .. multiples .., halves away from zero": of the whole numbers about a guess in floating point the one
/// with the least distance to the exact value, and of two the one farther from zero. "Rounding is exact on whole
/// numbers": distances are taken times both denominators.
pub fn nearest(whole: i32, k: usize) -> i32 {
    let (unit, step) = (UNITS[k], STEPS[k]);
    let value = i128::from(whole) * unit.0 * step.1;
    let distance = |multiple: i128| (multiple * step.0 * unit.1 - value).abs();
    let guess = (value as f64 / (step.0 * unit.1) as f64) as i128;
    let about = guess - 2..=guess + 2;
    about.min_by_key(|multiple| (distance(*multiple), -multiple.abs())).expect("five candidates") as i32
}

/// The three multiples of the wire's numbers. "A longitude that comes to 2^25, which is 180 degrees, becomes -2^25."
pub fn multiples(wire: [i32; 3]) -> [i32; 3] {
    let mut multiples: [i32; 3] = std::array::from_fn(|k| nearest(wire[k], k));
    if multiples[1] == 1 << 25 {
        multiples[1] = -(1 << 25);
    }
    multiples
}

/// What the wire's numbers are exported as, to so many lent bytes.
pub fn to_asterix(wire: [i32; 3], length: usize) -> Result<[u8; LENGTH], u32> {
    let beyond = |k: usize| i128::from(wire[k]).abs() * UNITS[k].0 > DEGREES[k] * UNITS[k].1;
    if beyond(0) || beyond(1) {
        return Err(BEYOND_THE_ITEMS);
    }
    write_asterix(multiples(wire), length)
}

/// "All big-endian two's complement"; "a height multiple outside 16 bits, or a length other than ten" is turned away.
pub fn write_asterix(multiples: [i32; 3], length: usize) -> Result<[u8; LENGTH], u32> {
    let height = i16::try_from(multiples[2]).map_err(|_| BEYOND_THE_ITEMS)?;
    if length != LENGTH {
        return Err(BEYOND_THE_ITEMS);
    }
    let angles = multiples[..2].iter().flat_map(|angle| angle.to_be_bytes());
    let bytes: Vec<u8> = angles.chain(height.to_be_bytes()).collect();
    Ok(bytes.try_into().expect("ten bytes"))
}

/// "A reader of the two items returns the three multiples of whichever ten bytes it is given."
pub fn read_asterix(bytes: &[u8]) -> Result<[i32; 3], u32> {
    if bytes.len() != LENGTH {
        return Err(BEYOND_THE_ITEMS);
    }
    let angle = |at: usize| i32::from_be_bytes(bytes[at..at + 4].try_into().expect("four bytes"));
    let height = i16::from_be_bytes(bytes[8..].try_into().expect("two bytes"));
    Ok([angle(0), angle(4), i32::from(height)])
}
