//! Numbers as text, put into a buffer without a detour: a file has millions of them.

use std::fmt::{self, Write};

/// A whole number.
pub fn put_whole(out: &mut Vec<u8>, mut number: u64) {
    // u64 has at most twenty digits
    let (mut digits, mut at) = ([0; 20], 20);
    loop {
        at -= 1;
        digits[at] = b'0' + (number % 10) as u8;
        number /= 10;
        if number == 0 {
            break;
        }
    }
    out.extend_from_slice(&digits[at..]);
}

/// A whole number with its sign, where it is below 0.
pub fn put_signed(out: &mut Vec<u8>, number: i64) {
    if number < 0 {
        out.push(b'-');
    }
    put_whole(out, number.unsigned_abs());
}

/// A finite float as Python's `repr` writes it: the fewest digits that are read back to the same bits; with an exponent
/// below 10^-4 and from 10^16 on.
pub fn put_float(out: &mut Vec<u8>, number: f64) {
    let mut text = Text::default();
    // the text has room for every float
    let _ = write!(text, "{number:e}");
    if let Some(exact) = exact_digits(number) {
        text.take_even(exact, number);
    }
    let (mut digits, exponent) = text.parts();
    if let Some(rest) = digits.strip_prefix(b"-") {
        out.push(b'-');
        digits = rest;
    }
    let (first, rest) = (digits[0], digits.get(2..).unwrap_or_default());
    match exponent {
        0..=15 => put_above_one(out, first, rest, exponent as usize),
        -4..=-1 => {
            out.extend_from_slice(&b"0.000"[..1 + exponent.unsigned_abs() as usize]);
            out.push(first);
            out.extend_from_slice(rest);
        }
        _ => put_scientific(out, first, rest, exponent),
    }
}

/// With so many digits after the first before the point.
fn put_above_one(out: &mut Vec<u8>, first: u8, rest: &[u8], whole: usize) {
    out.push(first);
    if rest.len() > whole {
        out.extend_from_slice(&rest[..whole]);
        out.push(b'.');
        out.extend_from_slice(&rest[whole..]);
        return;
    }
    out.extend_from_slice(rest);
    out.extend_from_slice(&b"000000000000000"[..whole - rest.len()]);
    out.extend_from_slice(b".0");
}

/// With an exponent of two digits or more.
fn put_scientific(out: &mut Vec<u8>, first: u8, rest: &[u8], exponent: i32) {
    out.push(first);
    if !rest.is_empty() {
        out.push(b'.');
        out.extend_from_slice(rest);
    }
    out.extend_from_slice(if exponent < 0 { b"e-" } else { b"e+" });
    if exponent.unsigned_abs() < 10 {
        out.push(b'0');
    }
    put_whole(out, exponent.unsigned_abs().into());
}

/// All digits of a float with 1 to 25 digits after the point, as one number: others are no 5 behind a shortest text.
fn exact_digits(number: f64) -> Option<u128> {
    let power = (number.to_bits() >> 52 & 0x7ff) as i32;
    let odd = number.to_bits() & ((1 << 52) - 1) | 1 << 52;
    let places = 1075 - power - odd.trailing_zeros() as i32;
    let places = u32::try_from(places).ok().filter(|k| (1..=25).contains(k))?;
    Some(u128::from(odd >> odd.trailing_zeros()) * 5_u128.pow(places))
}

/// What `{:e}` writes of a float: at most a sign, 17 digits, a point and e-324.
#[derive(Default)]
struct Text {
    bytes: [u8; 32],
    length: usize,
}

impl Text {
    /// Of two shortest texts that are as near, Rust writes the upper one and Python the even one.
    fn take_even(&mut self, exact: u128, number: f64) {
        let (digits, _) = self.parts();
        let figures = digits.iter().filter(|c| c.is_ascii_digit());
        let shortest = figures.fold(0, |sum, c| 10 * sum + u128::from(c - b'0'));
        if shortest % 2 == 0 || 10 * shortest != exact + 5 {
            return;
        }
        let last = digits.len() - 1;
        self.bytes[last] -= 1;
        let read = std::str::from_utf8(&self.bytes[..self.length]);
        if read.ok().and_then(|text| text.parse().ok()) != Some(number) {
            self.bytes[last] += 1;
        }
    }

    /// The digits with their sign and point, and the exponent.
    fn parts(&self) -> (&[u8], i32) {
        let bytes = &self.bytes[..self.length];
        let at = bytes.iter().rposition(|c| *c == b'e').unwrap_or(bytes.len());
        let power = bytes.get(at + 1..).unwrap_or_default();
        let size = |digits: &[u8]| digits.iter().fold(0, |sum, c| 10 * sum + i32::from(c - b'0'));
        let exponent = match power.strip_prefix(b"-") {
            Some(digits) => -size(digits),
            None => size(power),
        };
        (&bytes[..at], exponent)
    }
}

impl Write for Text {
    fn write_str(&mut self, text: &str) -> fmt::Result {
        let room = self.bytes.get_mut(self.length..self.length + text.len());
        room.ok_or(fmt::Error)?.copy_from_slice(text.as_bytes());
        self.length += text.len();
        Ok(())
    }
}

#[cfg(test)]
mod tests {
    use super::{put_float, put_signed};

    /// Bits, and what Python 3.11 writes of them. From the 22nd on most lie halfway between two shortest texts.
    const WRITTEN: [(u64, &str); 30] = [
        (0x0000000000000000, "0.0"),
        (0x8000000000000000, "-0.0"),
        (0x3ff0000000000000, "1.0"),
        (0xbff8000000000000, "-1.5"),
        (0x3fb999999999999a, "0.1"),
        (0x4059000000000000, "100.0"),
        (0x419d6f3454000000, "123456789.0"),
        (0x430c6bf526340000, "1000000000000000.0"),
        (0x4341c37937e07fff, "9999999999999998.0"),
        (0x4341c37937e08000, "1e+16"),
        (0x437b6951ef585a00, "1.2345e+17"),
        (0x4480f0cf064dd592, "1e+22"),
        (0x44b52d02c7e14af6, "1e+23"),
        (0x3f1a36e2eb1c432d, "0.0001"),
        (0x3f202e4b6ce5dc68, "0.00012345"),
        (0x3ee4f8b588e368f1, "1e-05"),
        (0xbe8421f5f40d8376, "-1.5e-07"),
        (0x3ddb7cdfd9d7bdbb, "1e-10"),
        (0x0000000000000001, "5e-324"),
        (0x0010000000000000, "2.2250738585072014e-308"),
        (0x7fefffffffffffff, "1.7976931348623157e+308"),
        (0x3e60000000000000, "2.9802322387695312e-08"),
        (0x3e70000000000000, "5.960464477539063e-08"),
        (0x3ea4000000000000, "5.960464477539062e-07"),
        (0x4310000000000001, "1125899906842624.2"),
        (0xc2ea97257f2320b4, "-233891771783429.62"),
        (0x430fa36fd398d416, "1113178120592002.8"),
        (0x3d30000000000000, "5.684341886080802e-14"),
        (0x4340000000000000, "9007199254740992.0"),
        (0x3fd3333333333334, "0.30000000000000004"),
    ];

    #[test]
    fn floats_are_written_as_python_writes_them() {
        for (bits, due) in WRITTEN {
            let mut text = Vec::new();
            put_float(&mut text, f64::from_bits(bits));
            assert_eq!(String::from_utf8(text).expect("text"), due);
        }
    }

    #[test]
    fn floats_are_read_back() {
        // every other power of two, and what lies beside it
        for power in (0..0x7ff_u64).step_by(2) {
            for bits in [power << 52, (power << 52) + 1, ((power + 1) << 52) - 1] {
                let mut text = Vec::new();
                put_float(&mut text, f64::from_bits(bits));
                let read: f64 = String::from_utf8(text).expect("text").parse().expect("a number");
                assert_eq!(read.to_bits(), bits);
            }
        }
    }

    #[test]
    fn whole_numbers_have_their_sign() {
        for number in [0, 7, -7, 10, i64::MAX, i64::MIN] {
            let mut text = Vec::new();
            put_signed(&mut text, number);
            assert_eq!(String::from_utf8(text).expect("text"), number.to_string());
        }
    }
}
