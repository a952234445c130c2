//! Records to move to the archive's form and back: with an equal mirror, with one that differs, and in the new form.

use crate::archive::ARCHIVED;
use crate::random::Random;
use crate::reader::{Fields, LENGTH};

/// An entry and its mirror, as places of the nine.
pub const MIRRORED: [(usize, usize); 3] = [(1, 3), (2, 6), (5, 7)];

/// The fields with each entry left of the diagonal as its mirror.
pub fn mirrored(mut fields: Fields) -> Fields {
    MIRRORED.into_iter().for_each(|(right, left)| fields.covariance[left] = fields.covariance[right]);
    fields
}

/// The fields with an entry that differs from its mirror in a bit; in two of five the entries are 0 and -0.
pub fn unequal(random: &mut Random, fields: Fields) -> Fields {
    let mut fields = mirrored(fields);
    let (right, left) = random.of(&MIRRORED);
    let (one, other) = if random.one_in(2) { (right, left) } else { (left, right) };
    if random.below(5) < 2 {
        fields.covariance[one] = 0;
        fields.covariance[other] = 1 << 63;
    } else {
        fields.covariance[one] ^= 1 << random.below(52);
    }
    fields
}

/// The 176 bytes of a record without those of the entries left of the diagonal, whatever they hold.
pub fn cut(record: &[u8; LENGTH]) -> [u8; ARCHIVED] {
    let left = |at: &usize| matches!(at, 104..=111 | 128..=143);
    let kept: Vec<u8> = (0..LENGTH).filter(|at| !left(at)).map(|at| record[at]).collect();
    kept.try_into().expect("152 bytes")
}
