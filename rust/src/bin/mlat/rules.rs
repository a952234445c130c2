//! Which rule a record breaks, in words: document 02, item 1. The library decides whether a record breaks one; this
//! only explains, for people who have to find out what wrote the record.

use jifrosk::{ARCHIVED, RECORD};

/// The numbers of a fix: where each begins, and what people call it.
const NUMBERS: [(usize, &str); 18] = [
    (16, "ECEF x"),
    (24, "ECEF y"),
    (32, "ECEF z"),
    (40, "transmit time in metres"),
    (48, "latitude"),
    (56, "longitude"),
    (64, "height"),
    (80, "covariance entry 00"),
    (88, "covariance entry 01"),
    (96, "covariance entry 02"),
    (104, "covariance entry 10"),
    (112, "covariance entry 11"),
    (120, "covariance entry 12"),
    (128, "covariance entry 20"),
    (136, "covariance entry 21"),
    (144, "covariance entry 22"),
    (152, "chi-square"),
    (168, "altitude"),
];

/// The rule that a record breaks, in either form: the first in the library's order.
pub fn broken(entry: &[u8]) -> Option<String> {
    let record = old_form(entry)?;
    match word(&record, 0) {
        0 => broken_by_fix(&record),
        answer => broken_by_refusal(&record, answer),
    }
}

/// The 176 bytes of a record, or of one in the archive's form: entries left of the diagonal are their mirrors.
fn old_form(entry: &[u8]) -> Option<[u8; RECORD]> {
    if entry.len() != ARCHIVED {
        return entry.try_into().ok();
    }
    let mut record = [0; RECORD];
    record[..80].copy_from_slice(&entry[..80]);
    for (place, from) in [0, 1, 2, 1, 3, 4, 2, 4, 5].into_iter().enumerate() {
        record[80 + 8 * place..][..8].copy_from_slice(&entry[80 + 8 * from..][..8]);
    }
    record[152..].copy_from_slice(&entry[128..]);
    Some(record)
}

fn word(record: &[u8; RECORD], at: usize) -> u32 {
    u32::from_le_bytes([record[at], record[at + 1], record[at + 2], record[at + 3]])
}

fn broken_by_fix(record: &[u8; RECORD]) -> Option<String> {
    let [detail, n, used] = [4, 8, 12].map(|at| word(record, at));
    let version = u16::from_le_bytes([record[160], record[161]]);
    let kind = record[162];
    if n > 32 {
        return Some(format!("its n is {n}, over 32"));
    }
    if version != 8 {
        return Some(format!("its version is {version}, not 8"));
    }
    if kind > 2 {
        return Some(format!("its altitude is of kind {kind}, not 0 to 2"));
    }
    if let Some((_, name)) = NUMBERS.iter().find(|(at, _)| !is_finite(record, *at)) {
        return Some(format!("its {name} is not finite"));
    }
    if u64::from(used) >> n != 0 {
        return Some("its mask has bits past n".to_string());
    }
    let dof = i64::from(used.count_ones()) + i64::from(kind != 0) - 4;
    if i64::from(detail) != dof {
        return Some(format!("its detail is {detail}, and its degrees of freedom are {dof}"));
    }
    let filler = record[163..168].iter().any(|byte| *byte != 0);
    let unused = kind == 0 && record[168..].iter().any(|byte| *byte != 0);
    match (filler, unused) {
        (true, _) => Some("its filler is not zero".to_string()),
        (_, true) => Some("it has metres of an altitude that it has not".to_string()),
        _ => None,
    }
}

fn is_finite(record: &[u8; RECORD], at: usize) -> bool {
    record[at..]
        .first_chunk()
        .is_some_and(|bytes| f64::from_le_bytes(*bytes).is_finite())
}

fn broken_by_refusal(record: &[u8; RECORD], answer: u32) -> Option<String> {
    let [detail, n] = [4, 8].map(|at| word(record, at));
    if answer > 15 || answer == 14 {
        return Some(format!("its answer is {answer}, not 0 to 13 or 15"));
    }
    let may = match answer {
        1 => detail <= 3,
        11 => (1..=31).contains(&detail),
        12 => detail <= 31 || (100..=131).contains(&detail) || detail == 200,
        _ => detail == 0,
    };
    if !may {
        return Some(format!("its detail is {detail}, which a refusal by {answer} has not"));
    }
    if n > 32 {
        return Some(format!("its n is {n}, over 32"));
    }
    if answer > 9 && n != 0 {
        return Some(format!("its n is {n}, and a refusal by {answer} has none"));
    }
    let at = (12..RECORD).find(|at| record[*at] != 0)?;
    Some(format!("its byte {at} is not zero, and a refusal uses none past n"))
}

#[cfg(test)]
mod tests {
    use super::broken;
    use jifrosk::{from_archive, read, to_archive, ARCHIVED, RECORD};

    const RECORDS: &[u8] = include_bytes!("../../../tests/data/archive/records.bin");

    /// The records with one byte changed, each byte in turn by each of some values.
    fn each_damaged(mut take: impl FnMut(&[u8])) {
        for record in RECORDS.chunks_exact(RECORD) {
            for at in 0..RECORD {
                for change in [1, 3, 0x10, 0x7f, 0x80, 0xff] {
                    let mut damaged = record.to_vec();
                    damaged[at] ^= change;
                    take(&damaged);
                }
            }
        }
    }

    #[test]
    fn a_rule_is_found_where_the_library_refuses() {
        let mut refused = 0;
        each_damaged(|record| {
            assert_eq!(broken(record).is_some(), read(record).is_err(), "{record:?}");
            refused += usize::from(read(record).is_err());
        });
        assert!(refused > 60_000);
    }

    #[test]
    fn and_in_the_form_of_the_archive() {
        let (mut moved, mut back) = ([0; ARCHIVED], [0; RECORD]);
        for record in RECORDS.chunks_exact(RECORD) {
            to_archive(record, &mut moved).expect("a record of a solve");
            for at in 0..ARCHIVED {
                let mut damaged = moved;
                damaged[at] ^= 0x7f;
                assert_eq!(broken(&damaged).is_some(), from_archive(&damaged, &mut back).is_err());
            }
        }
        assert_eq!(broken(&[0; 10]), None);
    }
}
