//! A plain Rust reader of fix records with the checks of document 02's item 1, which leaves what it reads in lent
//! arrays, as the port does.

const LENGTH: usize = 176;
const TORN_FILE: u32 = 16;
const MALFORMED_RECORD: u32 = 18;

/// What is read: words, numbers and transmit time, in the order of include/mlat_solver.h.
#[derive(Clone, Debug, Default, PartialEq)]
pub struct Held {
    pub words: [u32; 6],
    pub numbers: [f64; 18],
    pub transmit_ps: i64,
}

#[inline(never)]
pub fn read(record: &[u8], held: &mut Held) -> u32 {
    let Ok(record) = <&[u8; LENGTH]>::try_from(record) else {
        return TORN_FILE;
    };
    let Some((words, numbers)) = taken_apart(record) else {
        return MALFORMED_RECORD;
    };
    held.words = words;
    held.numbers = numbers;
    held.transmit_ps = i64::from_le_bytes(record[72..80].try_into().expect("eight bytes"));
    0
}

/// The words and the numbers of a record that meets the rules.
#[inline(always)]
pub fn taken_apart(record: &[u8; LENGTH]) -> Option<([u32; 6], [f64; 18])> {
    let word = |at: usize| u32::from_le_bytes(record[at..at + 4].try_into().expect("four bytes"));
    let float = |at: usize| f64::from_le_bytes(record[at..at + 8].try_into().expect("eight bytes"));
    let version = u16::from_le_bytes([record[160], record[161]]);
    let words = [word(0), word(4), word(8), word(12), u32::from(version), u32::from(record[162])];
    let mut numbers = [0.0; 18];
    (0..7).for_each(|k| numbers[k] = float(16 + 8 * k));
    (0..10).for_each(|k| numbers[7 + k] = float(80 + 8 * k));
    numbers[17] = float(168);
    let sound = match words[0] {
        0 => record[163..168] == [0; 5] && fix_is_sound(&words, &numbers),
        _ => record[12..] == [0; LENGTH - 12] && refusal_is_sound(&words),
    };
    sound.then_some((words, numbers))
}

fn fix_is_sound(words: &[u32; 6], numbers: &[f64; 18]) -> bool {
    let [_, detail, n, mask, version, kind] = *words;
    n <= 32
        && version == 8
        && kind <= 2
        && numbers.iter().all(|x| x.is_finite())
        && u64::from(mask) >> n == 0
        && i64::from(detail) == i64::from(mask.count_ones()) + i64::from(kind != 0) - 4
        && (kind != 0 || numbers[17].to_bits() == 0)
}

fn refusal_is_sound(words: &[u32; 6]) -> bool {
    let [answer, detail, n, ..] = *words;
    let most = match answer {
        1..=9 => 32,
        10..=13 | 15 => 0,
        _ => return false,
    };
    n <= most
        && match answer {
            1 => detail <= 3,
            11 => (1..=31).contains(&detail),
            12 => matches!(detail, 0..=31 | 100..=131 | 200),
            _ => detail == 0,
        }
}
