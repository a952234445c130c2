//! Recorded inputs with their records, one after the other. Each is eight bytes, then the bytes of the four files, then the record. The eight: the length of receptions.bin,
//! u16; of clock.bin, u16; of altitude.bin, u8; of reference.bin, u8; which are there, u8 (bit 0 clock, 1 altitude, 2 reference, 3 receptions); and 0. Little-endian.

use crate::record::LENGTH;
use crate::scene::Files;

/// The longest receptions.bin and clock.bin that are kept, so that a replay can have buffers of a fixed length.
const MOST: [usize; 2] = [16_384, 16_384];

pub struct Kept {
    pub files: Files,
    pub record: [u8; LENGTH],
}

/// None where a file is too long.
pub fn bytes(kept: &Kept) -> Option<Vec<u8>> {
    let Files { receptions, clock, altitude, reference } = &kept.files;
    let length = |file: &Option<Vec<u8>>| file.as_ref().map_or(0, Vec::len);
    let bit = |file: &Option<Vec<u8>>, k: u8| u8::from(file.is_some()) << k;
    if length(receptions) > MOST[0] || length(clock) > MOST[1] {
        return None;
    }
    let mut all = Vec::new();
    all.extend((length(receptions) as u16).to_le_bytes());
    all.extend((length(clock) as u16).to_le_bytes());
    all.push(u8::try_from(length(altitude)).ok()?);
    all.push(u8::try_from(length(reference)).ok()?);
    all.push(bit(clock, 0) | bit(altitude, 1) | bit(reference, 2) | bit(receptions, 3));
    all.push(0);
    for file in [receptions, clock, altitude, reference] {
        all.extend(file.iter().flatten());
    }
    all.extend(kept.record);
    Some(all)
}

/// All of them; none where the bytes end within one.
pub fn read(mut bytes: &[u8]) -> Option<Vec<Kept>> {
    let mut all = Vec::new();
    while !bytes.is_empty() {
        let head = take(&mut bytes, 8)?;
        let length = |k: usize| usize::from(u16::from_le_bytes([head[k], head[k + 1]]));
        let lengths = [length(0), length(2), usize::from(head[4]), usize::from(head[5])];
        let there = [3, 0, 1, 2].map(|bit: u8| head[6] >> bit & 1 == 1);
        let mut file = |k: usize| -> Option<Option<Vec<u8>>> {
            let part = take(&mut bytes, lengths[k])?;
            Some(there[k].then(|| part.to_vec()))
        };
        let files = Files { receptions: file(0)?, clock: file(1)?, altitude: file(2)?, reference: file(3)? };
        let record = take(&mut bytes, LENGTH)?.try_into().ok()?;
        all.push(Kept { files, record });
    }
    Some(all)
}

fn take<'a>(bytes: &mut &'a [u8], count: usize) -> Option<&'a [u8]> {
    let (first, rest) = bytes.split_at_checked(count)?;
    *bytes = rest;
    Some(first)
}
