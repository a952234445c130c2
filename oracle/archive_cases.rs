//! Moves to the archive's form and back with the oracle's answers, one after the other:
//! crates/replay_archive/RECORDING.md has the form.

use crate::archive;

/// What the lent output is filled with before a call.
pub const FOUND: u8 = 0xa5;

/// A move there, or back, of a record; the number that it answers, and the output after it.
#[derive(Clone, Debug, PartialEq, Eq)]
pub struct Case {
    pub back: bool,
    pub record: Vec<u8>,
    pub number: u8,
    pub after: Vec<u8>,
}

/// What the oracle answers, and what it leaves of an output of this length.
pub fn answered(back: bool, record: &[u8], length: usize) -> (u8, Vec<u8>) {
    let mut out = vec![FOUND; length];
    let number = if back { archive::from_archive(record, &mut out) } else { archive::to_archive(record, &mut out) };
    (number as u8, out)
}

pub fn case(back: bool, record: &[u8], length: usize) -> Case {
    let (number, after) = answered(back, record, length);
    Case { back, record: record.to_vec(), number, after }
}

/// All cases of a recording.
pub fn read(mut bytes: &[u8]) -> Vec<Case> {
    let mut all = Vec::new();
    while !bytes.is_empty() {
        let head = taken(&mut bytes, 8);
        let two = |k: usize| usize::from(u16::from_le_bytes([head[k], head[k + 1]]));
        let record = taken(&mut bytes, two(2)).to_vec();
        let after = taken(&mut bytes, two(4)).to_vec();
        all.push(Case { back: head[0] == 1, record, number: head[1], after });
    }
    all
}

fn taken<'a>(bytes: &mut &'a [u8], count: usize) -> &'a [u8] {
    let (first, rest) = bytes.split_at(count);
    *bytes = rest;
    first
}

impl Case {
    pub fn bytes(&self) -> Vec<u8> {
        let two = |length: usize| (length as u16).to_le_bytes();
        let mut all = vec![self.back.into(), self.number];
        all.extend([two(self.record.len()), two(self.after.len()), [0; 2]].concat());
        all.extend(&self.record);
        all.extend(&self.after);
        all
    }
}
