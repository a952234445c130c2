//! Queries of files with the oracle's answers, one after the other: crates/replay_near/RECORDING.md has the form.

use crate::near;

/// What the lent entries and the lent number hold before a call.
pub const FOUND: u64 = 0xa5a5_a5a5_a5a5_a5a5;

/// A call of `nearest`, or of `within`; the number that it answers; the place or the count after it; and the entries.
#[derive(Clone, Debug, PartialEq)]
pub struct Case {
    pub nearest: bool,
    pub file: Vec<u8>,
    /// The bits of the point's coordinates and of the radius.
    pub query: [u64; 4],
    pub number: u8,
    pub out: u64,
    pub after: Vec<u64>,
}

/// What the oracle answers, and what it leaves of a number and of so many entries.
pub fn answered(nearest: bool, file: &[u8], query: [u64; 4], entries: usize) -> (u8, u64, Vec<u64>) {
    let [x, y, z, radius] = query.map(f64::from_bits);
    let mut out = FOUND;
    let mut after = vec![FOUND; entries];
    let number = if nearest {
        near::nearest(file, &[x, y, z], &mut out)
    } else {
        near::within(file, &[x, y, z], radius, &mut after, &mut out)
    };
    (number as u8, out, after)
}

pub fn case(nearest: bool, file: &[u8], query: [u64; 4], entries: usize) -> Case {
    let (number, out, after) = answered(nearest, file, query, entries);
    Case { nearest, file: file.to_vec(), query, number, out, after }
}

/// All cases of a recording.
pub fn read(mut bytes: &[u8]) -> Vec<Case> {
    let mut all = Vec::new();
    while !bytes.is_empty() {
        let head = taken(&mut bytes, 8);
        let two = |k: usize| usize::from(u16::from_le_bytes([head[k], head[k + 1]]));
        let file = taken(&mut bytes, two(2)).to_vec();
        let query = std::array::from_fn(|_| long(&mut bytes));
        let out = long(&mut bytes);
        let after = (0..two(4)).map(|_| long(&mut bytes)).collect();
        all.push(Case { nearest: head[0] == 1, file, query, number: head[1], out, after });
    }
    all
}

fn long(bytes: &mut &[u8]) -> u64 {
    u64::from_le_bytes(taken(bytes, 8).try_into().expect("eight bytes"))
}

fn taken<'a>(bytes: &mut &'a [u8], count: usize) -> &'a [u8] {
    let (first, rest) = bytes.split_at(count);
    *bytes = rest;
    first
}

impl Case {
    pub fn bytes(&self) -> Vec<u8> {
        let two = |length: usize| (length as u16).to_le_bytes();
        let mut all = vec![self.nearest.into(), self.number];
        all.extend([two(self.file.len()), two(self.after.len()), [0; 2]].concat());
        all.extend(&self.file);
        let longs = self.query.iter().chain([&self.out]).chain(&self.after);
        all.extend(longs.flat_map(|long| long.to_le_bytes()));
        all
    }
}
