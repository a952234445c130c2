//! Cases of the reader with the oracle's answers, one after the other: crates/replay_records/RECORDING.md has the form.

use crate::reader::{self, Fields, LENGTH};

/// What the lent memory is filled with before a call.
pub const FOUND: u8 = 0xa5;

#[derive(Clone, Debug, PartialEq, Eq)]
pub enum Call {
    Place { place: u64, file: Vec<u8> },
    Read { record: Vec<u8> },
    Write { fields: Fields, length: usize },
}

/// A call, the number that it answers, and the lent memory after it.
#[derive(Clone, Debug, PartialEq, Eq)]
pub struct Case {
    pub call: Call,
    pub number: u8,
    pub after: Vec<u8>,
}

/// Words, numbers and transmit time, in the order of include/mlat_solver.h.
fn laid_out(fields: &Fields) -> Vec<u8> {
    let Fields { answer, detail, n, mask, version, kind, transmit_ps, .. } = *fields;
    let words = [answer, detail, n, mask, version, kind].into_iter().flat_map(u32::to_le_bytes);
    words.chain(fields.floats().into_iter().flat_map(u64::to_le_bytes)).chain(transmit_ps.to_le_bytes()).collect()
}

/// What the oracle answers, and what it leaves. For a place that is the offset, and the record's own bytes.
pub fn answered(call: &Call) -> (u32, Vec<u8>) {
    match call {
        Call::Place { place, file } => match reader::record_at(file, *place) {
            Ok(part) => {
                let at = part.as_ptr() as u64 - file.as_ptr() as u64;
                (0, at.to_le_bytes().into_iter().chain(part.iter().copied()).collect())
            }
            Err(number) => (number, vec![FOUND; 8]),
        },
        Call::Read { record } => match reader::read(record) {
            Ok(fields) => (0, laid_out(&fields)),
            Err(number) => (number, vec![FOUND; LENGTH]),
        },
        Call::Write { fields, length } => {
            let mut out = vec![FOUND; *length];
            (reader::write(fields, &mut out), out)
        }
    }
}

pub fn case(call: Call) -> Case {
    let (number, after) = answered(&call);
    Case { call, number: number as u8, after }
}

/// The fields of `laid_out`.
fn taken_up(bytes: &[u8]) -> Fields {
    let word = |k: usize| u32::from_le_bytes(bytes[4 * k..4 * k + 4].try_into().expect("four bytes"));
    let long = |at: usize| u64::from_le_bytes(bytes[at..at + 8].try_into().expect("eight bytes"));
    let mut fields = Fields {
        answer: word(0),
        detail: word(1),
        n: word(2),
        mask: word(3),
        version: word(4),
        kind: word(5),
        transmit_ps: long(168) as i64,
        ..Fields::default()
    };
    (0..18).for_each(|k| *fields.float_mut(k) = long(24 + 8 * k));
    fields
}

/// All cases of a recording.
pub fn read(mut bytes: &[u8]) -> Vec<Case> {
    let mut all = Vec::new();
    while !bytes.is_empty() {
        let head = taken(&mut bytes, 8);
        let length = usize::from(u16::from_le_bytes([head[4], head[5]]));
        let (call, after) = match head[0] {
            0 => {
                let place = u64::from_le_bytes(taken(&mut bytes, 8).try_into().expect("eight bytes"));
                let file = taken(&mut bytes, length).to_vec();
                (Call::Place { place, file }, if head[2] == 1 { 8 + LENGTH } else { 8 })
            }
            1 => (Call::Read { record: taken(&mut bytes, length).to_vec() }, LENGTH),
            _ => (Call::Write { fields: taken_up(taken(&mut bytes, LENGTH)), length }, length),
        };
        all.push(Case { call, number: head[1], after: taken(&mut bytes, after).to_vec() });
    }
    all
}

fn taken<'a>(bytes: &mut &'a [u8], count: usize) -> &'a [u8] {
    let (first, rest) = bytes.split_at(count);
    *bytes = rest;
    first
}

impl Case {
    pub fn bytes(&self) -> Vec<u8> {
        let (what, length, input) = match &self.call {
            Call::Place { place, file } => (0, file.len(), place.to_le_bytes().iter().chain(file).copied().collect()),
            Call::Read { record } => (1, record.len(), record.clone()),
            Call::Write { fields, length } => (2, *length, laid_out(fields)),
        };
        let part = what == 0 && self.after.len() > 8;
        let mut all = vec![what, self.number, part.into(), 0];
        all.extend((length as u32).to_le_bytes());
        all.extend(input);
        all.extend(&self.after);
        all
    }
}
