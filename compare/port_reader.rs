//! The port's reader by its three C names; under `cfg(itself)` the oracle in their place.

use crate::reader::Fields;

/// What is lent to a read, with a spare word on either side of each array: all of it stays where a read is refused, and
/// the spare words always.
#[derive(Clone, Copy, Debug, PartialEq, Eq)]
pub struct Lent {
    words: [u32; 8],
    numbers: [u64; 20],
    transmit_ps: [i64; 3],
}

impl Lent {
    pub fn filled(byte: u8) -> Self {
        Self {
            words: [u32::from_le_bytes([byte; 4]); 8],
            numbers: [u64::from_le_bytes([byte; 8]); 20],
            transmit_ps: [i64::from_le_bytes([byte; 8]); 3],
        }
    }

    /// With these fields, in the order of include/mlat_solver.h, between the spare words.
    pub fn with(mut self, fields: &Fields) -> Self {
        let Fields { answer, detail, n, mask, version, kind, transmit_ps, .. } = *fields;
        self.words[1..7].copy_from_slice(&[answer, detail, n, mask, version, kind]);
        self.numbers[1..19].copy_from_slice(&fields.floats());
        self.transmit_ps[1] = transmit_ps;
        self
    }
}

#[cfg(not(itself))]
extern "C" {
    #[rustfmt::skip]
    fn mlat_record_at(file: *const u8, file_len: usize, place: u64, at: *mut u64) -> u32;
    #[rustfmt::skip]
    fn mlat_read_record(
        record: *const u8, record_len: usize, words: *mut u32, numbers: *mut f64, transmit_ps: *mut i64,
    ) -> u32;
    #[rustfmt::skip]
    fn mlat_write_record(
        words: *const u32, numbers: *const f64, transmit_ps: i64, out: *mut u8, out_len: usize,
    ) -> u32;
}

/// The number; where it is 0, `at` gets the record's offset.
#[cfg(not(itself))]
pub fn record_at(file: &[u8], place: u64, at: &mut u64) -> u32 {
    unsafe { mlat_record_at(file.as_ptr(), file.len(), place, at) }
}

#[cfg(not(itself))]
pub fn read(record: &[u8], lent: &mut Lent) -> u32 {
    let (words, numbers) = (lent.words[1..7].as_mut_ptr(), lent.numbers[1..19].as_mut_ptr());
    unsafe { mlat_read_record(record.as_ptr(), record.len(), words, numbers.cast(), &mut lent.transmit_ps[1]) }
}

#[cfg(not(itself))]
pub fn write(fields: &Fields, out: &mut [u8]) -> u32 {
    let lent = Lent::filled(0).with(fields);
    let (words, numbers) = (lent.words[1..7].as_ptr(), lent.numbers[1..19].as_ptr());
    unsafe { mlat_write_record(words, numbers.cast(), lent.transmit_ps[1], out.as_mut_ptr(), out.len()) }
}

#[cfg(itself)]
pub fn record_at(file: &[u8], place: u64, at: &mut u64) -> u32 {
    let part = crate::reader::record_at(file, place);
    part.map_or_else(
        |number| number,
        |part| {
            *at = part.as_ptr() as u64 - file.as_ptr() as u64;
            0
        },
    )
}

#[cfg(itself)]
pub fn read(record: &[u8], lent: &mut Lent) -> u32 {
    let fields = crate::reader::read(record);
    fields.map_or_else(
        |number| number,
        |fields| {
            *lent = lent.with(&fields);
            0
        },
    )
}

#[cfg(itself)]
pub fn write(fields: &Fields, out: &mut [u8]) -> u32 {
    crate::reader::write(fields, out)
}
