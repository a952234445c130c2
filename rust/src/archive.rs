use crate::refusal::answered;
use crate::{read, write, Record, Refusal, RECORD};

/// The length of a record in the archive's form.
pub const ARCHIVED: usize = 152;

extern "C" {
    fn mlat_to_archive(record: *const u8, record_len: usize, out: *mut u8, out_len: usize) -> u32;
    fn mlat_from_archive(record: *const u8, record_len: usize, out: *mut u8, out_len: usize) -> u32;
}

/// Moves a record of 176 bytes to the archive's form, in the first 152 of `out`: [`Refusal::ShortOutput`] where `out` is
/// shorter, then what [`read`] gives the record, then [`Refusal::UnequalMirror`] where an entry of the covariance and its
/// mirror differ in a bit; `out` then stays as it is.
pub fn to_archive(record: &[u8], out: &mut [u8]) -> Result<(), Refusal> {
    // SAFETY: both are lent with their lengths, apart from each other, and the call keeps none of them.
    answered(unsafe { mlat_to_archive(record.as_ptr(), record.len(), out.as_mut_ptr(), out.len()) })
}

/// Moves a record of 152 bytes back, to the first 176 of `out`: [`Refusal::ShortOutput`] where `out` is shorter, then
/// [`Refusal::TornFile`] for another length than 152, then [`Refusal::MalformedRecord`] where [`read`] turns its old form
/// away; `out` then stays as it is.
pub fn from_archive(record: &[u8], out: &mut [u8]) -> Result<(), Refusal> {
    // SAFETY: as above.
    answered(unsafe { mlat_from_archive(record.as_ptr(), record.len(), out.as_mut_ptr(), out.len()) })
}

impl Record {
    /// Its bytes in the archive's form: [`Refusal::MalformedRecord`] for what [`read`] could not have given, then
    /// [`Refusal::UnequalMirror`].
    pub fn to_archive(&self) -> Result<[u8; ARCHIVED], Refusal> {
        let mut record = [0; RECORD];
        write(self, &mut record)?;
        let mut out = [0; ARCHIVED];
        to_archive(&record, &mut out)?;
        Ok(out)
    }

    /// What a record in the archive's form holds: [`Refusal::TornFile`] for another length than 152, then
    /// [`Refusal::MalformedRecord`].
    pub fn from_archive(record: &[u8]) -> Result<Self, Refusal> {
        let mut out = [0; RECORD];
        from_archive(record, &mut out)?;
        read(&out)
    }
}
