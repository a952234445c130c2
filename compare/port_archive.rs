//! The port's moves to the archive's form and back by their C names; under `cfg(itself)` the oracle in their place.

#[cfg(not(itself))]
extern "C" {
    fn mlat_to_archive(record: *const u8, record_len: usize, out: *mut u8, out_len: usize) -> u32;
    fn mlat_from_archive(record: *const u8, record_len: usize, out: *mut u8, out_len: usize) -> u32;
}

#[cfg(not(itself))]
pub fn to_archive(record: &[u8], out: &mut [u8]) -> u32 {
    unsafe { mlat_to_archive(record.as_ptr(), record.len(), out.as_mut_ptr(), out.len()) }
}

#[cfg(not(itself))]
pub fn from_archive(record: &[u8], out: &mut [u8]) -> u32 {
    unsafe { mlat_from_archive(record.as_ptr(), record.len(), out.as_mut_ptr(), out.len()) }
}

#[cfg(itself)]
pub use crate::archive::{from_archive, to_archive};
