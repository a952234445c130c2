//! The port's searches by their C names; under `cfg(itself)` the oracle in their place.

#[cfg(not(itself))]
extern "C" {
    #[rustfmt::skip]
    fn mlat_within(
        file: *const u8, file_len: usize, point: &[f64; 3], radius: f64, places: *mut u64, places_len: usize,
        count: &mut u64,
    ) -> u32;
    fn mlat_nearest(file: *const u8, file_len: usize, point: &[f64; 3], place: &mut u64) -> u32;
}

#[cfg(not(itself))]
pub fn within(file: &[u8], point: &[f64; 3], radius: f64, places: &mut [u64], count: &mut u64) -> u32 {
    unsafe { mlat_within(file.as_ptr(), file.len(), point, radius, places.as_mut_ptr(), places.len(), count) }
}

#[cfg(not(itself))]
pub fn nearest(file: &[u8], point: &[f64; 3], place: &mut u64) -> u32 {
    unsafe { mlat_nearest(file.as_ptr(), file.len(), point, place) }
}

#[cfg(itself)]
pub use crate::near::{nearest, within};
