//! The port's states by their C name; under `cfg(itself)` the oracle in its place.

use oracle::scene::Files;

#[cfg(not(itself))]
extern "C" {
    #[rustfmt::skip]
    fn mlat_why(
        receptions: *const u8, receptions_len: usize, clock: *const u8, clock_len: usize, altitude: *const u8, altitude_len: usize,
        reference: *const u8, reference_len: usize, present: u32, states: *mut u8, states_len: usize, detail: *mut u32,
    ) -> u32;
}

/// The answer number. An absent file's bit is off, and `spare` is given for its bytes; `more` are bits that mean nothing.
#[cfg(not(itself))]
pub fn why(files: &Files, spare: &[u8], more: u32, states: &mut [u8], detail: &mut u32) -> u32 {
    let bit = |file: &Option<Vec<u8>>, k: u32| u32::from(file.is_some()) << k;
    let present = bit(&files.clock, 0) | bit(&files.altitude, 1) | bit(&files.reference, 2) | more << 3;
    let receptions = files.receptions.as_deref().unwrap_or(&[]);
    let [clock, altitude, reference] = [&files.clock, &files.altitude, &files.reference].map(|file| file.as_deref().unwrap_or(spare));
    unsafe {
        mlat_why(
            receptions.as_ptr(), receptions.len(), clock.as_ptr(), clock.len(), altitude.as_ptr(), altitude.len(),
            reference.as_ptr(), reference.len(), present, states.as_mut_ptr(), states.len(), detail,
        )
    }
}

#[cfg(itself)]
pub fn why(files: &Files, _: &[u8], _: u32, states: &mut [u8], detail: &mut u32) -> u32 {
    oracle::why::why(files, states, detail)
}
