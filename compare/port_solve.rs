//! The port's solve by its two C names; under `cfg(itself)` the original in their place.

use oracle::scene::Files;
#[cfg(not(itself))]
use oracle::scene::RECEPTION;

/// A reception of a caller's list, as `struct mlat_reception` of include/mlat_solver.h.
#[cfg(not(itself))]
#[repr(C)]
struct Reception {
    receiver: [u8; 32],
    epoch: u32,
    timestamp: u64,
    message: [u8; 32],
    time: i64,
    site_mm: [i64; 3],
    z: f64,
    noise_m2: f64,
    filler: u64,
}

#[cfg(not(itself))]
extern "C" {
    #[rustfmt::skip]
    fn mlat_solve(
        receptions: *const u8, receptions_len: usize, clock: *const u8, clock_len: usize, altitude: *const u8, altitude_len: usize,
        reference: *const u8, reference_len: usize, present: u32, out: *mut u8, out_len: usize,
    ) -> u32;
    #[rustfmt::skip]
    fn mlat_solve_receptions(
        receptions: *const Reception, receptions_len: usize, clock: *const u8, clock_len: usize, altitude: *const u8, altitude_len: usize,
        reference: *const u8, reference_len: usize, present: u32, out: *mut u8, out_len: usize,
    ) -> u32;
}

/// `present` and the other three inputs. An absent file's bit is off, and `spare` is given for its bytes; `more` are bits that mean nothing.
#[cfg(not(itself))]
fn others<'a>(files: &'a Files, spare: &'a [u8], more: u32) -> (u32, [&'a [u8]; 3]) {
    let bit = |file: &Option<Vec<u8>>, k: u32| u32::from(file.is_some()) << k;
    let present = bit(&files.clock, 0) | bit(&files.altitude, 1) | bit(&files.reference, 2) | more << 3;
    (present, [&files.clock, &files.altitude, &files.reference].map(|file| file.as_deref().unwrap_or(spare)))
}

/// The answer number, receptions as bytes.
#[cfg(not(itself))]
pub fn solve(files: &Files, spare: &[u8], more: u32, out: &mut [u8]) -> u32 {
    let receptions = files.receptions.as_deref().unwrap_or(&[]);
    let (present, [clock, altitude, reference]) = others(files, spare, more);
    unsafe {
        mlat_solve(
            receptions.as_ptr(), receptions.len(), clock.as_ptr(), clock.len(), altitude.as_ptr(), altitude.len(),
            reference.as_ptr(), reference.len(), present, out.as_mut_ptr(), out.len(),
        )
    }
}

#[cfg(not(itself))]
fn part<const N: usize>(bytes: &[u8], at: usize) -> [u8; N] {
    bytes[at..at + N].try_into().expect("N bytes")
}

#[cfg(not(itself))]
fn reception(bytes: &[u8]) -> Reception {
    let long = |at: usize| u64::from_le_bytes(part(bytes, at));
    Reception {
        receiver: part(bytes, 0),
        epoch: u32::from_le_bytes(part(bytes, 32)),
        timestamp: long(36),
        message: part(bytes, 44),
        time: long(76) as i64,
        site_mm: [84, 92, 100].map(|at| long(at) as i64),
        z: f64::from_bits(long(108)),
        noise_m2: f64::from_bits(long(116)),
        filler: long(124),
    }
}

/// The answer number, receptions as a list of structs: those of the whole 132 bytes.
#[cfg(not(itself))]
pub fn solve_receptions(files: &Files, spare: &[u8], more: u32, out: &mut [u8]) -> u32 {
    let list: Vec<Reception> = files.receptions.as_deref().unwrap_or(&[]).chunks_exact(RECEPTION).map(reception).collect();
    let (present, [clock, altitude, reference]) = others(files, spare, more);
    unsafe {
        mlat_solve_receptions(
            list.as_ptr(), list.len(), clock.as_ptr(), clock.len(), altitude.as_ptr(), altitude.len(),
            reference.as_ptr(), reference.len(), present, out.as_mut_ptr(), out.len(),
        )
    }
}

#[cfg(itself)]
pub fn solve(files: &Files, _: &[u8], _: u32, out: &mut [u8]) -> u32 {
    oracle::record::solve(files, out)
}

#[cfg(itself)]
pub fn solve_receptions(files: &Files, spare: &[u8], more: u32, out: &mut [u8]) -> u32 {
    solve(files, spare, more, out)
}
