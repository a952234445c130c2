//! The port's items by their three C names; under `cfg(itself)` the oracle in their place.

#[cfg(not(itself))]
extern "C" {
    fn mlat_to_asterix(wire: *const i32, out: *mut u8, out_len: usize) -> u32;
    fn mlat_read_asterix(items: *const u8, items_len: usize, multiples: *mut i32) -> u32;
    fn mlat_write_asterix(multiples: *const i32, out: *mut u8, out_len: usize) -> u32;
}

/// The number; where it is 0, `out` has the items.
#[cfg(not(itself))]
pub fn to_asterix(wire: [i32; 3], out: &mut [u8]) -> u32 {
    unsafe { mlat_to_asterix(wire.as_ptr(), out.as_mut_ptr(), out.len()) }
}

#[cfg(not(itself))]
pub fn write_asterix(multiples: [i32; 3], out: &mut [u8]) -> u32 {
    unsafe { mlat_write_asterix(multiples.as_ptr(), out.as_mut_ptr(), out.len()) }
}

#[cfg(not(itself))]
pub fn read_asterix(items: &[u8], multiples: &mut [i32; 3]) -> u32 {
    unsafe { mlat_read_asterix(items.as_ptr(), items.len(), multiples.as_mut_ptr()) }
}

#[cfg(itself)]
pub fn to_asterix(wire: [i32; 3], out: &mut [u8]) -> u32 {
    let found = crate::asterix::to_asterix(wire, out.len());
    found.map_or_else(|number| number, |items| { out.copy_from_slice(&items); 0 })
}

#[cfg(itself)]
pub fn write_asterix(multiples: [i32; 3], out: &mut [u8]) -> u32 {
    let found = crate::asterix::write_asterix(multiples, out.len());
    found.map_or_else(|number| number, |items| { out.copy_from_slice(&items); 0 })
}

#[cfg(itself)]
pub fn read_asterix(items: &[u8], multiples: &mut [i32; 3]) -> u32 {
    crate::asterix::read_asterix(items).map_or_else(|number| number, |found| { *multiples = found; 0 })
}
