//! The port's wire numbers by their two C names; under `cfg(itself)` the oracle in their place.

#[cfg(not(itself))]
extern "C" {
    fn mlat_to_wire(record: *const u8, record_len: usize, wire: *mut i32) -> u32;
    fn mlat_from_wire(wire: *const i32, position: *mut f64) -> u32;
}

/// The number; where it is 0, `wire` gets the whole numbers.
#[cfg(not(itself))]
pub fn to_wire(record: &[u8], wire: &mut [i32; 3]) -> u32 {
    unsafe { mlat_to_wire(record.as_ptr(), record.len(), wire.as_mut_ptr()) }
}

#[cfg(not(itself))]
pub fn from_wire(wire: [i32; 3], position: &mut [f64; 3]) -> u32 {
    unsafe { mlat_from_wire(wire.as_ptr(), position.as_mut_ptr()) }
}

#[cfg(itself)]
pub fn to_wire(record: &[u8], wire: &mut [i32; 3]) -> u32 {
    crate::wire::to_wire(record).map_or_else(|number| number, |found| { *wire = found; 0 })
}

#[cfg(itself)]
pub fn from_wire(wire: [i32; 3], position: &mut [f64; 3]) -> u32 {
    crate::wire::from_wire(wire).map_or_else(|number| number, |found| { *position = found; 0 })
}
