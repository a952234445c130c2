use crate::geo::Geodetic;
use crate::refusal::answered;
use crate::{write, Fix, Record, Refusal, RECORD};

/// A position as the wire writes it.
#[derive(Clone, Copy, Debug, Default, PartialEq, Eq)]
pub struct Wire {
    /// 10^-7 degree, within ±900,000,000.
    pub latitude_e7: i32,
    /// 10^-7 degree, within ±1,800,000,000.
    pub longitude_e7: i32,
    /// Millimetres above WGS 84, -1,500,000 to 25,000,000.
    pub height_mm: i32,
}

extern "C" {
    fn mlat_to_wire(record: *const u8, record_len: usize, wire: &mut [i32; 3]) -> u32;
    fn mlat_from_wire(wire: &[i32; 3], position: &mut [f64; 3]) -> u32;
}

/// The position of the fix in a record, each number the whole number nearest the exact value, a half away from zero.
/// What [`crate::read`] gives where it refuses the record; then [`Refusal::BeyondTheWire`] where it holds no fix or a
/// position beyond the limits of [`Wire`].
pub fn to_wire(record: &[u8]) -> Result<Wire, Refusal> {
    let mut wire = [0; 3];
    // SAFETY: the record is lent with its length, and the call keeps none of what is lent.
    answered(unsafe { mlat_to_wire(record.as_ptr(), record.len(), &mut wire) })?;
    let [latitude_e7, longitude_e7, height_mm] = wire;
    Ok(Wire {
        latitude_e7,
        longitude_e7,
        height_mm,
    })
}

impl Fix {
    /// The position as the wire writes it, by [`to_wire`] of the fix's own record. [`Refusal::MalformedRecord`] for a fix
    /// that no record holds.
    pub fn to_wire(&self) -> Result<Wire, Refusal> {
        let mut record = [0; RECORD];
        write(&Record::Fix(*self), &mut record)?;
        to_wire(&record)
    }
}

impl Wire {
    /// The position that these whole numbers stand for, by one division each; written again it gives the same numbers.
    /// [`Refusal::BeyondTheWire`] where one is beyond its limits.
    pub fn position(&self) -> Result<Geodetic, Refusal> {
        let mut position = [0.0; 3];
        // SAFETY: both arrays are lent whole, and the call keeps neither.
        answered(unsafe { mlat_from_wire(&[self.latitude_e7, self.longitude_e7, self.height_mm], &mut position) })?;
        Ok(position.into())
    }
}
