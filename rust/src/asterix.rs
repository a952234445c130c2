use crate::refusal::answered;
use crate::{Fix, Refusal, Wire};

/// The length of items I020/041 and I020/105 of Eurocontrol's category 020, one after the other.
pub const ITEMS: usize = 10;

/// A position in the steps of the two items.
#[derive(Clone, Copy, Debug, Default, PartialEq, Eq)]
pub struct Multiples {
    /// 180/2^25 degree; of an exported position within ±2^24.
    pub latitude: i32,
    /// 180/2^25 degree; of an exported position from -2^25 to 2^25 - 1.
    pub longitude: i32,
    /// 6.25 ft, which is 1,905 mm, above WGS 84; the items hold 16 bits of it.
    pub height: i32,
}

extern "C" {
    fn mlat_to_asterix(wire: &[i32; 3], out: *mut u8, out_len: usize) -> u32;
    fn mlat_read_asterix(items: *const u8, items_len: usize, multiples: &mut [i32; 3]) -> u32;
    fn mlat_write_asterix(multiples: &[i32; 3], out: *mut u8, out_len: usize) -> u32;
}

/// Writes the wire's numbers as the ten bytes of the items, each the nearest multiple; a longitude that comes to 180
/// degrees is written as -180. [`Refusal::BeyondTheItems`] where `out` has not ten bytes, latitude is beyond ±90 or
/// longitude beyond ±180 degrees, or the height's multiple is outside 16 bits; `out` then stays as it is.
pub fn to_asterix(wire: &Wire, out: &mut [u8]) -> Result<(), Refusal> {
    let numbers = [wire.latitude_e7, wire.longitude_e7, wire.height_mm];
    // SAFETY: the numbers are lent whole and the bytes with their length, and the call keeps neither.
    answered(unsafe { mlat_to_asterix(&numbers, out.as_mut_ptr(), out.len()) })
}

/// The multiples of whichever ten bytes; no place is tested. [`Refusal::BeyondTheItems`] for another length.
pub fn read_asterix(items: &[u8]) -> Result<Multiples, Refusal> {
    let mut multiples = [0; 3];
    // SAFETY: as above.
    answered(unsafe { mlat_read_asterix(items.as_ptr(), items.len(), &mut multiples) })?;
    let [latitude, longitude, height] = multiples;
    Ok(Multiples {
        latitude,
        longitude,
        height,
    })
}

/// Writes multiples as the ten bytes; no place is tested. [`Refusal::BeyondTheItems`] where `out` has not ten bytes or the
/// height is outside 16 bits; `out` then stays as it is.
pub fn write_asterix(multiples: &Multiples, out: &mut [u8]) -> Result<(), Refusal> {
    let three = [multiples.latitude, multiples.longitude, multiples.height];
    // SAFETY: as above.
    answered(unsafe { mlat_write_asterix(&three, out.as_mut_ptr(), out.len()) })
}

impl Wire {
    /// The ten bytes of the items, by [`to_asterix`].
    ///
    /// ```no_run
    /// let wire = jifrosk::Wire { latitude_e7: 900_000_000, longitude_e7: 1_800_000_000, height_mm: 1_905 };
    /// assert_eq!(wire.to_asterix(), Ok([1, 0, 0, 0, 0xfe, 0, 0, 0, 0, 1]));
    /// ```
    pub fn to_asterix(&self) -> Result<[u8; ITEMS], Refusal> {
        let mut items = [0; ITEMS];
        to_asterix(self, &mut items)?;
        Ok(items)
    }
}

impl Fix {
    /// The ten bytes of the items of the fix's position: what [`Fix::to_wire`] refuses, then [`Wire::to_asterix`], which
    /// refuses nothing that the wire has.
    pub fn to_asterix(&self) -> Result<[u8; ITEMS], Refusal> {
        self.to_wire()?.to_asterix()
    }
}

impl Multiples {
    /// The multiples of ten bytes, by [`read_asterix`].
    pub fn of_items(items: &[u8; ITEMS]) -> Multiples {
        read_asterix(items).expect("ten bytes are read, whatever they are")
    }

    /// The ten bytes, by [`write_asterix`].
    pub fn to_items(&self) -> Result<[u8; ITEMS], Refusal> {
        let mut items = [0; ITEMS];
        write_asterix(self, &mut items)?;
        Ok(items)
    }
}
