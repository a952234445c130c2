//! Receptions: as the solve is lent them, and as receptions.bin has them.

/// The length of a reception in receptions.bin.
pub const RECEPTION: usize = 132;

/// Which message at which receiver: the identity of a reception. Ordered by the four fields in turn, bytes as unsigned from
/// the first, as the source orders it and as the solve asks of its receptions.
#[derive(Clone, Copy, Debug, Default, PartialEq, Eq, PartialOrd, Ord, Hash)]
#[repr(C)]
pub struct ObservationId {
    /// The receiver's key.
    pub receiver: [u8; 32],
    /// The epoch of its counter.
    pub epoch: u32,
    /// Its counter.
    pub timestamp: u64,
    /// The hash of the message's bytes.
    pub message: [u8; 32],
}

/// One reception of the transmission. A slice of them is lent to the solve as it stands: 136 bytes each, as C lays them
/// out. receptions.bin has 132: see [`Reception::to_bytes`].
#[derive(Clone, Copy, Debug, Default, PartialEq)]
#[repr(C)]
pub struct Reception {
    /// Above that of the reception before: sort by it.
    pub id: ObservationId,
    /// When it arrived, 0 to 10^13.
    pub time_ps: i64,
    /// ECEF, each within ±10^10.
    pub site_mm: [i64; 3],
    /// Arrival in metres of light, 0 to 3·10^9.
    pub z: f64,
    /// Variance of its own timing, 10^-6 to 10^12.
    pub noise_m2: f64,
    /// Zero, as in the file: any other value is refused.
    pub filler: u64,
}

impl Reception {
    /// As receptions.bin has it: the fields in their order, little-endian, with nothing between them.
    pub fn to_bytes(&self) -> [u8; RECEPTION] {
        let ObservationId {
            receiver,
            epoch,
            timestamp,
            message,
        } = &self.id;
        let [x, y, z] = self.site_mm.map(i64::to_le_bytes);
        let all: [&[u8]; 11] = [
            receiver,
            &epoch.to_le_bytes(),
            &timestamp.to_le_bytes(),
            message,
            &self.time_ps.to_le_bytes(),
            &x,
            &y,
            &z,
            &self.z.to_le_bytes(),
            &self.noise_m2.to_le_bytes(),
            &self.filler.to_le_bytes(),
        ];
        all.concat().try_into().expect("132 bytes")
    }

    /// That of 132 bytes of receptions.bin.
    pub fn from_bytes(bytes: &[u8; RECEPTION]) -> Self {
        let whole = |at: usize| i64::from_le_bytes(part(bytes, at));
        let float = |at: usize| f64::from_le_bytes(part(bytes, at));
        Self {
            id: ObservationId {
                receiver: part(bytes, 0),
                epoch: u32::from_le_bytes(part(bytes, 32)),
                timestamp: u64::from_le_bytes(part(bytes, 36)),
                message: part(bytes, 44),
            },
            time_ps: whole(76),
            site_mm: [whole(84), whole(92), whole(100)],
            z: float(108),
            noise_m2: float(116),
            filler: u64::from_le_bytes(part(bytes, 124)),
        }
    }
}

fn part<const N: usize>(bytes: &[u8; RECEPTION], at: usize) -> [u8; N] {
    bytes[at..at + N].try_into().expect("it is within the 132")
}
