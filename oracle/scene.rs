//! A problem as document 01 words it, with document 02's identities and correction, the bytes of its four files, and the same as solve.rs takes it.

use crate::clock::ModelTime;
use crate::geo;
use crate::modes::{Altitude, AltitudeKind};
use crate::obs::ObservationId;
use crate::solve::{BARO_SIGMA_M, GNSS_SIGMA_M, Item, Problem};

/// Document 02, item 6: "which makes 132 bytes".
pub const RECEPTION: usize = 132;

#[derive(Clone, Copy, Debug)]
pub struct Reception {
    pub identity: ObservationId,
    pub time: i64,
    pub site_mm: [i64; 3],
    pub z: f64,
    pub noise: f64,
}

#[derive(Clone, Debug, Default)]
pub struct Scene {
    pub receptions: Vec<Reception>,
    /// n × n, row by row.
    pub clock: Option<Vec<f64>>,
    /// Kind, 1 barometric or 2 GNSS, and metres as given.
    pub altitude: Option<(u8, f64)>,
    /// What a station adds to barometric metres, centimetres.
    pub correction: i32,
    pub reference: Option<i64>,
}

/// The four inputs; an absent file is none.
#[derive(Clone, Debug, Default, PartialEq, Eq)]
pub struct Files {
    pub receptions: Option<Vec<u8>>,
    pub clock: Option<Vec<u8>>,
    pub altitude: Option<Vec<u8>>,
    pub reference: Option<Vec<u8>>,
}

impl Scene {
    pub fn n(&self) -> usize {
        self.receptions.len()
    }

    pub fn files(&self) -> Files {
        let mut receptions = Vec::new();
        for r in &self.receptions {
            receptions.extend(identity_bytes(&r.identity));
            receptions.extend(r.time.to_le_bytes());
            r.site_mm.iter().for_each(|mm| receptions.extend(mm.to_le_bytes()));
            receptions.extend(r.z.to_le_bytes());
            receptions.extend(r.noise.to_le_bytes());
            receptions.extend([0; 8]);
        }
        Files {
            receptions: Some(receptions),
            clock: self.clock.as_ref().map(|clock| clock.iter().flat_map(|entry| entry.to_le_bytes()).collect()),
            altitude: self.altitude.map(|(kind, metres)| {
                let mut bytes = vec![kind, 0, 0, 0];
                bytes.extend(self.correction.to_le_bytes());
                bytes.extend(metres.to_le_bytes());
                bytes
            }),
            reference: self.reference.map(|ps| ps.to_le_bytes().to_vec()),
        }
    }

    /// What solve.rs is given. Clock entries left of the diagonal, which it never reads, are made not-a-numbers.
    pub fn problem(&self) -> Problem {
        let n = self.n();
        let row = |clock: &[f64], i: usize| (0..n).map(|j| if j < i { f64::NAN } else { clock[i * n + j] }).collect();
        Problem {
            items: self.receptions.iter().map(item).collect(),
            clock_m2: self.clock.as_ref().map(|clock| (0..n).map(|i| row(clock, i)).collect()),
            reference_ps: i128::from(self.reference.unwrap_or(0)),
            altitude: self.altitude.map(|(kind, metres)| match kind {
                1 => {
                    let metres = corrected(metres, self.correction);
                    (Altitude { kind: AltitudeKind::Barometric, metres }, metres, BARO_SIGMA_M)
                }
                _ => (Altitude { kind: AltitudeKind::Gnss, metres }, metres, GNSS_SIGMA_M),
            }),
        }
    }
}

/// Document 02, item 8: "added to barometric metres by one division by 100 and one addition"; "A correction of 0 is not added at all".
fn corrected(metres: f64, correction: i32) -> f64 {
    if correction == 0 { metres } else { metres + f64::from(correction) / 100.0 }
}

/// "receiver 32 bytes, epoch u32, timestamp u64, message 32 bytes"
fn identity_bytes(identity: &ObservationId) -> Vec<u8> {
    let ObservationId { receiver, epoch, timestamp, message } = identity;
    [receiver.as_slice(), &epoch.to_le_bytes(), &timestamp.to_le_bytes(), message].concat()
}

fn item(r: &Reception) -> Item {
    Item {
        id: r.identity,
        time: ModelTime { linear: 0, ps: i128::from(r.time), carried_ps: 0 },
        site: geo::from_mm(r.site_mm),
        site_mm: r.site_mm,
        z: r.z,
        noise_m2: r.noise,
    }
}
