use crate::refusal::answered;
use crate::{Altitude, Fix, Refusal};

/// What a record holds: a fix, or why a solve gave none.
#[derive(Clone, Copy, Debug, PartialEq)]
pub enum Record {
    /// Where the aircraft was.
    Fix(Fix),
    /// With the receptions considered: 1 to 9 show them, the others have 0.
    Refused {
        /// Why there is no fix.
        refusal: Refusal,
        /// How many receptions were considered.
        n: u32,
    },
}

impl Record {
    /// Where the aircraft was, or why that is not said.
    pub fn fix(self) -> Result<Fix, Refusal> {
        match self {
            Record::Fix(fix) => Ok(fix),
            Record::Refused { refusal, .. } => Err(refusal),
        }
    }
}

extern "C" {
    #[rustfmt::skip]
    fn mlat_read_record(
        record: *const u8,
        record_len: usize,
        words: &mut [u32; 6],
        numbers: &mut [f64; 18],
        transmit_ps: &mut i64,
    ) -> u32;
    #[rustfmt::skip]
    fn mlat_write_record(words: &[u32; 6], numbers: &[f64; 18], transmit_ps: i64, out: *mut u8, out_len: usize) -> u32;
}

/// A record's fields as the library takes and gives them (include/mlat_solver.h).
#[derive(Default)]
struct Held {
    /// Answer, detail, n, used mask, version, altitude kind.
    words: [u32; 6],
    /// ECEF, T, latitude, longitude, height, covariance by rows, chi-square, altitude metres.
    numbers: [f64; 18],
    transmit_ps: i64,
}

/// Takes a record apart, by the rules of document 02: [`Refusal::TornFile`] for a length other than 176,
/// [`Refusal::MalformedRecord`] where it breaks one.
pub fn read(record: &[u8]) -> Result<Record, Refusal> {
    let mut held = Held::default();
    // SAFETY: the record is lent with its length, and the call keeps none of what is lent.
    answered(unsafe {
        mlat_read_record(
            record.as_ptr(),
            record.len(),
            &mut held.words,
            &mut held.numbers,
            &mut held.transmit_ps,
        )
    })?;
    Ok(held.record())
}

/// Puts a record together again in the first 176 bytes of `out`: what [`read`] gave becomes its bytes.
/// [`Refusal::ShortOutput`] where `out` is shorter, then [`Refusal::MalformedRecord`] for what `read` could not have
/// given; `out` then stays as it is.
pub fn write(record: &Record, out: &mut [u8]) -> Result<(), Refusal> {
    let held = Held::of(record);
    // SAFETY: the output is lent with its length, and the call keeps none of what is lent.
    answered(unsafe {
        mlat_write_record(
            &held.words,
            &held.numbers,
            held.transmit_ps,
            out.as_mut_ptr(),
            out.len(),
        )
    })
}

impl Held {
    fn record(&self) -> Record {
        let [answer, detail, n, used, version, kind] = self.words;
        if let Some(refusal) = Refusal::of(answer, detail) {
            return Record::Refused { refusal, n };
        }
        let [x, y, z, t_m, lat_deg, lon_deg, height_m, .., chi2, metres] = self.numbers;
        Record::Fix(Fix {
            spec: version as u16,
            ecef: [x, y, z],
            position: [lat_deg, lon_deg, height_m].into(),
            t_m,
            transmit_ps: self.transmit_ps,
            covariance: [0, 1, 2].map(|row| [0, 1, 2].map(|column| self.numbers[7 + 3 * row + column])),
            n,
            used,
            altitude: match kind {
                1 => Some(Altitude::Barometric(metres)),
                2 => Some(Altitude::Gnss(metres)),
                _ => None,
            },
            chi2,
            dof: detail,
        })
    }

    fn of(record: &Record) -> Self {
        match record {
            // a field that no input has becomes a detail that no record shows
            Record::Refused { refusal, n } => Self {
                words: [refusal.number(), refusal.detail().unwrap_or(u32::MAX), *n, 0, 0, 0],
                ..Self::default()
            },
            Record::Fix(fix) => Self::of_fix(fix),
        }
    }

    fn of_fix(fix: &Fix) -> Self {
        let (kind, metres) = match fix.altitude {
            None => (0, 0.0),
            Some(Altitude::Barometric(metres)) => (1, metres),
            Some(Altitude::Gnss(metres)) => (2, metres),
        };
        let mut numbers = [0.0; 18];
        numbers[..3].copy_from_slice(&fix.ecef);
        numbers[3] = fix.t_m;
        numbers[4..7].copy_from_slice(&<[f64; 3]>::from(fix.position));
        numbers[7..16].copy_from_slice(fix.covariance.as_flattened());
        numbers[16..].copy_from_slice(&[fix.chi2, metres]);
        Self {
            words: [0, fix.dof, fix.n, fix.used, fix.spec.into(), kind],
            numbers,
            transmit_ps: fix.transmit_ps,
        }
    }
}
