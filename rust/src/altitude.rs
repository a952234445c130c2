/// An altitude as a fix shows it, metres above the ellipsoid: as it was given.
#[derive(Clone, Copy, Debug, PartialEq)]
pub enum Altitude {
    /// From a barometer.
    Barometric(f64),
    /// From GNSS.
    Gnss(f64),
}

/// An altitude as a problem has it, metres above the ellipsoid, within ±100,000. What a fix shows becomes one without a
/// correction: `Altitude::Barometric(9_144.0).into()`.
#[derive(Clone, Copy, Debug, PartialEq)]
pub enum Reported {
    /// `correction_cm`, centimetres within ±100,000, is what a station knows of the local difference: the solve takes
    /// `metres + correction_cm / 100`, or `metres` untouched where it is 0. The fix shows `metres`.
    Barometric {
        /// As the barometer has them.
        metres: f64,
        /// What a station adds, centimetres.
        correction_cm: i32,
    },
    /// From GNSS: it takes no correction.
    Gnss {
        /// Above the ellipsoid.
        metres: f64,
    },
}

impl From<Altitude> for Reported {
    fn from(altitude: Altitude) -> Self {
        match altitude {
            Altitude::Barometric(metres) => Self::Barometric {
                metres,
                correction_cm: 0,
            },
            Altitude::Gnss(metres) => Self::Gnss { metres },
        }
    }
}

impl Reported {
    /// The bytes of altitude.bin.
    pub fn to_bytes(&self) -> [u8; 16] {
        let (kind, correction_cm, metres) = match *self {
            Self::Barometric { metres, correction_cm } => (1, correction_cm, metres),
            Self::Gnss { metres } => (2, 0, metres),
        };
        let mut bytes = [0; 16];
        bytes[0] = kind;
        bytes[4..8].copy_from_slice(&correction_cm.to_le_bytes());
        bytes[8..].copy_from_slice(&metres.to_le_bytes());
        bytes
    }
}
