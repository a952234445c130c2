//! Altitudes, as solve.rs takes them: metres above the ellipsoid as given, barometric or of a satellite receiver.

#[derive(Clone, Copy, Debug, PartialEq, Eq)]
pub enum AltitudeKind {
    Barometric,
    Gnss,
}

#[derive(Clone, Copy, Debug, PartialEq)]
pub struct Altitude {
    pub kind: AltitudeKind,
    pub metres: f64,
}

impl Altitude {
    pub fn metres(&self) -> f64 {
        self.metres
    }
}

/// `altitude_prior` of solve.rs reads messages, which are not part of the port.
pub fn altitude(_: &[u8]) -> Option<Altitude> {
    None
}
