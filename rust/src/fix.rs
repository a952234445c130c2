use crate::geo::{Geodetic, Vec3};
use crate::Altitude;

/// A solved position: `Solution` of the source, by its names. What was considered and used the source has as lists of
/// identities, and a record as a number and a mask of places.
#[derive(Clone, Copy, Debug, PartialEq)]
pub struct Fix {
    /// The version of the source's specification: 8.
    pub spec: u16,
    /// ECEF metres.
    pub ecef: Vec3,
    /// WGS 84.
    pub position: Geodetic,
    /// Transmit time, metres of light after the reference; the source does not show it.
    pub t_m: f64,
    /// Time of transmission on the timeline of the reference, picoseconds.
    pub transmit_ps: i64,
    /// Of the position, ECEF metres squared, rows in order.
    pub covariance: [[f64; 3]; 3],
    /// Receptions considered.
    pub n: u32,
    /// Bit i is set where reception i, from 0, was used.
    pub used: u32,
    /// The altitude that was solved with, as it was given.
    pub altitude: Option<Altitude>,
    /// The squares of the residuals, each divided by its variance, added up.
    pub chi2: f64,
    /// Used receptions, plus one with an altitude, less 4.
    pub dof: u32,
}

impl Fix {
    /// Whether the fix uses reception i, from 0.
    pub fn uses(&self, reception: usize) -> bool {
        reception < 32 && self.used >> reception & 1 == 1
    }
}
