//! WGS 84, as geo.rs of the original has it, to the bit.

/// A geodetic position: degrees, degrees, metres above the WGS 84 ellipsoid.
#[derive(Clone, Copy, Debug, Default, PartialEq)]
pub struct Geodetic {
    /// Degrees, north above 0.
    pub lat_deg: f64,
    /// Degrees, east above 0.
    pub lon_deg: f64,
    /// Metres above the ellipsoid.
    pub height_m: f64,
}

/// A point or a direction, Earth-centred Earth-fixed.
pub type Vec3 = [f64; 3];

extern "C" {
    fn mlat_to_ecef(geodetic: &[f64; 3], ecef: &mut [f64; 3]);
    fn mlat_from_ecef(ecef: &[f64; 3], geodetic: &mut [f64; 3]);
    fn mlat_enu_basis(lat_deg: f64, lon_deg: f64, basis: &mut [f64; 9]);
    fn mlat_to_mm(ecef: &[f64; 3], mm: &mut [i64; 3]);
    fn mlat_from_mm(mm: &[i64; 3], ecef: &mut [f64; 3]);
}

impl From<Geodetic> for [f64; 3] {
    fn from(position: Geodetic) -> Self {
        [position.lat_deg, position.lon_deg, position.height_m]
    }
}

impl From<[f64; 3]> for Geodetic {
    fn from([lat_deg, lon_deg, height_m]: [f64; 3]) -> Self {
        Self {
            lat_deg,
            lon_deg,
            height_m,
        }
    }
}

/// A position in Earth-centred Earth-fixed metres.
pub fn to_ecef(position: Geodetic) -> Vec3 {
    let mut ecef = [0.0; 3];
    // SAFETY: both arrays are lent whole, and the call keeps neither.
    unsafe { mlat_to_ecef(&position.into(), &mut ecef) };
    ecef
}

/// The position of a point. Every finite point has a latitude and a longitude but the centre of the earth.
pub fn from_ecef(ecef: Vec3) -> Geodetic {
    let mut position = [0.0; 3];
    // SAFETY: both arrays are lent whole, and the call keeps neither.
    unsafe { mlat_from_ecef(&ecef, &mut position) };
    position.into()
}

/// The unit vectors east, north and up at a latitude and longitude, in ECEF: each entry from -1 to 1 for a latitude within
/// ±90 and a longitude within ±180.
pub fn enu_basis(lat_deg: f64, lon_deg: f64) -> [Vec3; 3] {
    let mut basis = [0.0; 9];
    // SAFETY: the array is lent whole, and the call does not keep it.
    unsafe { mlat_enu_basis(lat_deg, lon_deg, &mut basis) };
    rows(&basis)
}

/// ECEF metres to whole millimetres: a half away from zero, beyond an end of i64 that end, 0 for a not-a-number.
pub fn to_mm(ecef: Vec3) -> [i64; 3] {
    let mut mm = [0; 3];
    // SAFETY: both arrays are lent whole, and the call keeps neither.
    unsafe { mlat_to_mm(&ecef, &mut mm) };
    mm
}

/// Whole millimetres to metres, by one division each.
pub fn from_mm(mm: [i64; 3]) -> Vec3 {
    let mut ecef = [0.0; 3];
    // SAFETY: both arrays are lent whole, and the call keeps neither.
    unsafe { mlat_from_mm(&mm, &mut ecef) };
    ecef
}

/// Nine numbers as three rows.
pub(crate) fn rows(numbers: &[f64; 9]) -> [Vec3; 3] {
    [0, 1, 2].map(|row| [0, 1, 2].map(|column| numbers[3 * row + column]))
}
