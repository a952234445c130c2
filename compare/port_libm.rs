//! The crate `libm` for the original Rust: its five functions are the port's, from the static library.

extern "C" {
    fn mlat_sin(x: f64) -> f64;
    fn mlat_cos(x: f64) -> f64;
    fn mlat_sincos(x: f64, pair: *mut [f64; 2]);
    fn mlat_atan2(y: f64, x: f64) -> f64;
    fn mlat_hypot(x: f64, y: f64) -> f64;
}

#[inline]
pub fn sin(x: f64) -> f64 {
    unsafe { mlat_sin(x) }
}

#[inline]
pub fn cos(x: f64) -> f64 {
    unsafe { mlat_cos(x) }
}

#[inline]
pub fn sincos(x: f64) -> (f64, f64) {
    let mut pair = [0.0; 2];
    unsafe { mlat_sincos(x, &mut pair) };
    (pair[0], pair[1])
}

#[inline]
pub fn atan2(y: f64, x: f64) -> f64 {
    unsafe { mlat_atan2(y, x) }
}

#[inline]
pub fn hypot(x: f64, y: f64) -> f64 {
    unsafe { mlat_hypot(x, y) }
}
