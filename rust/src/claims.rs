//! What a fix claims of itself: the calculations of solve.rs that readers of a fix need.

use crate::geo::rows;
use crate::Fix;

extern "C" {
    fn mlat_chi2_limit(dof: u32) -> f64;
    fn mlat_enu_covariance(position: &[f64; 3], covariance: &[f64; 9], enu: &mut [f64; 9]);
    fn mlat_horizontal_sigma_m(position: &[f64; 3], covariance: &[f64; 9]) -> f64;
}

/// The chi-square value that the residuals of an exact optimum with `dof` degrees of freedom may reach; 0 for 0.
pub fn chi2_limit(dof: u32) -> f64 {
    // SAFETY: the call takes every value.
    unsafe { mlat_chi2_limit(dof) }
}

impl Fix {
    fn entries(&self) -> [f64; 9] {
        let mut entries = [0.0; 9];
        entries.copy_from_slice(self.covariance.as_flattened());
        entries
    }

    /// The covariance in the local east, north, up frame at the fix, metres squared.
    pub fn enu_covariance(&self) -> [[f64; 3]; 3] {
        let mut enu = [0.0; 9];
        // SAFETY: the arrays are lent whole, and the call keeps none.
        unsafe { mlat_enu_covariance(&self.position.into(), &self.entries(), &mut enu) };
        rows(&enu)
    }

    /// One standard deviation of the horizontal position, metres: the root of half the trace of the east-north covariance.
    pub fn horizontal_sigma_m(&self) -> f64 {
        // SAFETY: the arrays are lent whole, and the call keeps none.
        unsafe { mlat_horizontal_sigma_m(&self.position.into(), &self.entries()) }
    }
}
