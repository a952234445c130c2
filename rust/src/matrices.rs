//! The remaining calculations of linalg.rs. A matrix is n rows of n numbers one after the other, n from 0 to 32.

use crate::refusal::answered;
use crate::Refusal;

extern "C" {
    #[rustfmt::skip]
    fn mlat_sandwich(
        n: usize,
        a: *const f64,
        a_len: usize,
        inner: *const f64,
        inner_len: usize,
        out: *mut f64,
        out_len: usize,
    ) -> u32;
    #[rustfmt::skip]
    fn mlat_forward_rows(
        n: usize,
        width: usize,
        l: *const f64,
        l_len: usize,
        q: *const f64,
        q_len: usize,
        out: *mut f64,
        out_len: usize,
    ) -> u32;
    fn mlat_inverse_triangular(n: usize, l: *const f64, l_len: usize, out: *mut f64, out_len: usize) -> u32;
    fn mlat_inverse_diagonal(n: usize, l: *const f64, l_len: usize, out: *mut f64, out_len: usize) -> u32;
    fn mlat_cholesky(n: usize, a: *const f64, a_len: usize, out: *mut f64, out_len: usize) -> u32;
}

/// `a · inner · a` for a symmetric `a`: the covariance `inner` carried through the linear map `a`, symmetric to the bit.
/// [`Refusal::WrongSize`] where `n` is over 32 or a slice has not n × n entries; `out` then stays as it is.
///
/// ```no_run
/// let mut out = [0.0; 4];
/// jifrosk::sandwich(2, &[1.0, 0.0, 0.0, 2.0], &[4.0, 1.0, 1.0, 9.0], &mut out).expect("the sizes match");
/// assert_eq!(out, [4.0, 2.0, 2.0, 36.0]);
/// ```
pub fn sandwich(n: usize, a: &[f64], inner: &[f64], out: &mut [f64]) -> Result<(), Refusal> {
    // SAFETY: all are lent with their lengths, out apart from the others, and the call keeps none of them.
    answered(unsafe {
        mlat_sandwich(
            n,
            a.as_ptr(),
            a.len(),
            inner.as_ptr(),
            inner.len(),
            out.as_mut_ptr(),
            out.len(),
        )
    })
}

/// `R` with `L R = Q` for the factor `l`, where `q` and `out` are `n` rows of `width` numbers. An entry of `l` left of the
/// diagonal that equals 0 is passed over. [`Refusal::WrongSize`] where `n` or `width` is over 32 or a slice has another
/// length; `out` then stays as it is.
pub fn forward_rows(n: usize, width: usize, l: &[f64], q: &[f64], out: &mut [f64]) -> Result<(), Refusal> {
    // SAFETY: as above.
    answered(unsafe {
        mlat_forward_rows(
            n,
            width,
            l.as_ptr(),
            l.len(),
            q.as_ptr(),
            q.len(),
            out.as_mut_ptr(),
            out.len(),
        )
    })
}

/// The inverse of the matrix with the factor `l`, symmetric to the bit. [`Refusal::WrongSize`] where `n` is over 32 or a
/// slice has not n × n entries; `out` then stays as it is.
pub fn inverse_triangular(n: usize, l: &[f64], out: &mut [f64]) -> Result<(), Refusal> {
    // SAFETY: as above.
    answered(unsafe { mlat_inverse_triangular(n, l.as_ptr(), l.len(), out.as_mut_ptr(), out.len()) })
}

/// The diagonal of that inverse alone, with the same bits: `out` has n entries. [`Refusal::WrongSize`] where `n` is over
/// 32 or a slice has another length; `out` then stays as it is.
pub fn inverse_diagonal(n: usize, l: &[f64], out: &mut [f64]) -> Result<(), Refusal> {
    // SAFETY: as above.
    answered(unsafe { mlat_inverse_diagonal(n, l.as_ptr(), l.len(), out.as_mut_ptr(), out.len()) })
}

/// The Cholesky factor `L` of `a`, lower triangular with `a = L Lᵀ`. Of `a` the lower triangle is read alone, and right
/// of its diagonal the factor has zeros. [`Refusal::WrongSize`] where `n` is over 32 or a slice has not n × n entries;
/// [`Refusal::Singular`] where a pivot is not above 0; `out` then stays as it is.
pub fn cholesky(n: usize, a: &[f64], out: &mut [f64]) -> Result<(), Refusal> {
    // SAFETY: as above.
    answered(unsafe { mlat_cholesky(n, a.as_ptr(), a.len(), out.as_mut_ptr(), out.len()) })
}
