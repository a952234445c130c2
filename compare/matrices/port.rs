//! The port's functions by their C names, and arrays as they take them.

#[rustfmt::skip]
extern "C" {
    pub fn kernel_cholesky(a: &[f64; 1024], n: usize, l: &mut [f64; 1024]) -> bool;
    pub fn kernel_mul_vec(a: &[f64; 1024], n: usize, v: &[f64; 33], y: &mut [f64; 33]);
    pub fn kernel_solve(l: &[f64; 1024], n: usize, x: &mut [f64; 33]);
    pub fn kernel_forward(l: &[f64; 1024], n: usize, x: &mut [f64; 33]);
    pub fn kernel_backward(l: &[f64; 1024], n: usize, x: &mut [f64; 33]);
    pub fn kernel_inverse(l: &[f64; 1024], n: usize, m: &mut [f64; 1024]);
    pub fn kernel_cholesky_16(a: &[f64; 16], n: usize, l: &mut [f64; 16]) -> bool;
    pub fn kernel_mul_vec_16(a: &[f64; 16], n: usize, v: &[f64; 4], y: &mut [f64; 4]);
    pub fn kernel_solve_16(l: &[f64; 16], n: usize, x: &mut [f64; 4]);
    pub fn kernel_forward_16(l: &[f64; 16], n: usize, x: &mut [f64; 4]);
    pub fn kernel_backward_16(l: &[f64; 16], n: usize, x: &mut [f64; 4]);
    pub fn kernel_inverse_16(l: &[f64; 16], n: usize, m: &mut [f64; 16]);
    pub fn matrix_zeros(n: usize, m: &mut [f64; 1024]);
    pub fn matrix_get(a: &[f64; 1024], n: usize, row: usize, column: usize) -> f64;
    pub fn matrix_set(a: &mut [f64; 1024], n: usize, row: usize, column: usize, value: f64);
    pub fn matrix_add(a: &mut [f64; 1024], n: usize, row: usize, column: usize, value: f64);
    pub fn matrix_cholesky(a: &[f64; 1024], n: usize, l: &mut [f64; 1024]) -> bool;
    pub fn matrix_mul_vec(a: &[f64; 1024], n: usize, v: &[f64; 32], y: &mut [f64; 32]);
    pub fn cholesky_solve(l: &[f64; 1024], n: usize, x: &mut [f64; 32]);
    pub fn cholesky_forward(l: &[f64; 1024], n: usize, y: &mut [f64; 32]);
    pub fn cholesky_backward(l: &[f64; 1024], n: usize, x: &mut [f64; 32]);
    pub fn cholesky_inverse(l: &[f64; 1024], n: usize, m: &mut [f64; 1024]);
    pub fn matrix_sandwich(a: &[f64; 1024], n: usize, inner: &[f64; 1024], m: &mut [f64; 1024]);
    pub fn cholesky_forward_rows(l: &[f64; 1024], n: usize, width: usize, r: &mut [f64; 1024]);
    pub fn cholesky_inverse_triangular(l: &[f64; 1024], n: usize, m: &mut [f64; 1024]);
    pub fn cholesky_inverse_diagonal(l: &[f64; 1024], n: usize, d: &mut [f64; 32]);
    fn call_sandwich(
        n: usize, a: *const f64, a_len: usize, inner: *const f64, inner_len: usize, out: *mut f64, out_len: usize,
    ) -> u32;
    fn call_forward_rows(
        n: usize, width: usize, l: *const f64, l_len: usize, q: *const f64, q_len: usize, out: *mut f64, out_len: usize,
    ) -> u32;
    fn call_inverse_triangular(n: usize, l: *const f64, l_len: usize, out: *mut f64, out_len: usize) -> u32;
    fn call_inverse_diagonal(n: usize, l: *const f64, l_len: usize, out: *mut f64, out_len: usize) -> u32;
    fn call_cholesky(n: usize, a: *const f64, a_len: usize, out: *mut f64, out_len: usize) -> u32;
    pub fn vec3_sub(a: &[f64; 3], b: &[f64; 3], r: &mut [f64; 3]);
    pub fn vec3_dot(a: &[f64; 3], b: &[f64; 3]) -> f64;
    pub fn vec3_norm(a: &[f64; 3]) -> f64;
    pub fn vec3_scale(a: &[f64; 3], k: f64, r: &mut [f64; 3]);
    pub fn vec3_add(a: &[f64; 3], b: &[f64; 3], r: &mut [f64; 3]);
}

/// The calls with their refusals, on slices of any length.
pub fn sandwich(n: usize, a: &[f64], inner: &[f64], out: &mut [f64]) -> u32 {
    unsafe { call_sandwich(n, a.as_ptr(), a.len(), inner.as_ptr(), inner.len(), out.as_mut_ptr(), out.len()) }
}

pub fn forward_rows(n: usize, width: usize, l: &[f64], q: &[f64], out: &mut [f64]) -> u32 {
    unsafe { call_forward_rows(n, width, l.as_ptr(), l.len(), q.as_ptr(), q.len(), out.as_mut_ptr(), out.len()) }
}

pub fn inverse_triangular(n: usize, l: &[f64], out: &mut [f64]) -> u32 {
    unsafe { call_inverse_triangular(n, l.as_ptr(), l.len(), out.as_mut_ptr(), out.len()) }
}

pub fn inverse_diagonal(n: usize, l: &[f64], out: &mut [f64]) -> u32 {
    unsafe { call_inverse_diagonal(n, l.as_ptr(), l.len(), out.as_mut_ptr(), out.len()) }
}

pub fn cholesky(n: usize, a: &[f64], out: &mut [f64]) -> u32 {
    unsafe { call_cholesky(n, a.as_ptr(), a.len(), out.as_mut_ptr(), out.len()) }
}

/// An array that begins with these values, and holds `rest` past them.
pub fn array<const N: usize>(values: &[f64], rest: f64) -> [f64; N] {
    let mut all = [rest; N];
    all[..values.len()].copy_from_slice(values);
    all
}
