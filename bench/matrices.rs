//! The times of the calls of document 02, item 11, and of linalg.rs on the same matrices. Both take turns in short runs,
//! and the least run of each counts. The Rust makes a Vec for its result, the port has it lent.

mod inputs;
mod linalg;

use inputs::Random;
use linalg::Matrix;
use std::hint::black_box;
use std::time::Instant;

#[rustfmt::skip]
extern "C" {
    fn mlat_sandwich(
        n: usize, a: *const f64, a_len: usize, inner: *const f64, inner_len: usize, out: *mut f64, out_len: usize,
    ) -> u32;
    fn mlat_forward_rows(
        n: usize, width: usize, l: *const f64, l_len: usize, q: *const f64, q_len: usize, out: *mut f64, out_len: usize,
    ) -> u32;
    fn mlat_inverse_triangular(n: usize, l: *const f64, l_len: usize, out: *mut f64, out_len: usize) -> u32;
    fn mlat_inverse_diagonal(n: usize, l: *const f64, l_len: usize, out: *mut f64, out_len: usize) -> u32;
    fn mlat_cholesky(n: usize, a: *const f64, a_len: usize, out: *mut f64, out_len: usize) -> u32;
}

const RUNS: usize = 3_000;

fn compared(n: usize, calls: usize, what: &str, mut rust: impl FnMut(), mut port: impl FnMut()) {
    let mut best = [f64::MAX; 2];
    let mut contenders: [&mut dyn FnMut(); 2] = [&mut rust, &mut port];
    for _ in 0..RUNS {
        for (call, best) in contenders.iter_mut().zip(&mut best) {
            let start = Instant::now();
            for _ in 0..calls {
                call();
            }
            *best = best.min(start.elapsed().as_nanos() as f64 / calls as f64);
        }
    }
    let [rust, port] = best;
    println!("n = {n:<3} {what:<19} port {port:>8.0} ns, Rust {rust:>8.0} ns, ratio {:.2}", port / rust);
}

fn main() {
    let mut random = Random::new(1);
    for (n, calls) in [(3, 200), (4, 200), (10, 60), (32, 6)] {
        let a = Matrix { n, data: random.matrix(0, n) };
        let inner = Matrix { n, data: random.matrix(8, n) };
        let factor = a.cholesky().expect("it is well conditioned");
        let size = n * n;
        let (outer, within, l) = (a.data.as_ptr(), inner.data.as_ptr(), factor.l.as_ptr());
        let mut m = vec![0.0; size];
        let mut d = vec![0.0; n];
        let out = m.as_mut_ptr();
        // SAFETY of each call: the arrays have these lengths, and out is none of the others.
        compared(n, calls, "sandwich", || drop(black_box(black_box(&a).sandwich(black_box(&inner)))), || {
            black_box(unsafe { mlat_sandwich(n, black_box(outer), size, black_box(within), size, out, size) });
        });
        let rows = || drop(black_box(black_box(&factor).forward_rows(black_box(&inner.data), n)));
        compared(n, calls, "forward_rows", rows, || {
            black_box(unsafe { mlat_forward_rows(n, n, black_box(l), size, black_box(within), size, out, size) });
        });
        compared(n, calls, "inverse_triangular", || drop(black_box(black_box(&factor).inverse_triangular())), || {
            black_box(unsafe { mlat_inverse_triangular(n, black_box(l), size, out, size) });
        });
        compared(n, calls, "inverse_diagonal", || drop(black_box(black_box(&factor).inverse_diagonal())), || {
            black_box(unsafe { mlat_inverse_diagonal(n, black_box(l), size, d.as_mut_ptr(), n) });
        });
        compared(n, calls, "cholesky", || drop(black_box(black_box(&a).cholesky())), || {
            black_box(unsafe { mlat_cholesky(n, black_box(outer), size, out, size) });
        });
    }
}
