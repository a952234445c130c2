//! The time of factor and solve and of the inverse, port and Rust on the same matrices. The contenders take turns, in short runs, and the least run of each counts.

use crate::inputs::Random;
use crate::linalg::Matrix;
use crate::port::{self, array};
use std::hint::black_box;
use std::time::Instant;

const RUNS: usize = 3_000;

/// Nanoseconds a call, of each.
fn least<const K: usize>(calls: usize, mut contenders: [&mut dyn FnMut(); K]) -> [f64; K] {
    let mut best = [f64::MAX; K];
    for _ in 0..RUNS {
        for (call, best) in contenders.iter_mut().zip(&mut best) {
            let start = Instant::now();
            for _ in 0..calls {
                call();
            }
            *best = best.min(start.elapsed().as_nanos() as f64 / calls as f64);
        }
    }
    best
}

fn lines(n: usize, what: &str, times: [f64; 3]) {
    let [rust, short, methods] = times;
    if n <= 4 {
        line(n, what, "lent arrays of 16", rust, short);
    }
    line(n, what, "methods", rust, methods);
}

fn line(n: usize, what: &str, way: &str, rust: f64, port: f64) {
    println!("n = {n:<3} {what:<17} {way:<18} port {port:>8.0} ns, Rust {rust:>8.0} ns, ratio {:.2}", port / rust);
}

fn factor_and_solve(n: usize, calls: usize, a: &Matrix, b: &[f64]) {
    let all: [f64; 1024] = array(&a.data, 0.0);
    let size = n.min(4);
    let corner: [f64; 16] = array(&a.data[..size * size], 0.0);
    let (mut l, mut x) = ([0.0; 1024], [0.0; 32]);
    let times = least(calls, [
        &mut || {
            black_box(black_box(a).cholesky().map(|factor| factor.solve(black_box(b))));
        },
        &mut || {
            let mut l = [0.0; 16];
            let mut x: [f64; 4] = array(black_box(&b[..size]), 0.0);
            unsafe {
                port::kernel_cholesky_16(black_box(&corner), size, &mut l);
                port::kernel_solve_16(&l, size, &mut x);
            }
            black_box(&x);
        },
        &mut || {
            x[..n].copy_from_slice(black_box(b));
            unsafe {
                port::matrix_cholesky(black_box(&all), n, &mut l);
                port::cholesky_solve(&l, n, &mut x);
            }
            black_box(&x);
        },
    ]);
    lines(n, "factor and solve,", times);
}

fn inverse(n: usize, calls: usize, a: &Matrix) {
    let factor = a.cholesky().expect("it is well conditioned");
    let all: [f64; 1024] = array(&factor.l, 0.0);
    let size = n.min(4);
    let corner: [f64; 16] = array(&factor.l[..size * size], 0.0);
    let (mut m, mut short) = ([0.0; 1024], [0.0; 16]);
    let times = least(calls, [
        &mut || {
            black_box(black_box(&factor).inverse());
        },
        &mut || {
            unsafe { port::kernel_inverse_16(black_box(&corner), size, &mut short) };
            black_box(&short);
        },
        &mut || {
            unsafe { port::cholesky_inverse(black_box(&all), n, &mut m) };
            black_box(&m);
        },
    ]);
    lines(n, "inverse,", times);
}

pub fn main() {
    let mut random = Random::new(1);
    for (n, calls) in [(3, 200), (4, 200), (10, 60), (32, 6)] {
        let data = random.matrix(0, n);
        let b: Vec<f64> = (0..n).map(|_| random.unit()).collect();
        let a = Matrix { n, data };
        factor_and_solve(n, calls, &a, &b);
        inverse(n, calls, &a);
    }
}
