//! Runs linalg and the Rust that it is ported from on the same inputs, and compares every entry that either writes, by bits. All
//! not-a-numbers count as one value. What a function must leave alone holds a mark, which is looked at too.

mod inputs;
mod linalg;
mod port;
mod timing;

use inputs::{Random, KINDS};
use linalg::{Cholesky, Matrix};
use port::array;

/// What stands where nothing may be written.
const MARK: f64 = -1234.5;

#[derive(Default)]
struct Tally {
    matrices: [u64; KINDS.len()],
    found: [u64; KINDS.len()],
    calls: u64,
    entries: u64,
    differences: u64,
}

fn same(a: f64, b: f64) -> bool {
    a.to_bits() == b.to_bits() || (a.is_nan() && b.is_nan())
}

impl Tally {
    /// The port's array: the Rust's entries, and `rest` past them.
    fn array(&mut self, what: &str, n: usize, port: &[f64], rust: &[f64], rest: &[f64]) {
        self.calls += 1;
        for (k, value) in port.iter().enumerate() {
            let wanted = if k < rust.len() { rust[k] } else { rest[k] };
            self.entries += 1;
            if !same(*value, wanted) {
                self.differences += 1;
                if self.differences <= 20 {
                    println!("{what}, n = {n}, entry {k}: {value:e}, and the Rust has {wanted:e}");
                }
            }
        }
    }

    fn number(&mut self, what: &str, n: usize, port: f64, rust: f64) {
        self.array(what, n, &[port], &[rust], &[]);
    }

    fn verdict(&mut self, what: &str, n: usize, port: bool, rust: bool) {
        self.number(what, n, f64::from(u8::from(port)), f64::from(u8::from(rust)));
    }

    fn cholesky(&mut self, a: &Matrix, rust: Option<&Cholesky>) {
        let n = a.n;
        let all: [f64; 1024] = array(&a.data, MARK);
        let mut l = [MARK; 1024];
        let found = unsafe { port::kernel_cholesky(&all, n, &mut l) };
        self.lent_factor("kernels::cholesky", n, found, &l, rust);
        if n <= 4 {
            let mut l = [MARK; 16];
            let found = unsafe { port::kernel_cholesky_16(&array(&a.data, MARK), n, &mut l) };
            self.lent_factor("kernels::cholesky of 16", n, found, &l, rust);
        }
        let mut l = [MARK; 1024];
        let found = unsafe { port::matrix_cholesky(&all, n, &mut l) };
        self.lent_factor("Matrix::cholesky", n, found, &l, rust);
    }

    /// The factor is written on and left of the diagonal alone. Where a pivot is refused the Rust gives no entries to compare those with.
    fn lent_factor(&mut self, what: &str, n: usize, found: bool, l: &[f64], rust: Option<&Cholesky>) {
        self.verdict(what, n, found, rust.is_some());
        let mut wanted = rust.map_or_else(|| l[..n * n].to_vec(), |factor| factor.l.clone());
        for row in 0..n {
            wanted[row * n + row + 1..(row + 1) * n].fill(MARK);
        }
        self.array(what, n, l, &wanted, &[MARK; 1024]);
    }

    fn mul_vec(&mut self, a: &Matrix, v: &[f64]) {
        let n = a.n;
        let rust = a.mul_vec(v);
        let all: [f64; 1024] = array(&a.data, MARK);
        let mut y = [MARK; 33];
        unsafe { port::kernel_mul_vec(&all, n, &array(v, MARK), &mut y) };
        self.array("kernels::mul_vec", n, &y, &rust, &[MARK; 33]);
        let mut y = [MARK; 32];
        unsafe { port::matrix_mul_vec(&all, n, &array(v, MARK), &mut y) };
        self.array("Matrix::mul_vec", n, &y, &rust, &[MARK; 32]);
        if n <= 4 {
            let mut y = [MARK; 4];
            unsafe { port::kernel_mul_vec_16(&array(&a.data, MARK), n, &array(v, MARK), &mut y) };
            self.array("kernels::mul_vec of 16", n, &y, &rust, &[MARK; 4]);
        }
    }

    fn solves(&mut self, factor: &Cholesky, b: &[f64]) {
        let n = factor.n;
        let l: [f64; 1024] = array(&factor.l, MARK);
        type Lent = unsafe extern "C" fn(&[f64; 1024], usize, &mut [f64; 33]);
        type Method = unsafe extern "C" fn(&[f64; 1024], usize, &mut [f64; 32]);
        type Short = unsafe extern "C" fn(&[f64; 16], usize, &mut [f64; 4]);
        let all: [(&str, Vec<f64>, Lent, Method, Short); 3] = [
            ("solve", factor.solve(b), port::kernel_solve, port::cholesky_solve, port::kernel_solve_16),
            ("forward", factor.forward(b), port::kernel_forward, port::cholesky_forward, port::kernel_forward_16),
            ("backward", factor.backward(b), port::kernel_backward, port::cholesky_backward, port::kernel_backward_16),
        ];
        for (what, rust, lent, method, short) in all {
            let mut x: [f64; 33] = array(b, MARK);
            unsafe { lent(&l, n, &mut x) };
            self.array(&format!("kernels::{what}"), n, &x, &rust, &[MARK; 33]);
            let mut x: [f64; 32] = array(b, MARK);
            unsafe { method(&l, n, &mut x) };
            self.array(&format!("Cholesky::{what}"), n, &x, &rust, &[MARK; 32]);
            if n <= 4 {
                let mut x: [f64; 4] = array(b, MARK);
                unsafe { short(&array(&factor.l, MARK), n, &mut x) };
                self.array(&format!("kernels::{what} of 16"), n, &x, &rust, &[MARK; 4]);
            }
        }
    }

    fn inverse(&mut self, factor: &Cholesky) {
        let n = factor.n;
        let rust = factor.inverse().data;
        let l: [f64; 1024] = array(&factor.l, MARK);
        let mut m = [MARK; 1024];
        unsafe { port::kernel_inverse(&l, n, &mut m) };
        self.array("kernels::inverse", n, &m, &rust, &[MARK; 1024]);
        let mut m = [MARK; 1024];
        unsafe { port::cholesky_inverse(&l, n, &mut m) };
        self.array("Cholesky::inverse", n, &m, &rust, &[MARK; 1024]);
        if n <= 4 {
            let mut m = [MARK; 16];
            unsafe { port::kernel_inverse_16(&array(&factor.l, MARK), n, &mut m) };
            self.array("kernels::inverse of 16", n, &m, &rust, &[MARK; 16]);
        }
    }

    /// A call with its refusals: its number, and every entry of what it was lent.
    fn call(&mut self, what: &str, n: usize, answer: u32, number: u32, out: &[f64], wanted: &[f64]) {
        self.number(what, n, f64::from(answer), f64::from(number));
        self.array(what, n, out, wanted, &[]);
    }

    fn sandwich(&mut self, a: &Matrix, inner: &Matrix) {
        let n = a.n;
        let rust = a.sandwich(inner).data;
        let mut m = [MARK; 1024];
        unsafe { port::matrix_sandwich(&array(&a.data, MARK), n, &array(&inner.data, MARK), &mut m) };
        self.array("Matrix::sandwich", n, &m, &rust, &[MARK; 1024]);
        let mut out = vec![MARK; n * n];
        let answer = port::sandwich(n, &a.data, &inner.data, &mut out);
        self.call("sandwich", n, answer, 0, &out, &rust);
    }

    fn forward_rows(&mut self, factor: &Cholesky, q: &[f64], width: usize) {
        let n = factor.n;
        let rust = factor.forward_rows(q, width);
        let mut r: [f64; 1024] = array(q, MARK);
        unsafe { port::cholesky_forward_rows(&array(&factor.l, MARK), n, width, &mut r) };
        self.array("Cholesky::forward_rows", n, &r, &rust, &[MARK; 1024]);
        let mut out = vec![MARK; n * width];
        let answer = port::forward_rows(n, width, &factor.l, q, &mut out);
        self.call("forward_rows", n, answer, 0, &out, &rust);
    }

    fn triangular(&mut self, factor: &Cholesky) {
        let n = factor.n;
        let l: [f64; 1024] = array(&factor.l, MARK);
        let rust = factor.inverse_triangular().data;
        let mut m = [MARK; 1024];
        unsafe { port::cholesky_inverse_triangular(&l, n, &mut m) };
        self.array("Cholesky::inverse_triangular", n, &m, &rust, &[MARK; 1024]);
        let mut out = vec![MARK; n * n];
        let answer = port::inverse_triangular(n, &factor.l, &mut out);
        self.call("inverse_triangular", n, answer, 0, &out, &rust);
        let rust = factor.inverse_diagonal();
        let mut d = [MARK; 32];
        unsafe { port::cholesky_inverse_diagonal(&l, n, &mut d) };
        self.array("Cholesky::inverse_diagonal", n, &d, &rust, &[MARK; 32]);
        let mut out = vec![MARK; n];
        let answer = port::inverse_diagonal(n, &factor.l, &mut out);
        self.call("inverse_diagonal", n, answer, 0, &out, &rust);
    }

    /// The factor with its zeros, or 6 and what was there.
    fn factor(&mut self, a: &Matrix, rust: Option<&Cholesky>) {
        let mut out = vec![MARK; a.n * a.n];
        let answer = port::cholesky(a.n, &a.data, &mut out);
        let marks = vec![MARK; a.n * a.n];
        let (number, wanted) = rust.map_or((6, &marks), |factor| (0, &factor.l));
        self.call("cholesky", a.n, answer, number, &out, wanted);
    }

    /// A size or a width over 32, or one length that does not match: 21, and what was there.
    fn wrong_sizes(&mut self, random: &mut Random, n: usize, width: usize) {
        let over = [33, 34, 64, 1 << 31, 1 << 32, (1 << 32) + 1, usize::MAX][random.below(7)];
        let (mut size, mut wide) = (n, width);
        let mut lengths = [n * n, n * n, n * width, n * n, n * width, n];
        match random.below(3) {
            0 => size = over,
            1 => wide = over,
            _ => {
                let at = random.below(lengths.len());
                lengths[at] = [lengths[at] + 1, lengths[at].wrapping_sub(1).min(40), 0, 33 * 33][random.below(4)];
            }
        }
        let square = |length: usize| size <= 32 && length == size * size;
        let rows = |length: usize| size <= 32 && wide <= 32 && length == size * wide;
        let [first, second, third, square_out, rows_out, column_out] = lengths;
        let q: Vec<f64> = random.vector(first.max(second).max(third));
        let (a, b, c) = (&q[..first], &q[..second], &q[..third]);
        let mut tried = |what: &str, sound: bool, length: usize, call: &mut dyn FnMut(&mut [f64]) -> u32| {
            let mut out = vec![MARK; length];
            let answer = call(&mut out);
            if !sound {
                self.call(what, n, answer, 21, &out, &vec![MARK; length]);
            }
        };
        tried("sandwich, sizes", square(first) && square(second) && square(square_out), square_out, &mut |out| {
            port::sandwich(size, a, b, out)
        });
        tried("forward_rows, sizes", square(first) && rows(third) && rows(rows_out), rows_out, &mut |out| {
            port::forward_rows(size, wide, a, c, out)
        });
        tried("inverse_triangular, sizes", square(first) && square(square_out), square_out, &mut |out| {
            port::inverse_triangular(size, a, out)
        });
        tried("inverse_diagonal, sizes", square(first) && column_out == size, column_out, &mut |out| {
            port::inverse_diagonal(size, a, out)
        });
        tried("cholesky, sizes", square(first) && square(square_out), square_out, &mut |out| {
            port::cholesky(size, a, out)
        });
    }

    fn entries(&mut self, random: &mut Random, a: &Matrix) {
        let n = a.n;
        let mut m = [MARK; 1024];
        unsafe { port::matrix_zeros(n, &mut m) };
        self.array("Matrix::zeros", n, &m, &Matrix::zeros(n).data, &[0.0; 1024]);
        if n == 0 {
            return;
        }
        let (row, column) = (random.below(n), random.below(n));
        let value = random.vector(1)[0];
        let mut rust = a.clone();
        let mut all: [f64; 1024] = array(&a.data, MARK);
        rust.add(row, column, value);
        unsafe { port::matrix_add(&mut all, n, row, column, value) };
        self.array("Matrix::add", n, &all, &rust.data, &[MARK; 1024]);
        rust.set(column, row, value);
        unsafe { port::matrix_set(&mut all, n, column, row, value) };
        self.array("Matrix::set", n, &all, &rust.data, &[MARK; 1024]);
        let got = unsafe { port::matrix_get(&all, n, row, column) };
        self.number("Matrix::get", n, got, rust.get(row, column));
    }

    fn vec3(&mut self, random: &mut Random) {
        let three = |random: &mut Random| -> [f64; 3] { array(&random.vector(3), MARK) };
        let (a, b) = (three(random), three(random));
        let k = random.vector(1)[0];
        let mut r = [MARK; 3];
        unsafe { port::vec3_sub(&a, &b, &mut r) };
        self.array("sub", 3, &r, &linalg::sub(a, b), &[]);
        unsafe { port::vec3_add(&a, &b, &mut r) };
        self.array("add", 3, &r, &linalg::add(a, b), &[]);
        unsafe { port::vec3_scale(&a, k, &mut r) };
        self.array("scale", 3, &r, &linalg::scale(a, k), &[]);
        self.number("dot", 3, unsafe { port::vec3_dot(&a, &b) }, linalg::dot(a, b));
        self.number("norm", 3, unsafe { port::vec3_norm(&a) }, linalg::norm(a));
    }

    fn turn(&mut self, random: &mut Random, kind: usize) {
        let n = random.size();
        let a = Matrix { n, data: random.matrix(kind, n) };
        let factor = a.cholesky();
        self.matrices[kind] += 1;
        self.found[kind] += u64::from(factor.is_some());
        self.cholesky(&a, factor.as_ref());
        self.factor(&a, factor.as_ref());
        self.mul_vec(&a, &random.vector(n));
        self.entries(random, &a);
        self.vec3(random);
        let factor = match factor {
            Some(factor) => factor,
            None => Cholesky { n, l: random.factor(n) },
        };
        self.solves(&factor, &random.vector(n));
        self.inverse(&factor);
        let inner_kind = random.below(KINDS.len());
        let inner = Matrix { n, data: random.matrix(inner_kind, n) };
        let width = random.below(33);
        self.sandwich(&a, &inner);
        self.forward_rows(&factor, &random.vector(n * width), width);
        self.triangular(&factor);
        self.wrong_sizes(random, n, width);
    }

    fn report(&self) {
        for (kind, name) in KINDS.iter().enumerate() {
            let (all, found) = (self.matrices[kind], self.found[kind]);
            println!("{name:<30} {all:>8} matrices, {found:>8} factors, {:>8} refused", all - found);
        }
        let all: u64 = self.matrices.iter().sum();
        println!("{all} matrices, {} calls, {} entries, {} differences", self.calls, self.entries, self.differences);
    }
}

fn main() {
    let words: Vec<String> = std::env::args().skip(1).collect();
    if words.first().is_some_and(|word| word == "--time") {
        return timing::main();
    }
    let number = |k: usize, other: u64| words.get(k).map_or(other, |word| word.parse().expect("a number"));
    let (matrices, seed) = (number(0, 200_000), number(1, 1));
    let mut random = Random::new(seed);
    let mut tally = Tally::default();
    for turn in 0..matrices {
        tally.turn(&mut random, turn as usize % KINDS.len());
    }
    tally.report();
    if tally.differences > 0 {
        std::process::exit(1);
    }
}
