//! matrices_recording FILE: calculations with matrices and what linalg.rs gives, in the form that
//! crates/replay_matrices/RECORDING.md states. Everything comes from a seed.

mod inputs;
mod linalg;

use inputs::Random;
use linalg::{Cholesky, Matrix};

const FOUND: f64 = f64::from_bits(0xa5a5_a5a5_a5a5_a5a5);
const SINGULAR: u8 = 6;
const WRONG_SIZE: u8 = 21;

/// The sizes of a round; a width for each is drawn.
const SIZES: [usize; 12] = [0, 1, 2, 3, 4, 5, 6, 7, 8, 9, 3, 4];
const ROUNDS: usize = 13;
/// Sizes that come up once, for one kind of matrix each.
const LARGE: [(usize, usize); 4] = [(10, 5), (16, 1), (17, 4), (32, 0)];

#[derive(Clone, Copy)]
enum Call {
    Sandwich,
    ForwardRows,
    InverseTriangular,
    InverseDiagonal,
    Cholesky,
}

struct Recording {
    bytes: Vec<u8>,
    numbers: std::collections::BTreeMap<(u8, u8), u32>,
}

impl Recording {
    fn values(&mut self, values: &[f64]) {
        for value in values {
            let bits = if value.is_nan() { 0x7ff8_0000_0000_0000 } else { value.to_bits() };
            self.bytes.extend(bits.to_le_bytes());
        }
    }

    fn call(&mut self, call: Call, number: u8, n: usize, width: usize, first: &[f64], second: &[f64], after: &[f64]) {
        let small = |size: usize| u8::try_from(size).expect("a size of a byte");
        self.bytes.extend([call as u8, number, small(n), small(width)]);
        for length in [first.len(), second.len(), after.len()] {
            assert!(length <= 1_024);
            self.bytes.extend((length as u16).to_le_bytes());
        }
        self.bytes.extend([0; 6]);
        for values in [first, second, after] {
            self.values(values);
        }
        *self.numbers.entry((call as u8, number)).or_default() += 1;
    }

    /// The five calls on a matrix of this kind and size.
    fn all(&mut self, random: &mut Random, kind: usize, n: usize, width: usize) {
        let a = Matrix { n, data: random.matrix(kind, n) };
        let inner_kind = random.below(10);
        let inner = Matrix { n, data: random.matrix(inner_kind, n) };
        self.call(Call::Sandwich, 0, n, 0, &a.data, &inner.data, &a.sandwich(&inner).data);
        let found = a.cholesky();
        let (number, after) = match &found {
            Some(factor) => (0, factor.l.clone()),
            None => (SINGULAR, vec![FOUND; n * n]),
        };
        self.call(Call::Cholesky, number, n, 0, &a.data, &[], &after);
        let factor = found.unwrap_or_else(|| Cholesky { n, l: random.factor(n) });
        let q = random.vector(n * width);
        self.call(Call::ForwardRows, 0, n, width, &factor.l, &q, &factor.forward_rows(&q, width));
        self.call(Call::InverseTriangular, 0, n, 0, &factor.l, &[], &factor.inverse_triangular().data);
        self.call(Call::InverseDiagonal, 0, n, 0, &factor.l, &[], &factor.inverse_diagonal());
    }

    /// Each call with one length that is one too many or too few, and with a size or a width over 32.
    fn wrong_sizes(&mut self, n: usize, width: usize) {
        let matrix = vec![1.0; n * n + 1];
        let rows = vec![1.0; n * width + 1];
        let out = vec![FOUND; n * n.max(width) + 1];
        let (square, flat) = (n * n, n * width);
        for by in [1, usize::MAX] {
            let (longer, wider) = (square.wrapping_add(by), flat.wrapping_add(by));
            if longer > 1_024 || wider > 1_024 {
                continue;
            }
            let (a, most, q) = (&matrix[..square], &matrix[..longer], &rows[..flat]);
            self.call(Call::Sandwich, WRONG_SIZE, n, 0, most, a, &out[..square]);
            self.call(Call::Sandwich, WRONG_SIZE, n, 0, a, most, &out[..square]);
            self.call(Call::Sandwich, WRONG_SIZE, n, 0, a, a, &out[..longer]);
            self.call(Call::ForwardRows, WRONG_SIZE, n, width, most, q, &out[..flat]);
            self.call(Call::ForwardRows, WRONG_SIZE, n, width, a, &rows[..wider], &out[..flat]);
            self.call(Call::ForwardRows, WRONG_SIZE, n, width, a, q, &out[..wider]);
            self.call(Call::InverseTriangular, WRONG_SIZE, n, 0, most, &[], &out[..square]);
            self.call(Call::InverseTriangular, WRONG_SIZE, n, 0, a, &[], &out[..longer]);
            self.call(Call::InverseDiagonal, WRONG_SIZE, n, 0, most, &[], &out[..n]);
            self.call(Call::InverseDiagonal, WRONG_SIZE, n, 0, a, &[], &out[..n.wrapping_add(by).min(n + 1)]);
            self.call(Call::Cholesky, WRONG_SIZE, n, 0, most, &[], &out[..square]);
            self.call(Call::Cholesky, WRONG_SIZE, n, 0, a, &[], &out[..longer]);
        }
    }

    /// Entries of the factor of 0, of either sign, left of the diagonal: what stands above in q does not show through them.
    fn passed_over(&mut self) {
        for zero in [0.0, -0.0] {
            let factor = Cholesky { n: 2, l: vec![2.0, 0.0, zero, 4.0] };
            let q = [f64::INFINITY, f64::NAN, 1.0, 3.0];
            self.call(Call::ForwardRows, 0, 2, 2, &factor.l, &q, &factor.forward_rows(&q, 2));
        }
    }

    fn over(&mut self, n: usize) {
        let out = [FOUND; 33];
        self.call(Call::ForwardRows, WRONG_SIZE, 1, n, &[1.0], &vec![1.0; n], &vec![FOUND; n]);
        self.call(Call::ForwardRows, WRONG_SIZE, n, 0, &[1.0; 1_024], &[], &[]);
        self.call(Call::InverseDiagonal, WRONG_SIZE, n, 0, &[1.0; 1_024], &[], &out);
        self.call(Call::InverseTriangular, WRONG_SIZE, n, 0, &[], &[], &[]);
        self.call(Call::Sandwich, WRONG_SIZE, n, 0, &[], &[], &[]);
        self.call(Call::Cholesky, WRONG_SIZE, n, 0, &[], &[], &[]);
    }
}

fn main() {
    let path = std::env::args().nth(1).expect("matrices_recording FILE");
    let mut random = Random::new(11);
    let mut recording = Recording { bytes: Vec::new(), numbers: Default::default() };
    for round in 0..ROUNDS {
        for (k, n) in SIZES.into_iter().enumerate() {
            let width = random.below(if k % 4 == 0 { 33 } else { 6 });
            recording.all(&mut random, (round + k) % 10, n, width);
        }
    }
    for (n, kind) in LARGE {
        recording.all(&mut random, kind, n, n);
    }
    for (n, width) in [(1, 1), (2, 3), (4, 0), (3, 32)] {
        recording.wrong_sizes(n, width);
    }
    for n in [33, 64, 255] {
        recording.over(n);
    }
    recording.passed_over();
    std::fs::write(&path, &recording.bytes).expect("the recording is written");
    let count: u32 = recording.numbers.values().sum();
    println!("{count} calls, {} bytes", recording.bytes.len());
    for ((call, number), count) in recording.numbers {
        println!("call {call}, number {number}: {count}");
    }
}
