//! matrices_replay FILE: runs linalg.rs of this folder's sources on the recorded calculations, and says how many differ. oracle/mutants_matrices builds it once for each
//! mutant. The sizes are tested here, by document 02's words.

#![allow(dead_code)]

mod linalg;

use linalg::{Cholesky, Matrix};

const FOUND: u64 = 0xa5a5_a5a5_a5a5_a5a5;

struct Call {
    call: u8,
    number: u8,
    n: usize,
    width: usize,
    first: Vec<f64>,
    second: Vec<f64>,
    after: Vec<u64>,
}

fn words(bytes: &mut &[u8], count: usize) -> Vec<u64> {
    let (first, rest) = bytes.split_at(8 * count);
    *bytes = rest;
    first.chunks(8).map(|part| u64::from_le_bytes(part.try_into().expect("eight bytes"))).collect()
}

fn next(bytes: &mut &[u8]) -> Call {
    let head = words(bytes, 2).iter().flat_map(|word| word.to_le_bytes()).collect::<Vec<u8>>();
    let length = |k: usize| usize::from(u16::from_le_bytes([head[k], head[k + 1]]));
    let floats = |words: Vec<u64>| words.into_iter().map(f64::from_bits).collect();
    let first = floats(words(bytes, length(4)));
    let second = floats(words(bytes, length(6)));
    let after = words(bytes, length(8));
    Call { call: head[0], number: head[1], n: usize::from(head[2]), width: usize::from(head[3]), first, second, after }
}

/// "each gives a new number where a size is over 32 or a length does not match"
fn fits(call: &Call) -> bool {
    let (n, square) = (call.n, call.n * call.n);
    let (second, after) = match call.call {
        0 => (square, square),
        1 => (n * call.width, n * call.width),
        3 => (call.second.len(), n),
        _ => (call.second.len(), square),
    };
    n <= 32 && call.width <= 32 && call.first.len() == square && call.second.len() == second && call.after.len() == after
}

/// None where a pivot is refused.
fn results(call: &Call) -> Option<Vec<f64>> {
    let matrix = || Matrix { n: call.n, data: call.first.clone() };
    let factor = || Cholesky { n: call.n, l: call.first.clone() };
    Some(match call.call {
        0 => matrix().sandwich(&Matrix { n: call.n, data: call.second.clone() }).data,
        1 => factor().forward_rows(&call.second, call.width),
        2 => factor().inverse_triangular().data,
        3 => factor().inverse_diagonal(),
        _ => matrix().cholesky()?.l,
    })
}

fn differs(call: &Call) -> bool {
    let left = vec![FOUND; call.after.len()];
    let bits = |x: &f64| if x.is_nan() { 0x7ff8_0000_0000_0000 } else { x.to_bits() };
    let (number, after) = if !fits(call) {
        (21, left)
    } else {
        results(call).map_or((6, left), |values| (0, values.iter().map(bits).collect()))
    };
    number != call.number || after != call.after
}

fn main() {
    let file = std::env::args().nth(1).expect("FILE");
    let bytes = std::fs::read(file).expect("the recorded calculations are readable");
    let mut rest = bytes.as_slice();
    std::panic::set_hook(Box::new(|_| {}));
    let (mut all, mut differing) = (0, 0);
    while !rest.is_empty() {
        let call = next(&mut rest);
        all += 1;
        differing += usize::from(std::panic::catch_unwind(|| differs(&call)).unwrap_or(true));
    }
    println!("{differing} of {all} differ");
}
