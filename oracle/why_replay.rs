//! why_replay FILE: runs why.rs of this folder's sources on recorded inputs, and says how many differ. oracle/mutants_why builds it once for each mutant. One that panics
//! differs.

#![allow(dead_code)]

mod clock;
mod geo;
mod input;
mod linalg;
mod modes;
mod obs;
mod parts;
mod random;
mod record;
mod scene;
mod solve;
mod trace;
mod why;

pub use at_least::AtLeast;
mod at_least;

use scene::Files;

/// An input, its number and detail, one after the other, and the lent bytes after the call.
struct Case {
    files: Files,
    answer: Vec<u8>,
    states: Vec<u8>,
}

fn take(bytes: &mut &[u8], count: usize) -> Vec<u8> {
    let (first, rest) = bytes.split_at(count);
    *bytes = rest;
    first.to_vec()
}

fn case(bytes: &mut &[u8]) -> Case {
    let head = take(bytes, 8);
    let length = |k: usize| usize::from(u16::from_le_bytes([head[k], head[k + 1]]));
    let mut file = |length: usize, bit: u8| {
        let part = take(bytes, length);
        (head[6] >> bit & 1 == 1).then_some(part)
    };
    let (receptions, clock) = (file(length(0), 3), file(length(2), 0));
    let (altitude, reference) = (file(usize::from(head[4]), 1), file(usize::from(head[5]), 2));
    Case { files: Files { receptions, clock, altitude, reference }, answer: take(bytes, 8), states: take(bytes, 640) }
}

fn differs(case: &Case) -> bool {
    let (mut states, mut detail) = (vec![0xA5; 640], 0);
    let number = why::why(&case.files, &mut states, &mut detail);
    [number.to_le_bytes(), detail.to_le_bytes()].concat() != case.answer || states != case.states
}

fn main() {
    let file = std::env::args().nth(1).expect("FILE");
    let bytes = std::fs::read(file).expect("the recorded inputs are readable");
    let mut rest = bytes.as_slice();
    std::panic::set_hook(Box::new(|_| {}));
    let (mut all, mut differing) = (0, 0);
    while !rest.is_empty() {
        let case = case(&mut rest);
        all += 1;
        differing += usize::from(std::panic::catch_unwind(|| differs(&case)).unwrap_or(true));
    }
    println!("{differing} of {all} differ");
}
