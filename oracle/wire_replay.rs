//! wire_replay FILE: runs the wire of this folder's sources on recorded calls, and says how many differ.
//! oracle/mutants_wire builds it once for each mutant.

#![allow(dead_code)]

mod reader;
mod wire;

/// What the lent memory is filled with before a call.
const FOUND: u8 = 0xa5;

fn taken<'a>(bytes: &mut &'a [u8], count: usize) -> &'a [u8] {
    let (first, rest) = bytes.split_at(count);
    *bytes = rest;
    first
}

/// The number, and the lent memory afterwards, of so many bytes.
fn answered<T: IntoIterator<Item = u8>>(found: Result<T, u32>, length: usize) -> (u32, Vec<u8>) {
    found.map_or_else(|number| (number, vec![FOUND; length]), |after| (0, after.into_iter().collect()))
}

fn main() {
    let file = std::env::args().nth(1).expect("FILE");
    let recorded = std::fs::read(file).expect("the recorded calls are readable");
    let mut bytes = recorded.as_slice();
    let (mut calls, mut differing) = (0, 0);
    while !bytes.is_empty() {
        let head = taken(&mut bytes, 8);
        let (found, after) = if head[0] == 0 {
            let length = u32::from_le_bytes(head[4..].try_into().expect("four bytes"));
            let found = wire::to_wire(taken(&mut bytes, length as usize));
            let left = found.map(|whole| whole.into_iter().flat_map(i32::to_le_bytes));
            (answered(left, 12), taken(&mut bytes, 12))
        } else {
            let input = taken(&mut bytes, 12);
            let whole = |k: usize| i32::from_le_bytes(input[4 * k..4 * k + 4].try_into().expect("four bytes"));
            let found = wire::from_wire([whole(0), whole(1), whole(2)]);
            let left = found.map(|position| position.into_iter().flat_map(f64::to_le_bytes));
            (answered(left, 24), taken(&mut bytes, 24))
        };
        calls += 1;
        differing += usize::from(found.0 != u32::from(head[1]) || found.1 != after);
    }
    println!("{differing} of {calls} differ");
}
