//! asterix_replay FILE: runs the items of this folder's sources on recorded calls, and says how many differ.
//! oracle/mutants_asterix builds it once for each mutant.

#![allow(dead_code)]

mod asterix;

/// What the lent memory is filled with before a call.
const FOUND: u8 = 0xa5;

fn taken<'a>(bytes: &mut &'a [u8], count: usize) -> &'a [u8] {
    let (first, rest) = bytes.split_at(count);
    *bytes = rest;
    first
}

/// The number, and so many bytes of lent memory afterwards.
fn answered<T: IntoIterator<Item = u8>>(found: Result<T, u32>, length: usize) -> (u32, Vec<u8>) {
    found.map_or_else(|number| (number, vec![FOUND; length]), |after| (0, after.into_iter().collect()))
}

fn main() {
    let file = std::env::args().nth(1).expect("FILE");
    let recorded = std::fs::read(file).expect("the recorded calls are readable");
    let mut bytes = recorded.as_slice();
    let (mut calls, mut differing) = (0, 0);
    while !bytes.is_empty() {
        let head = taken(&mut bytes, 8);
        let length = usize::from(head[2]);
        let (found, after) = if head[0] == 2 {
            let found = asterix::read_asterix(taken(&mut bytes, length));
            (answered(found.map(|read| read.into_iter().flat_map(i32::to_le_bytes)), 12), taken(&mut bytes, 12))
        } else {
            let input = taken(&mut bytes, 12);
            let whole = |k: usize| i32::from_le_bytes(input[4 * k..4 * k + 4].try_into().expect("four bytes"));
            let numbers = [whole(0), whole(1), whole(2)];
            let call = if head[0] == 0 { asterix::to_asterix } else { asterix::write_asterix };
            (answered(call(numbers, length), length), taken(&mut bytes, length))
        };
        calls += 1;
        differing += usize::from(found.0 != u32::from(head[1]) || found.1 != after);
    }
    println!("{differing} of {calls} differ");
}
