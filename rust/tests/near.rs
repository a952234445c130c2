//! Fixes near a place: the recorded searches of the oracle, and the fixes of recorded solves searched by a plain loop.

use jifrosk::{read, Records, Refusal, RECORD};

/// crates/replay_near/RECORDING.md has the form.
const CASES: &str = concat!(env!("CARGO_MANIFEST_DIR"), "/../crates/replay_near/stdin");
/// 107 records of recorded solves.
const SOLVED: &str = concat!(env!("CARGO_MANIFEST_DIR"), "/tests/data/archive/records.bin");

/// What a buffer holds before a call.
const FOUND: u64 = 0xa5a5_a5a5_a5a5_a5a5;

fn taken<'a>(bytes: &mut &'a [u8], count: usize) -> &'a [u8] {
    let (first, rest) = bytes.split_at(count);
    *bytes = rest;
    first
}

fn long(bytes: &mut &[u8]) -> u64 {
    u64::from_le_bytes(taken(bytes, 8).try_into().expect("eight bytes"))
}

#[test]
fn the_recorded_searches_are_answered_alike() {
    let recorded = std::fs::read(CASES).expect("the recording of crates/replay_near");
    let (mut bytes, mut seen) = (recorded.as_slice(), 0);
    while !bytes.is_empty() {
        let head = taken(&mut bytes, 8);
        let two = |k: usize| usize::from(u16::from_le_bytes([head[k], head[k + 1]]));
        let file = taken(&mut bytes, two(2));
        let [x, y, z, radius] = std::array::from_fn(|_| f64::from_bits(long(&mut bytes)));
        let out = long(&mut bytes);
        let after: Vec<u64> = (0..two(4)).map(|_| long(&mut bytes)).collect();
        let number = u32::from(head[1]);
        seen += 1;
        let Ok(records) = Records::new(file) else {
            // 14 is tested before 16
            assert!(number == Refusal::TornFile.number() || number == Refusal::ShortOutput.number());
            continue;
        };
        let due = if number == 0 { Ok(()) } else { Err(number) };
        let numbered = |refusal: Refusal| refusal.number();
        if head[0] == 1 {
            let found = records.nearest(&[x, y, z]);
            assert_eq!(found.map(|_| ()).map_err(numbered), due);
            assert!(found.is_err() || found == Ok((out != u64::MAX).then_some(out)));
        } else {
            let mut places = vec![FOUND; after.len()];
            let found = records.within_into(&[x, y, z], radius, &mut places);
            assert_eq!(found.map(|_| ()).map_err(numbered), due);
            assert!(found.is_err() || found == Ok(out as usize));
            assert_eq!(places, after);
            if number != Refusal::ShortOutput.number() {
                let listed = found.map(|count| after[..count].to_vec());
                assert_eq!(records.within(&[x, y, z], radius), listed);
            }
        }
    }
    assert_eq!(seen, 678);
}

#[test]
fn fixes_of_solves_are_found() {
    let file = std::fs::read(SOLVED).expect("the records of tests/data");
    let records = Records::new(&file).expect("whole records");
    let fixes: Vec<(u64, [f64; 3])> = (0..)
        .zip(records)
        .filter_map(|(place, record)| Some((place, read(record).expect("a record of a solve").fix().ok()?.ecef)))
        .collect();
    assert!(fixes.len() > 10 && fixes.len() < records.len());
    for &(place, point) in &fixes {
        let earliest = fixes.iter().find(|(_, other)| *other == point).expect("itself").0;
        assert_eq!(records.nearest(&point), Ok(Some(earliest)));
        assert!(records.within(&point, 0.0).expect("a good query").contains(&place));
        let all: Vec<u64> = fixes.iter().map(|(place, _)| *place).collect();
        assert_eq!(records.within(&point, 1e8), Ok(all));
    }
}

#[test]
fn refusals_leave_the_buffer_and_come_in_order() {
    let file = std::fs::read(SOLVED).expect("the records of tests/data");
    let records = Records::new(&file).expect("whole records");
    let point = [0.0; 3];
    let mut short = vec![FOUND; records.len() - 1];
    assert_eq!(
        records.within_into(&point, f64::NAN, &mut short),
        Err(Refusal::ShortOutput)
    );
    assert!(short.iter().all(|entry| *entry == FOUND));
    for radius in [-1.0, f64::NAN, f64::INFINITY, 1e8 + 1.0, -5e-324] {
        assert_eq!(records.within(&point, radius), Err(Refusal::BadQuery));
    }
    assert_eq!(records.within(&point, -0.0).map(|places| places.len()), Ok(0));
    assert_eq!(records.nearest(&[0.0, f64::NAN, 0.0]), Err(Refusal::BadQuery));
    let mut damaged = file.clone();
    damaged[5 * RECORD + 3] = 1;
    let records = Records::new(&damaged).expect("whole records");
    assert_eq!(records.within(&[f64::NAN; 3], -1.0), Err(Refusal::MalformedRecord));
    assert_eq!(records.nearest(&[f64::NAN; 3]), Err(Refusal::MalformedRecord));
    let none = Records::new(&[]).expect("no record is whole records");
    assert_eq!(none.nearest(&point), Ok(None));
    assert_eq!(none.within(&point, 1.0), Ok(vec![]));
}
