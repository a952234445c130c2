//! Records moved to the archive's form and back: the recorded moves of the oracle, and those of a file.

use jifrosk::{from_archive, read, to_archive, Record, Records, Refusal, ARCHIVED, RECORD};

/// crates/replay_archive/RECORDING.md has the form.
const CASES: &str = concat!(env!("CARGO_MANIFEST_DIR"), "/../crates/replay_archive/stdin");
/// A file of records, and what the oracle moves it to.
const OLD: &str = concat!(env!("CARGO_MANIFEST_DIR"), "/tests/data/archive/records.bin");
const NEW: &str = concat!(env!("CARGO_MANIFEST_DIR"), "/tests/data/archive/archived.bin");

fn taken<'a>(bytes: &mut &'a [u8], count: usize) -> &'a [u8] {
    let (first, rest) = bytes.split_at(count);
    *bytes = rest;
    first
}

#[test]
fn the_recorded_moves_are_the_oracles() {
    let recorded = std::fs::read(CASES).expect("the recording of crates/replay_archive");
    let mut bytes = recorded.as_slice();
    let mut count = 0;
    while !bytes.is_empty() {
        let head = taken(&mut bytes, 8);
        let two = |at: usize| usize::from(u16::from_le_bytes([head[at], head[at + 1]]));
        let record = taken(&mut bytes, two(2));
        let after = taken(&mut bytes, two(4));
        let mut out = vec![0xa5; after.len()];
        let moved = if head[0] == 1 {
            from_archive(record, &mut out)
        } else {
            to_archive(record, &mut out)
        };
        assert_eq!(
            moved.map_or_else(|refusal| refusal.number(), |()| 0),
            u32::from(head[1])
        );
        assert_eq!(out, after);
        count += 1;
    }
    assert_eq!(count, 1_900);
}

#[test]
fn a_files_records_are_moved_and_come_back() {
    let [old, new] = [OLD, NEW].map(|path| std::fs::read(path).expect("the file of tests/data"));
    assert_eq!(old.len() / RECORD, new.len() / ARCHIVED);
    for (record, form) in Records::new(&old)
        .expect("whole records")
        .iter()
        .zip(new.chunks_exact(ARCHIVED))
    {
        let held = read(record).expect("a record of a solve");
        assert_eq!(held.to_archive().as_ref().map(<[u8; ARCHIVED]>::as_slice), Ok(form));
        assert_eq!(Record::from_archive(form), Ok(held));
    }
}

#[test]
fn an_unequal_mirror_is_turned_away_and_minus_zero_is_not_zero() {
    let old = std::fs::read(OLD).expect("the file of tests/data");
    let fixes = Records::new(&old)
        .expect("whole records")
        .iter()
        .filter_map(|record| match read(record) {
            Ok(Record::Fix(fix)) => Some(fix),
            _ => None,
        });
    for fix in fixes {
        let mut zeros = fix;
        (zeros.covariance[0][1], zeros.covariance[1][0]) = (0.0, -0.0);
        assert_eq!(Record::Fix(zeros).to_archive(), Err(Refusal::UnequalMirror));
        zeros.covariance[0][1] = -0.0;
        assert!(Record::Fix(zeros).to_archive().is_ok());
        let mut infinite = fix;
        infinite.covariance[0][1] = f64::INFINITY;
        assert_eq!(Record::Fix(infinite).to_archive(), Err(Refusal::MalformedRecord));
    }
    assert_eq!(Record::from_archive(&[0; 151]), Err(Refusal::TornFile));
    assert_eq!(Record::from_archive(&[0xff; ARCHIVED]), Err(Refusal::MalformedRecord));
}
