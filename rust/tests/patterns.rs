//! How many clash patterns leave each number of survivors: the recorded calls of the oracle, document 02's own numbers.

use jifrosk::{clash_patterns, Refusal};

/// crates/replay_patterns/RECORDING.md has the form.
const CALLS: &str = concat!(env!("CARGO_MANIFEST_DIR"), "/../crates/replay_patterns/stdin");

#[test]
fn recorded_calls_are_answered_alike() {
    let recorded = std::fs::read(CALLS).expect("the recording of crates/replay_patterns");
    let mut tried = [0; 2];
    let mut before = None;
    for case in recorded.chunks(64) {
        if before == Some(case) {
            continue;
        }
        before = Some(case);
        let word = |at: usize| u32::from_le_bytes(case[at..at + 4].try_into().expect("four bytes"));
        let count = |k: usize| u64::from_le_bytes(case[8 + 8 * k..16 + 8 * k].try_into().expect("eight bytes"));
        let due = if word(4) == 0 {
            Ok(std::array::from_fn(count))
        } else {
            Err(Refusal::OverSix)
        };
        assert_eq!(clash_patterns(word(0)), due, "{} receptions", word(0));
        tried[usize::from(due.is_err())] += 1;
    }
    assert_eq!(tried, [7, 120]);
}

#[test]
fn the_numbers_of_document_02() {
    assert_eq!(clash_patterns(2), Ok([0, 1, 1, 0, 0, 0, 0]));
    assert_eq!(clash_patterns(3), Ok([0, 1, 6, 1, 0, 0, 0]));
    for receptions in 0..=6u32 {
        let counts = clash_patterns(receptions).expect("up to six");
        let pairs = receptions * receptions.saturating_sub(1) / 2;
        assert_eq!(counts.iter().sum::<u64>(), 1 << pairs, "{receptions} receptions");
        assert_eq!(counts[0], u64::from(receptions == 0));
    }
    assert_eq!(clash_patterns(7), Err(Refusal::OverSix));
    assert_eq!(clash_patterns(u32::MAX), Err(Refusal::OverSix));
}
