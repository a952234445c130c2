//! Calls of clash_patterns as crates/replay_patterns has them: receptions u32, the number u32, seven counts u64.

use crate::patterns;

/// The lent counts before a call.
pub const FOUND: [u64; 7] = [0xa5a5_a5a5_a5a5_a5a5; 7];

#[derive(Clone, PartialEq)]
pub struct Case {
    pub receptions: u32,
    pub number: u32,
    pub counts: [u64; 7],
}

impl Case {
    /// What the oracle answers.
    pub fn of(receptions: u32) -> Case {
        let mut counts = FOUND;
        let number = patterns::clash_patterns(receptions, &mut counts);
        Case { receptions, number, counts }
    }

    pub fn bytes(&self) -> Vec<u8> {
        let counts = self.counts.iter().flat_map(|count| count.to_le_bytes());
        self.receptions.to_le_bytes().into_iter().chain(self.number.to_le_bytes()).chain(counts).collect()
    }

    fn read(bytes: &[u8]) -> Case {
        let word = |at: usize| u32::from_le_bytes(bytes[at..at + 4].try_into().expect("4 bytes"));
        let count = |at: usize| u64::from_le_bytes(bytes[at..at + 8].try_into().expect("8 bytes"));
        Case { receptions: word(0), number: word(4), counts: std::array::from_fn(|k| count(8 + 8 * k)) }
    }
}

pub fn read(file: &[u8]) -> Vec<Case> {
    assert_eq!(file.len() % 64, 0, "a case has 64 bytes");
    file.chunks(64).map(Case::read).collect()
}

/// Numbers of receptions over six: the next sixty, and as many up to the last u32, each power of two among them.
pub fn over_six() -> Vec<u32> {
    let powers = (7..32).flat_map(|k| [(1 << k) - 1, 1 << k, (1 << k) + 1]);
    (7..67).chain(powers.take(59)).chain([u32::MAX]).collect()
}
