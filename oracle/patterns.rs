//! Document 02, item 14, read anew: of all patterns of failing pairs of 0 to 6 receptions, how many leave each number
//! of survivors. A pattern is a set of pairs, and all sets are made one after another; the screen is document 01's
//! sentence on sets. Nothing here knows of bits, masks or of the port.

use std::collections::BTreeSet;

pub const MOST: u32 = 6;
pub const OVER_SIX: u32 = 24;

pub type Pair = (u32, u32);

/// The pairs of n receptions, the earlier one first.
pub fn pairs(n: u32) -> Vec<Pair> {
    let of = |later: u32| (0..later).map(move |earlier| (earlier, later));
    (0..n).flat_map(of).collect()
}

/// Every set of these pairs: each pair is in it or not.
pub fn patterns(pairs: &[Pair]) -> Vec<BTreeSet<Pair>> {
    let Some((last, others)) = pairs.split_last() else {
        return vec![BTreeSet::new()];
    };
    let without = patterns(others);
    let with = without.iter().cloned().map(|mut pattern| {
        pattern.insert(*last);
        pattern
    });
    without.iter().cloned().chain(with).collect()
}

/// "While a pair fails, the reception in most failing pairs goes, lowest index on ties.": those that are left of n.
pub fn screened(n: u32, pattern: &BTreeSet<Pair>) -> BTreeSet<u32> {
    let mut left: BTreeSet<u32> = (0..n).collect();
    loop {
        let failing: Vec<&Pair> = pattern.iter().filter(|(a, b)| left.contains(a) && left.contains(b)).collect();
        if failing.is_empty() {
            return left;
        }
        let clashes = |i: u32| failing.iter().filter(|(a, b)| *a == i || *b == i).count();
        let most = left.iter().map(|i| clashes(*i)).max().expect("a pair is of somebody");
        let goes = left.iter().copied().find(|i| clashes(*i) == most).expect("somebody has most");
        left.remove(&goes);
    }
}

/// The number that a call answers, and what it leaves in the counts.
pub fn clash_patterns(receptions: u32, counts: &mut [u64; 7]) -> u32 {
    if receptions > MOST {
        return OVER_SIX;
    }
    *counts = [0; 7];
    for pattern in patterns(&pairs(receptions)) {
        counts[screened(receptions, &pattern).len()] += 1;
    }
    0
}
