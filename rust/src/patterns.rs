use crate::refusal::answered;
use crate::Refusal;

extern "C" {
    fn mlat_clash_patterns(receptions: u32, counts: *mut u64) -> u32;
}

/// Of all patterns of failing pairs that this many receptions can have, how many leave each number of survivors of the
/// screen: entry k is of those that leave k. Each pattern is counted once, and they add up to 2 to the number of pairs.
/// [`Refusal::OverSix`] over six receptions.
///
/// ```
/// // three receptions have eight patterns: one leaves 1, six leave 2 and one leaves 3
/// assert_eq!(jifrosk::clash_patterns(3), Ok([0, 1, 6, 1, 0, 0, 0]));
/// // the share of the patterns of six that leave at least four
/// let counts = jifrosk::clash_patterns(6).expect("six are not over six");
/// let four: u64 = counts[4..].iter().sum();
/// assert_eq!(four * 1000 / counts.iter().sum::<u64>(), 153);
/// ```
pub fn clash_patterns(receptions: u32) -> Result<[u64; 7], Refusal> {
    let mut counts = [0; 7];
    // SAFETY: seven counts are lent, and the call does not keep them.
    answered(unsafe { mlat_clash_patterns(receptions, counts.as_mut_ptr()) })?;
    Ok(counts)
}
