extern "C" {
    /// major * 1,000,000 + minor * 1,000 + patch
    fn mlat_version() -> u32;
}

/// The version of the library that is linked, as major, minor and patch: this crate's own
/// (`env!("CARGO_PKG_VERSION")`), unless MLAT_SOLVER_LIB named the library of another.
///
/// ```no_run
/// let [major, minor, _] = jifrosk::version();
/// assert_eq!((major, minor), (0, 3));
/// ```
pub fn version() -> [u32; 3] {
    // SAFETY: the call takes nothing.
    let number = unsafe { mlat_version() };
    [number / 1_000_000, number / 1_000 % 1_000, number % 1_000]
}
