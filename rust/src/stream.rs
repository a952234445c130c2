use crate::Refusal;

/// In the place of an input's length in a stream: the input is absent.
pub const ABSENT: u32 = u32::MAX;

extern "C" {
    fn mlat_solve_next(stream: *const u8, stream_len: usize, out: *mut u8, out_len: usize, used: &mut u64) -> u32;
    fn mlat_cut_lengths(lengths: &[u32; 4], cut: &mut [u32; 4]);
}

/// The solve of the first problem of a stream. A problem is 16 bytes, the lengths of its receptions, clock covariance,
/// altitude and reference, u32 each, little-endian, or [`ABSENT`]; then the bytes of those inputs, in this order.
///
/// Gives the answer number of [`crate::solve_bytes`] for the problem's inputs, whatever follows them, and how many bytes
/// the problem takes; the record goes to the first 176 bytes of `out`. [`Refusal::ShortOutput`] where `out` is shorter,
/// tested first; then [`Refusal::TornFile`] where the stream ends within the problem, as an empty one does. Both leave
/// `out` as it is.
///
/// ```no_run
/// use jifrosk::{solve_next, RECORD};
///
/// fn records(mut stream: &[u8]) -> Result<Vec<[u8; RECORD]>, jifrosk::Refusal> {
///     let mut records = Vec::new();
///     while !stream.is_empty() {
///         let mut record = [0; RECORD];
///         let (_, used) = solve_next(stream, &mut record)?;
///         records.push(record);
///         stream = &stream[used..];
///     }
///     Ok(records)
/// }
/// ```
pub fn solve_next(stream: &[u8], out: &mut [u8]) -> Result<(u32, usize), Refusal> {
    let mut used = 0;
    // SAFETY: stream and output are lent with their lengths, apart from each other, and the call keeps none of them.
    let number = unsafe { mlat_solve_next(stream.as_ptr(), stream.len(), out.as_mut_ptr(), out.len(), &mut used) };
    match Refusal::of(number, 0) {
        Some(refusal @ (Refusal::ShortOutput | Refusal::TornFile)) => Err(refusal),
        // a problem lies within its stream
        _ => Ok((number, used as usize)),
    }
}

/// Of the lengths of a problem's inputs, or [`ABSENT`], how much of the start of each is enough: a problem of these
/// starts gets the same answer and record. So a stream of any lengths is read in little memory: what is cut off is
/// passed over.
pub fn cut_lengths(lengths: &[u32; 4]) -> [u32; 4] {
    let mut cut = [0; 4];
    // SAFETY: four lengths are lent and four more are written, and the call keeps none of them.
    unsafe { mlat_cut_lengths(lengths, &mut cut) };
    cut
}
