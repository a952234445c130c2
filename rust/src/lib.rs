//! The proved position solve of a multilateration network, from Rust.
//!
//! ```no_run
//! use jifrosk::{Problem, Reception, Reported, solve};
//!
//! let mut receptions: Vec<Reception> = Vec::new();
//! receptions.sort_by_key(|reception| reception.id);
//! let clock_m2 = vec![0.0; receptions.len() * receptions.len()];
//! let altitude = Reported::Barometric { metres: 9_144.0, correction_cm: -350 };
//! let problem = Problem { receptions: &receptions, clock_m2: Some(&clock_m2), altitude: Some(altitude), reference_ps: 0 };
//! match solve(&problem) {
//!     Ok(fix) => println!("{:.5} {:.5} {:.0} m", fix.position.lat_deg, fix.position.lon_deg, fix.position.height_m),
//!     Err(refusal) => println!("{refusal}"),
//! }
//! ```
//!
//! The solve keeps no state and allocates nothing: any number of calls may run side by side. What it answers is proved, for every input; this crate lends it the
//! receptions and carries the other numbers to bytes. A file of fix records is read back by [`Records`] and [`read`]:
//!
//! ```no_run
//! use jifrosk::{Record, Records, read};
//!
//! fn main() -> Result<(), Box<dyn std::error::Error>> {
//!     let file = std::fs::read("fixes.bin")?;
//!     for record in Records::new(&file)? {
//!         match read(record)? {
//!             Record::Fix(fix) => println!("{:.5} {:.5}", fix.position.lat_deg, fix.position.lon_deg),
//!             Record::Refused { refusal, n } => println!("{n} receptions: {refusal}"),
//!         }
//!     }
//!     Ok(())
//! }
//! ```
//!
//! [`solve_next`] takes the problems of a stream, one after the other.
//! [`Fix::to_wire`] has a position as whole numbers, as it is published, and [`Wire::position`] the way back.
//! [`Record::to_archive`] and [`Record::from_archive`] move a record to the archive's form of 152 bytes and back.
//! [`cholesky`] has the factor of a matrix, and [`inverse_triangular`], [`inverse_diagonal`], [`forward_rows`] and
//! [`sandwich`] what the source calculates with factors and matrices, to the bit.
//! [`Fix::to_asterix`] and [`Wire::to_asterix`] give the ten bytes of items I020/041 and I020/105, [`Multiples`] reads them.
//! [`clash_patterns`] tells planners what the screen leaves of small sets of receptions.

#![warn(missing_docs)]

mod altitude;
mod archive;
mod asterix;
mod claims;
mod fix;
pub mod geo;
mod matrices;
mod patterns;
mod reception;
mod record;
mod records;
mod refusal;
mod stream;
mod version;
mod why;
mod wire;

pub use altitude::{Altitude, Reported};
pub use archive::{from_archive, to_archive, ARCHIVED};
pub use asterix::{read_asterix, to_asterix, write_asterix, Multiples, ITEMS};
pub use claims::chi2_limit;
pub use fix::Fix;
pub use matrices::{cholesky, forward_rows, inverse_diagonal, inverse_triangular, sandwich};
pub use patterns::clash_patterns;
pub use reception::{ObservationId, Reception, RECEPTION};
pub use record::{read, write, Record};
pub use records::{Iter, Records};
pub use refusal::{Field, Refusal};
pub use stream::{cut_lengths, solve_next, ABSENT};
pub use version::version;
pub use why::{why, why_bytes, State, STATE, STATES};
pub use wire::{to_wire, Wire};

/// The length of a record.
pub const RECORD: usize = 176;

/// What is solved: at most 32 receptions.
#[derive(Clone, Copy, Debug)]
pub struct Problem<'a> {
    /// In the order of their identities.
    pub receptions: &'a [Reception],
    /// The covariance of the receptions' clocks, m², n × n row by row: 0 to 10^12 on the diagonal, within ±10^12 right of it; entries left of it are never read.
    pub clock_m2: Option<&'a [f64]>,
    /// An altitude that the message carried, if it did: it counts as one measurement more.
    pub altitude: Option<Reported>,
    /// What z and the transmit time count from.
    pub reference_ps: i64,
}

extern "C" {
    #[rustfmt::skip]
    fn mlat_solve(
        receptions: *const u8,
        receptions_len: usize,
        clock: *const u8,
        clock_len: usize,
        altitude: *const u8,
        altitude_len: usize,
        reference: *const u8,
        reference_len: usize,
        present: u32,
        out: *mut u8,
        out_len: usize,
    ) -> u32;
    #[rustfmt::skip]
    fn mlat_solve_receptions(
        receptions: *const Reception,
        receptions_len: usize,
        clock: *const u8,
        clock_len: usize,
        altitude: *const u8,
        altitude_len: usize,
        reference: *const u8,
        reference_len: usize,
        present: u32,
        out: *mut u8,
        out_len: usize,
    ) -> u32;
}

/// The solve on the bytes of the four files, absent ones none; an absent receptions file is an empty one. Returns the answer number and writes the record to the
/// first 176 bytes of `out`, where it is that long; else the answer is 14 and nothing is written.
pub fn solve_bytes(
    receptions: &[u8],
    clock: Option<&[u8]>,
    altitude: Option<&[u8]>,
    reference: Option<&[u8]>,
    out: &mut [u8],
) -> u32 {
    let (present, [clock, altitude, reference]) = lent([clock, altitude, reference]);
    // SAFETY: each pointer is lent with its length, the output is apart from the inputs, and the call keeps none of them.
    unsafe {
        mlat_solve(
            receptions.as_ptr(),
            receptions.len(),
            clock.as_ptr(),
            clock.len(),
            altitude.as_ptr(),
            altitude.len(),
            reference.as_ptr(),
            reference.len(),
            present,
            out.as_mut_ptr(),
            out.len(),
        )
    }
}

/// The same with a list of receptions in place of their file.
pub fn solve_receptions(
    receptions: &[Reception],
    clock: Option<&[u8]>,
    altitude: Option<&[u8]>,
    reference: Option<&[u8]>,
    out: &mut [u8],
) -> u32 {
    let (present, [clock, altitude, reference]) = lent([clock, altitude, reference]);
    // SAFETY: as above, and `Reception` is laid out as include/mlat_solver.h has it.
    unsafe {
        mlat_solve_receptions(
            receptions.as_ptr(),
            receptions.len(),
            clock.as_ptr(),
            clock.len(),
            altitude.as_ptr(),
            altitude.len(),
            reference.as_ptr(),
            reference.len(),
            present,
            out.as_mut_ptr(),
            out.len(),
        )
    }
}

/// Which of three inputs there are, a bit each, and their bytes.
fn lent(files: [Option<&[u8]>; 3]) -> (u32, [&[u8]; 3]) {
    let [clock, altitude, reference] = files.map(|file| u32::from(file.is_some()));
    (
        clock | altitude << 1 | reference << 2,
        files.map(|file| file.unwrap_or(&[])),
    )
}

/// The 176 bytes of the problem's record, and its answer number: 0 for a fix.
pub fn solve_record(problem: &Problem) -> (u32, [u8; RECORD]) {
    let altitude = problem.altitude.as_ref().map(Reported::to_bytes);
    let mut record = [0; RECORD];
    let answer = solve_receptions(
        problem.receptions,
        problem.clock_m2.map(bytes_of),
        altitude.as_ref().map(<[u8; 16]>::as_slice),
        Some(&problem.reference_ps.to_le_bytes()),
        &mut record,
    );
    (answer, record)
}

/// Where the aircraft was, or why that is not said. [`Refusal::MalformedRecord`] would say that a number of the fix is not
/// finite; no problem is known that has such a fix.
pub fn solve(problem: &Problem) -> Result<Fix, Refusal> {
    read(&solve_record(problem).1)?.fix()
}

/// Numbers as they lie in memory, which is how the files have them: nothing is copied.
fn bytes_of(numbers: &[f64]) -> &[u8] {
    // SAFETY: all bytes of the numbers are there, none is padding, and a byte needs no alignment.
    unsafe { std::slice::from_raw_parts(numbers.as_ptr().cast(), std::mem::size_of_val(numbers)) }
}

#[cfg(not(target_endian = "little"))]
compile_error!("the library is for little-endian machines");
