use crate::{lent, Problem, Reception, Refusal, Reported};

/// The length of a state in a buffer.
pub const STATE: usize = 20;
/// The least buffer: it has room for 32 states.
pub const STATES: usize = 640;

/// What a reception is to the fix of its problem.
#[derive(Clone, Copy, Debug, PartialEq)]
pub enum State {
    /// Used, with its normalised residual: at most 5.
    Used {
        /// In standard deviations.
        residual: f64,
    },
    /// Removed by the screen, in this turn, from 1, in which it was in so many failing pairs.
    Removed {
        /// The turn of the screen, from 1.
        turn: u32,
        /// The failing pairs that it had in that turn.
        clashes: u32,
    },
    /// Kept by the screen and left out of the fix, with a normalised residual above 5.
    LeftOut {
        /// In standard deviations.
        residual: f64,
    },
}

impl State {
    /// That of 20 bytes which [`why_bytes`] wrote: their number is 1, 2 or 3.
    pub fn from_bytes(bytes: &[u8; STATE]) -> Self {
        let word = |at: usize| u32::from_le_bytes(bytes[at..at + 4].try_into().expect("four bytes"));
        let residual = f64::from_le_bytes(bytes[12..].try_into().expect("eight bytes"));
        match word(0) {
            1 => State::Used { residual },
            2 => State::Removed {
                turn: word(4),
                clashes: word(8),
            },
            _ => State::LeftOut { residual },
        }
    }
}

extern "C" {
    #[rustfmt::skip]
    fn mlat_why(
        receptions: *const u8,
        receptions_len: usize,
        clock: *const u8,
        clock_len: usize,
        altitude: *const u8,
        altitude_len: usize,
        reference: *const u8,
        reference_len: usize,
        present: u32,
        states: *mut u8,
        states_len: usize,
        detail: &mut u32,
    ) -> u32;
}

/// The solve of [`crate::solve_bytes`] on the same bytes, with the states of its receptions written to the start of
/// `states`, 20 bytes each. Returns the answer number, and for every one but 14, which is for a buffer under 640 bytes,
/// the record's detail in `detail`. A refusal leaves `states` as it is.
pub fn why_bytes(
    receptions: &[u8],
    clock: Option<&[u8]>,
    altitude: Option<&[u8]>,
    reference: Option<&[u8]>,
    states: &mut [u8],
    detail: &mut u32,
) -> u32 {
    let (present, [clock, altitude, reference]) = lent([clock, altitude, reference]);
    // SAFETY: each pointer is lent with its length, the buffer is apart from the inputs, and the call keeps none of them.
    unsafe {
        mlat_why(
            receptions.as_ptr(),
            receptions.len(),
            clock.as_ptr(),
            clock.len(),
            altitude.as_ptr(),
            altitude.len(),
            reference.as_ptr(),
            reference.len(),
            present,
            states.as_mut_ptr(),
            states.len(),
            detail,
        )
    }
}

/// The state of every reception of a problem, in the order in which they are given; or why the problem has no fix.
pub fn why(problem: &Problem) -> Result<Vec<State>, Refusal> {
    let receptions: Vec<u8> = problem.receptions.iter().flat_map(Reception::to_bytes).collect();
    let clock: Option<Vec<u8>> = problem
        .clock_m2
        .map(|entries| entries.iter().flat_map(|entry| entry.to_le_bytes()).collect());
    let altitude = problem.altitude.as_ref().map(Reported::to_bytes);
    let (mut states, mut detail) = ([0; STATES], 0);
    let number = why_bytes(
        &receptions,
        clock.as_deref(),
        altitude.as_ref().map(<[u8; 16]>::as_slice),
        Some(&problem.reference_ps.to_le_bytes()),
        &mut states,
        &mut detail,
    );
    match Refusal::of(number, detail) {
        Some(refusal) => Err(refusal),
        None => Ok(states
            .chunks_exact(STATE)
            .take(problem.receptions.len())
            .map(|bytes| State::from_bytes(bytes.try_into().expect("20 bytes")))
            .collect()),
    }
}
