//! Document 02, item 9: the states of the receptions of a solved problem. The removals are made anew here from document 01's words on the screen; residuals are those of
//! the original at the best fit of the round in which it settled (trace.rs).

use crate::input;
use crate::parts::{bits, number};
use crate::record::SHORT_OUTPUT;
use crate::scene::Files;
use crate::solve::{OUTLIER_Z, Problem, Solution, SolveError, isqrt, solve_problem};
use crate::trace::trace;

/// The least buffer, and the bytes of a state.
pub const LEAST: usize = 640;
pub const LENGTH: usize = 20;

#[derive(Clone, Copy, Debug, PartialEq)]
pub enum State {
    Used(f64),
    Removed { turn: u32, clashes: u32 },
    LeftOut(f64),
}

/// A number and a detail, and the states where the number is 0.
pub struct Told {
    pub number: u32,
    pub detail: u32,
    pub states: Vec<State>,
}

/// "gap × 299,792,458 ≤ (baseline + 1,000,000) × 10^9, baseline the floored root" does not hold of i and j.
fn fails(problem: &Problem, i: usize, j: usize) -> bool {
    let (a, b) = (&problem.items[i], &problem.items[j]);
    let squares = (0..3).map(|axis| i128::from(a.site_mm[axis]).abs_diff(i128::from(b.site_mm[axis])).pow(2));
    let baseline = isqrt(squares.sum()) as i128;
    let gap = (a.time.ps - b.time.ps).abs();
    gap * 299_792_458 > (baseline + 1_000_000) * 1_000_000_000
}

/// "While a pair fails, the reception in most failing pairs goes, lowest index on ties.": who goes, turn by turn, and in how many failing pairs it is then.
pub fn removals(problem: &Problem) -> Vec<(usize, u32)> {
    let n = problem.items.len();
    let mut still = vec![true; n];
    let mut gone = Vec::new();
    loop {
        let pairs = |i: usize| (0..n).filter(|j| *j != i && still[i] && still[*j] && fails(problem, i, *j)).count();
        let mut most = (0, 0);
        for i in 0..n {
            if pairs(i) > most.1 {
                most = (i, pairs(i));
            }
        }
        if most.1 == 0 {
            return gone;
        }
        still[most.0] = false;
        gone.push((most.0, most.1 as u32));
    }
}

fn states(problem: &Problem, solution: &Solution) -> Vec<State> {
    let gone = removals(problem);
    let told = trace(problem);
    let last = told.rounds.last().expect("a fix has a round");
    let state = |i: usize| {
        if let Some(turn) = gone.iter().position(|(who, _)| *who == i) {
            return State::Removed { turn: turn as u32 + 1, clashes: gone[turn].1 };
        }
        let (_, z) = last.residuals.iter().find(|(who, _)| *who == i).expect("a kept reception has a residual");
        let used = solution.used.contains(&solution.considered[i]);
        assert_eq!(used, last.subset.contains(&i), "the round that settled is over the used");
        assert_eq!(used, *z <= OUTLIER_Z, "a left out reception's residual is above 5");
        if used { State::Used(*z) } else { State::LeftOut(*z) }
    };
    (0..problem.items.len()).map(state).collect()
}

pub fn told(files: &Files) -> Told {
    let refused = |number: u32, detail: u32| Told { number, detail, states: Vec::new() };
    let problem = match input::read(files) {
        Ok(scene) => scene.problem(),
        Err((number, detail)) => return refused(number, detail),
    };
    match solve_problem(&problem) {
        Ok(solution) => Told { number: 0, detail: solution.dof, states: states(&problem, &solution) },
        Err(SolveError::TooFew(included)) => refused(1, included as u32),
        Err(error) => refused(number(&error), 0),
    }
}

/// "u32 state (1 used, 2 removed, 3 left out), u32 turn, u32 clash count, f64 residual, zero bytes where a state has none".
pub fn bytes(state: State) -> [u8; LENGTH] {
    let mut all = [0; LENGTH];
    let (kind, z): (u32, Option<f64>) = match state {
        State::Used(z) => (1, Some(z)),
        State::Removed { turn, clashes } => {
            all[4..8].copy_from_slice(&turn.to_le_bytes());
            all[8..12].copy_from_slice(&clashes.to_le_bytes());
            (2, None)
        }
        State::LeftOut(z) => (3, Some(z)),
    };
    all[..4].copy_from_slice(&kind.to_le_bytes());
    if let Some(z) = z {
        all[12..].copy_from_slice(&bits(z).to_le_bytes());
    }
    all
}

/// The answer; the states go into `out` and the detail into `detail`.
pub fn why(files: &Files, out: &mut [u8], detail: &mut u32) -> u32 {
    if out.len() < LEAST {
        return SHORT_OUTPUT;
    }
    let told = told(files);
    *detail = told.detail;
    for (i, state) in told.states.iter().enumerate() {
        out[LENGTH * i..LENGTH * (i + 1)].copy_from_slice(&bytes(*state));
    }
    told.number
}
