//! What the rounds of a problem did, told by running solve.rs's own parts round by round: for choosing problems and for counting. No record comes from it.

use crate::parts::number;
use crate::solve::{Fit, OUTLIER_Z, Params, Problem};

#[derive(Clone, Copy, Debug, PartialEq, Eq)]
pub enum Change {
    Removal(usize),
    Return(usize),
}

pub struct Round {
    pub subset: Vec<usize>,
    pub starts: Vec<Params>,
    pub fit: Result<Fit, u32>,
    /// The normalised residual of each kept reception.
    pub residuals: Vec<(usize, f64)>,
    pub change: Option<Change>,
}

pub struct Trace {
    pub kept: Vec<usize>,
    pub rounds: Vec<Round>,
}

impl Trace {
    pub fn changes(&self) -> impl Iterator<Item = Change> + '_ {
        self.rounds.iter().filter_map(|round| round.change)
    }

    /// How many rounds made a change, where the one after them settled.
    pub fn settled_after(&self) -> Option<usize> {
        let last = self.rounds.last()?;
        (last.fit.is_ok() && last.change.is_none() && last.residuals.iter().all(|(_, x)| !x.is_nan())).then(|| self.rounds.len() - 1)
    }

    pub fn returns(&self) -> usize {
        self.changes().filter(|change| matches!(change, Change::Return(_))).count()
    }
}

/// The first of those that `better` puts before all others.
fn first(among: impl Iterator<Item = (usize, f64)>, better: fn(f64, f64) -> bool) -> Option<usize> {
    among.fold(None, |best: Option<(usize, f64)>, (i, x)| match best {
        Some((_, top)) if !better(x, top) => best,
        _ => Some((i, x)),
    })
    .map(|(i, _)| i)
}

pub fn trace(problem: &Problem) -> Trace {
    let kept = problem.screen();
    let most = 2 * kept.len() + 2;
    rounds_of(problem, kept, most)
}

/// The same, had the rounds no end: of at most `most`.
pub fn longer(problem: &Problem, most: usize) -> Trace {
    rounds_of(problem, problem.screen(), most)
}

fn rounds_of(problem: &Problem, kept: Vec<usize>, most: usize) -> Trace {
    let mut included = kept.clone();
    let mut previous: Option<Params> = None;
    let mut rounds: Vec<Round> = Vec::new();
    while rounds.len() < most && included.len() >= problem.minimum() {
        let round = round(problem, &kept, &included, previous);
        match round.change {
            Some(Change::Removal(i)) => included.retain(|j| *j != i),
            Some(Change::Return(i)) => {
                included.push(i);
                included.sort_unstable();
            }
            None => {
                rounds.push(round);
                break;
            }
        }
        previous = round.fit.as_ref().ok().map(|fit| fit.params);
        rounds.push(round);
    }
    Trace { kept, rounds }
}

fn round(problem: &Problem, kept: &[usize], included: &[usize], previous: Option<Params>) -> Round {
    let starts: Vec<Params> = previous.into_iter().chain(problem.starts(included)).collect();
    let fit = problem.best_fit(included, &starts).map_err(|error| number(&error));
    let mut residuals = Vec::new();
    let mut change = None;
    if let Ok(fit) = &fit {
        residuals = kept.iter().map(|i| (*i, problem.residual(*i, &fit.params).abs() / problem.sigma(*i))).collect();
        if !residuals.iter().any(|(_, x)| x.is_nan()) {
            let inside = |i: &usize| included.contains(i);
            let worst = first(residuals.iter().copied().filter(|(i, x)| inside(i) && *x > OUTLIER_Z), |x, top| x > top);
            let least = first(residuals.iter().copied().filter(|(i, x)| !inside(i) && *x <= OUTLIER_Z), |x, top| x < top);
            change = worst.map(Change::Removal).or(least.map(Change::Return));
        }
    }
    Round { subset: included.to_vec(), starts, fit, residuals, change }
}
