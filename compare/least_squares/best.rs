//! `plausible` and `best_fit`, port and Rust: the starts that solve.rs gives a round, the first and a later one, and others.

use crate::{Tally, other, port};
use oracle::geo;
use oracle::linalg::{norm, sub};
use oracle::parts::{self, Arrays, Chosen, Fitted};
use oracle::random::Random;
use oracle::sky;
use oracle::solve::{MAX_HEIGHT_M, MAX_RANGE_M, MIN_HEIGHT_M, Params, Problem};

/// Most starts of a round: the last round's, the centroid and the ring.
const MOST: usize = 18;
/// One problem in so many has places at the limits, and as many a list of starts of no round.
const SOME: usize = 4;
const NOTHING: Fitted = Fitted { params: [0.0; 4], cost: 0.0, information: [0.0; 16] };

/// What a round before this one found: its receptions are those of this one and one more, or all but one. None where it found nothing.
fn last_round(random: &mut Random, problem: &Problem, subset: &[usize]) -> Option<Params> {
    let changed = random.below(problem.items.len());
    let before: Vec<usize> = (0..problem.items.len()).filter(|i| subset.contains(i) != (*i == changed)).collect();
    if before.is_empty() {
        return None;
    }
    parts::best_fit(problem, &before, &parts::starts(problem, &before, None)).ok().map(|fit| fit.params)
}

/// Places at the limits of height, and on either side of the limit of range.
fn limits(random: &mut Random, chosen: &Chosen) -> Vec<Params> {
    let site = |i: usize| [chosen.sites[3 * i], chosen.sites[3 * i + 1], chosen.sites[3 * i + 2]];
    let centre = geo::from_ecef(site(random.below(chosen.k)));
    let (east, north) = (random.within(1.0), random.within(1.0));
    let farthest = |x: [f64; 3]| (0..chosen.k).map(|i| norm(sub(x, site(i)))).fold(0.0, f64::max);
    let at = |metres: f64, height: f64| sky::beside(centre, metres * east, metres * north, height);
    let mut places = Vec::new();
    for limit in [MIN_HEIGHT_M, MAX_HEIGHT_M] {
        places.extend([-1e-9, 0.0, 1e-9].map(|by| at(random.between(0.0, 100_000.0), limit + by)));
    }
    let height = random.between(-1_000.0, 20_000.0);
    let (mut near, mut far) = (0.0, 4_000_000.0);
    for _ in 0..60 {
        let middle = 0.5 * (near + far);
        if farthest(at(middle, height)) <= MAX_RANGE_M {
            near = middle;
        } else {
            far = middle;
        }
    }
    places.extend([at(near, height), at(far, height)]);
    places.iter().map(|[x, y, z]| [*x, *y, *z, 0.0]).collect()
}

impl Tally {
    fn plausible(&mut self, at: u64, problem: &Problem, chosen: &Chosen, subset: &[usize], params: &Params) {
        let rust = parts::plausible(problem, subset, params);
        self.plausible[usize::from(rust)] += 1;
        self.verdict("plausible", at, unsafe { port::fit_plausible(&chosen.sites, chosen.k, params) }, rust);
    }

    fn best_fit(&mut self, at: u64, problem: &Problem, arrays: &Arrays, chosen: &Chosen, subset: &[usize], starts: &[Params]) {
        let rust = parts::best_fit(problem, subset, starts);
        let (number, fit) = port::best_fit(arrays, chosen, &port::list(starts), starts.len());
        let wanted = rust.as_ref().err().copied().unwrap_or(0);
        self.answers[wanted as usize] += 1;
        self.number("answer of best_fit", at, f64::from(number), f64::from(wanted));
        let best = rust.unwrap_or(NOTHING);
        self.array("params of best_fit", at, &fit.params, &best.params);
        self.number("cost of best_fit", at, fit.cost, best.cost);
        self.array("information of best_fit", at, &fit.information, &best.information);
        if wanted == 0 {
            self.plausible(at, problem, chosen, subset, &best.params);
        }
    }

    pub fn best(&mut self, at: u64, random: &mut Random, problem: &Problem, arrays: &Arrays, chosen: &Chosen, subset: &[usize]) {
        let own = parts::starts(problem, subset, None);
        let near = own[random.below(own.len())];
        self.best_fit(at, problem, arrays, chosen, subset, &own);
        let last = last_round(random, problem, subset);
        self.last_rounds += u64::from(last.is_some());
        let previous = last.unwrap_or_else(|| other(random, near, chosen));
        let later = parts::starts(problem, subset, Some(previous));
        self.best_fit(at, problem, arrays, chosen, subset, &later);
        for params in &later {
            self.plausible(at, problem, chosen, subset, params);
        }
        if random.one_in(SOME) {
            let others: Vec<Params> = (0..random.below(MOST + 1)).map(|_| other(random, near, chosen)).collect();
            self.best_fit(at, problem, arrays, chosen, subset, &others);
        }
        if random.one_in(SOME) {
            for params in limits(random, chosen).iter().chain([&other(random, near, chosen)]) {
                self.plausible(at, problem, chosen, subset, params);
            }
        }
    }
}
