//! The port's screen beside `screen` of solve.rs: the same receptions kept, on N sets of 0 to 32 receptions. The turn
//! of each removal and the clash count in that turn, which the Rust does not tell, are compared with a count of all
//! failing pairs before each removal. Built and run by compare/screen.

mod original {
    include!(env!("ORIGINAL"));
}
mod random;

use original::{Item, ModelTime, Problem};
use random::Random;
use std::time::Instant;

extern "C" {
    fn screen_c(times: *const [i64; 32], sites: *const [i64; 96], n: usize) -> u32;
    fn removals_c(
        times: *const [i64; 32],
        sites: *const [i64; 96],
        n: usize,
        turns: *mut [u32; 32],
        clashes: *mut [u32; 32],
    ) -> u32;
}

const LIGHT: i128 = 299_792_458;
const MARGIN: i128 = 1_000_000;
const GIGA: i128 = 1_000_000_000;
const LAST_TIME: i64 = 10_000_000_000_000;
const FAR: i64 = 10_000_000_000;

const KINDS: [&str; 10] = [
    "sound",
    "with outliers",
    "gaps at the limit and 1 ps to either side",
    "gap and baseline in equality, and 1 ps to either side",
    "squares summing to b² - 1, b² and b² + 1, gaps at the limit",
    "over the whole domain",
    "in clusters of time",
    "at one site, gaps at the limit",
    "on ladders of time at one site",
    "in groups that fail with each other",
];

impl Random {
    fn below(&mut self, n: u64) -> u64 {
        (self.next() >> 11) % n
    }
    fn between(&mut self, low: i64, high: i64) -> i64 {
        low + self.below((high - low) as u64 + 1) as i64
    }
    fn sign(&mut self) -> i64 {
        if self.below(2) == 0 { 1 } else { -1 }
    }
}

#[derive(Clone)]
struct Set {
    n: usize,
    times: [i64; 32],
    sites: [i64; 96],
}

impl Set {
    fn site(&self, i: usize) -> [i64; 3] {
        [self.sites[3 * i], self.sites[3 * i + 1], self.sites[3 * i + 2]]
    }
    fn put(&mut self, i: usize, site: [i64; 3]) {
        self.sites[3 * i..3 * i + 3].copy_from_slice(&site);
    }
    /// Sum of the squares of the site differences, by whole numbers.
    fn squared(&self, i: usize, j: usize) -> i128 {
        (0..3).map(|a| (self.sites[3 * i + a] - self.sites[3 * j + a]) as i128).map(|d| d * d).sum()
    }
    /// The greatest gap that passes for receptions i and j.
    fn limit(&self, i: usize, j: usize) -> i64 {
        ((floor_root(self.squared(i, j)) + MARGIN) * GIGA / LIGHT) as i64
    }
    fn problem(&self) -> Problem {
        let item = |i: usize| Item { time: ModelTime { ps: self.times[i] as i128 }, site_mm: self.site(i) };
        Problem { items: (0..self.n).map(item).collect() }
    }
    fn kept(&self) -> u32 {
        unsafe { screen_c(&self.times, &self.sites, self.n) }
    }
    fn removals(&self) -> Removals {
        let mut all = Removals { kept: 0, turns: [9; 32], clashes: [9; 32] };
        all.kept = unsafe { removals_c(&self.times, &self.sites, self.n, &mut all.turns, &mut all.clashes) };
        all
    }
}

/// Those kept, and of each other reception the turn of its removal, from 1, and its clash count then; 0 without one.
#[derive(PartialEq)]
struct Removals {
    kept: u32,
    turns: [u32; 32],
    clashes: [u32; 32],
}

/// "While a pair fails, the reception in most failing pairs goes, lowest index on ties", all pairs counted each time.
fn recounted(set: &Set, failing: &[[bool; 32]; 32]) -> Removals {
    let mut inside: Vec<usize> = (0..set.n).collect();
    let mut all = Removals { kept: 0, turns: [0; 32], clashes: [0; 32] };
    for turn in 1.. {
        let count = |i: usize| inside.iter().filter(|j| failing[i][**j]).count();
        let most = inside.iter().map(|i| count(*i)).max().unwrap_or(0);
        if most == 0 {
            break;
        }
        let goes = inside.iter().copied().find(|i| count(*i) == most).expect("one has most");
        all.turns[goes] = turn;
        all.clashes[goes] = most as u32;
        inside.retain(|i| *i != goes);
    }
    all.kept = inside.iter().fold(0, |mask, i| mask | 1 << i);
    all
}

/// By bisection, so that nothing here shares its way with either side.
fn floor_root(value: i128) -> i128 {
    let (mut low, mut high) = (0i128, 1i128 << 40);
    while high - low > 1 {
        let middle = (low + high) / 2;
        if middle * middle <= value { low = middle } else { high = middle }
    }
    low
}

/// `from` moved by `by`, up or down, whichever stays within the ends, or any place there.
fn moved(random: &mut Random, from: i64, by: i64, low: i64, high: i64) -> i64 {
    let sign = random.sign();
    [from + sign * by, from - sign * by].into_iter().find(|to| (low..=high).contains(to)).unwrap_or_else(|| random.between(low, high))
}

fn near(random: &mut Random) -> [i64; 3] {
    let place = [3_900_000_000, 500_000_000, 5_000_000_000];
    place.map(|c: i64| c + random.between(-300_000_000, 300_000_000))
}

fn sound(random: &mut Random, set: &mut Set) {
    let source = near(random);
    let start = random.between(1_000_000_000_000, 9_000_000_000_000);
    for i in 0..set.n {
        let site = near(random);
        set.put(i, site);
        let away: f64 = (0..3).map(|a| ((site[a] - source[a]) as f64).powi(2)).sum::<f64>().sqrt();
        set.times[i] = start + (away / 0.299_792_458) as i64 + random.between(-100_000, 100_000);
    }
}

/// Reception i at the limit of its pair with an earlier one, or 1 ps to either side.
fn at_limit(random: &mut Random, set: &mut Set, i: usize, j: usize) {
    let by = set.limit(i, j) + random.between(-1, 1);
    set.times[i] = moved(random, set.times[j], by, 0, LAST_TIME);
}

fn made(random: &mut Random, kind: usize) -> Set {
    let mut set = Set { n: random.below(33) as usize, times: [0; 32], sites: [0; 96] };
    match kind {
        0 => sound(random, &mut set),
        1 => {
            sound(random, &mut set);
            for i in 0..set.n {
                if random.below(4) == 0 {
                    set.times[i] += random.sign() * random.between(1_000_000, 10_000_000_000);
                }
            }
        }
        6 => {
            sound(random, &mut set);
            let clusters = 2 + random.below(4) as i64;
            for i in 0..set.n {
                set.times[i] = 5_000_000_000_000 + random.between(0, clusters - 1) * 20_000_000_000 + random.between(0, 3_000_000_000);
            }
        }
        8 => {
            // one site allows 3,335,640 ps: each fails with those that are more rungs away
            let step = random.between(200_000, 3_500_000);
            let rungs = 1 + random.below(40) as i64;
            for i in 0..set.n {
                set.times[i] = 5_000_000_000_000 + step * random.between(0, rungs);
            }
        }
        9 => {
            // one group is left, whole
            let groups = 1 + random.below(set.n as u64 + 1) as i64;
            for i in 0..set.n {
                set.times[i] = 5_000_000_000_000 + 10_000_000 * random.between(1, groups);
            }
        }
        5 => {
            set.times.iter_mut().for_each(|t| *t = random.between(0, LAST_TIME));
            set.sites.iter_mut().for_each(|c| *c = random.between(-FAR, FAR));
        }
        _ => {
            for i in 0..set.n {
                let anchor = near(random);
                set.put(i, anchor);
                set.times[i] = random.between(0, LAST_TIME);
                if i == 0 {
                    continue;
                }
                let j = random.below(i as u64) as usize;
                match kind {
                    2 => at_limit(random, &mut set, i, j),
                    3 => {
                        // 299,792,458 and 10^9 share a 2: these are the gaps of equality
                        let k = random.between(1, 66);
                        let mut site = set.site(j);
                        let axis = random.below(3) as usize;
                        site[axis] = moved(random, site[axis], 149_896_229 * k - 1_000_000, -FAR, FAR);
                        set.put(i, site);
                        let by = 500_000_000 * k + random.between(-1, 1);
                        set.times[i] = moved(random, set.times[j], by, 0, LAST_TIME);
                    }
                    4 => {
                        let high = 1 << (1 + random.below(16));
                        let (p, q) = (random.between(0, high), random.between(0, high));
                        let near_square = match random.below(3) {
                            0 if (p + q) % 2 == 0 => [(p * p + q * q) / 2, p, q], // b² - 1, of b = (p² + q²) / 2 + 1
                            1 if (p + q) % 2 == 1 => [(p * p + q * q - 1) / 2, p, q], // b², of b = (p² + q² + 1) / 2
                            _ => [random.between(0, FAR), 1, 0],                   // b² + 1
                        };
                        let turn = random.below(3) as usize;
                        let from = set.site(j);
                        let mut site = from;
                        for a in 0..3 {
                            site[a] = moved(random, from[a], near_square[(a + turn) % 3], -FAR, FAR);
                        }
                        set.put(i, site);
                        at_limit(random, &mut set, i, j);
                    }
                    _ => {
                        let first = set.site(0);
                        set.put(i, first);
                        at_limit(random, &mut set, i, j);
                    }
                }
            }
        }
    }
    set
}

#[derive(Default, Clone, Copy)]
struct Tally {
    sets: u64,
    screened: u64,
    removed: u64,
    pairs: [u64; 3],
    equal: u64,
    failing: u64,
}

/// Which pairs of a set fail, and into the tally how its pairs lie: 1 ps below the limit, at it, and 1 ps above; in
/// exact equality; failing.
fn weigh(set: &Set, tally: &mut Tally) -> [[bool; 32]; 32] {
    let mut failing = [[false; 32]; 32];
    for i in 0..set.n {
        for j in 0..i {
            let gap = (set.times[i] - set.times[j]).abs();
            let baseline = floor_root(set.squared(i, j));
            let limit = ((baseline + MARGIN) * GIGA / LIGHT) as i64;
            if (gap - limit).abs() <= 1 {
                tally.pairs[(gap - limit + 1) as usize] += 1;
            }
            tally.equal += (gap as i128 * LIGHT == (baseline + MARGIN) * GIGA) as u64;
            tally.failing += (gap > limit) as u64;
            failing[i][j] = gap > limit;
            failing[j][i] = gap > limit;
        }
    }
    failing
}

fn compare(count: u64) -> u64 {
    let mut random = Random(0x9e37_79b9_7f4a_7c15);
    let mut tallies = [Tally::default(); KINDS.len()];
    let mut differences = 0;
    for k in 0..count {
        let kind = k as usize % KINDS.len();
        let set = made(&mut random, kind);
        let theirs = set.problem().screen().into_iter().fold(0u32, |mask, i| mask | 1 << i);
        let ours = set.kept();
        let tally = &mut tallies[kind];
        let failing = weigh(&set, tally);
        if ours != theirs || set.removals() != recounted(&set, &failing) {
            differences += 1;
            if differences <= 5 {
                println!("{}: {} receptions: port {ours:08x}, Rust {theirs:08x}; times {:?}, sites {:?}", KINDS[kind], set.n, set.times, set.sites);
            }
        }
        tally.sets += 1;
        let gone = set.n as u32 - theirs.count_ones();
        tally.screened += (gone > 0) as u64;
        tally.removed += gone as u64;
    }
    println!("{:>9} {:>9} {:>9}   {:>9} {:>9} {:>9} {:>9} {:>9}", "", "", "", "pairs", "", "", "", "");
    println!("{:>9} {:>9} {:>9}   {:>9} {:>9} {:>9} {:>9} {:>9}", "sets", "screened", "removed", "1 below", "at limit", "1 above", "equal", "failing");
    for (name, t) in KINDS.iter().zip(&tallies) {
        println!("{:>9} {:>9} {:>9}   {:>9} {:>9} {:>9} {:>9} {:>9}  {name}", t.sets, t.screened, t.removed, t.pairs[0], t.pairs[1], t.pairs[2], t.equal, t.failing);
    }
    println!("{count} sets, {differences} differences");
    differences
}

/// Nanoseconds a set, both sides on the same sets, in turns, the least of 60 runs each.
fn time(kind: usize, n: usize) {
    let mut random = Random(88_172_645_463_325_252);
    let mut sets = Vec::new();
    while sets.len() < 200 {
        let mut set = made(&mut random, kind);
        if set.n >= n {
            set.n = n;
            sets.push(set);
        }
    }
    let problems: Vec<Problem> = sets.iter().map(Set::problem).collect();
    let took = |run: &dyn Fn() -> u32| {
        let start = Instant::now();
        std::hint::black_box(run());
        start.elapsed().as_nanos() as f64 / sets.len() as f64
    };
    let (mut ours, mut theirs) = (f64::INFINITY, f64::INFINITY);
    for _ in 0..60 {
        ours = ours.min(took(&|| sets.iter().fold(0, |sum, set| sum ^ set.kept())));
        theirs = theirs.min(took(&|| problems.iter().fold(0, |sum, p| sum ^ p.screen().len() as u32)));
    }
    println!("n = {n:>2}, {}: port {ours:.0} ns, Rust {theirs:.0} ns, ratio {:.2}", KINDS[kind], ours / theirs);
}

fn main() {
    let count = std::env::args().nth(1).map_or(2_000_000, |n| n.parse().expect("N is a number"));
    let differences = compare(count);
    for kind in [0, 1, 5, 8] {
        for n in [4, 8, 16, 32] {
            time(kind, n);
        }
    }
    std::process::exit((differences > 0) as i32);
}
