//! numbers_recording OUT: calls of roots, rounding, geodesy, the claims of a fix and the cut of a problem's lengths with what the original and this Rust give, in the form
//! that crates/replay_numbers/RECORDING.md states. Everything comes from a seed.

use oracle::geo::{self, Geodetic};
use oracle::parts::bits;
use oracle::random::Random;
use oracle::sky;
use oracle::solve::{Solution, chi2_limit, solve_problem};

const SEED: u64 = 12;

#[derive(Default)]
struct Recording {
    bytes: Vec<u8>,
    calls: [usize; 11],
}

impl Recording {
    /// The function's number, up to twelve words that it takes, and up to nine that it gives.
    fn call(&mut self, function: usize, given: &[u64], results: &[u64]) {
        let mut all = [0u64; 22];
        all[0] = function as u64;
        all[1..1 + given.len()].copy_from_slice(given);
        all[13..13 + results.len()].copy_from_slice(results);
        all.iter().for_each(|word| self.bytes.extend(word.to_le_bytes()));
        self.calls[function] += 1;
    }

    fn numbers(&mut self, x: f64) {
        self.call(0, &[bits(x)], &[bits(x.sqrt())]);
        self.call(1, &[bits(x)], &[bits(x.round())]);
    }

    fn place(&mut self, x: [f64; 3]) {
        self.call(2, &x.map(bits), &geo::to_mm(x).map(|mm| mm as u64));
        let Geodetic { lat_deg, lon_deg, height_m } = geo::from_ecef(x);
        self.call(4, &x.map(bits), &[lat_deg, lon_deg, height_m].map(bits));
    }

    fn position(&mut self, at: Geodetic) {
        let given = [at.lat_deg, at.lon_deg, at.height_m].map(bits);
        self.call(3, &given, &geo::to_ecef(at).map(bits));
        let basis: Vec<u64> = geo::enu_basis(at.lat_deg, at.lon_deg).iter().flatten().map(|x| bits(*x)).collect();
        self.call(6, &given, &basis);
    }

    fn millimetres(&mut self, mm: [i64; 3]) {
        self.call(5, &mm.map(|mm| mm as u64), &geo::from_mm(mm).map(bits));
    }

    fn lengths(&mut self, lengths: [u32; 4]) {
        let [receptions, clock, altitude, reference] = lengths;
        let cut = [enough_receptions(receptions), enough(clock, 8 * 32 * 32), enough(altitude, 16), enough(reference, 8)];
        self.call(10, &lengths.map(u64::from), &cut.map(u64::from));
    }

    fn claims(&mut self, position: Geodetic, covariance: [[f64; 3]; 3], like: &Solution) {
        let solution = Solution { position, covariance, ..like.clone() };
        let mut given = [position.lat_deg, position.lon_deg, position.height_m].map(bits).to_vec();
        given.extend(covariance.iter().flatten().map(|x| bits(*x)));
        let enu: Vec<u64> = solution.enu_covariance().iter().flatten().map(|x| bits(*x)).collect();
        self.call(7, &given, &enu);
        self.call(8, &given, &[bits(solution.horizontal_sigma_m())]);
    }
}

/// Of an input of a stream's problem, how much decides its answer: one byte more than the longest that is taken. The mark of an absent one stays.
fn enough(length: u32, longest: u32) -> u32 {
    if length == u32::MAX { length } else { length.min(longest + 1) }
}

/// Of receptions, which have 132 bytes each: 33, one too many; and one byte fewer where the last of all is torn.
fn enough_receptions(length: u32) -> u32 {
    let whole = length % 132 == 0;
    match length {
        u32::MAX => length,
        0..=4_355 => length,
        _ if whole => 33 * 132,
        _ => 33 * 132 - 1,
    }
}

/// A length at or about an end, of some bytes, or any; and the mark.
fn length(random: &mut Random, ends: &[u32]) -> u32 {
    match random.below(6) {
        0 => random.below(20_000) as u32,
        1 => random.bits() as u32,
        2 => random.of(&[0, 1, 1 << 31, u32::MAX - 3, u32::MAX - 2, u32::MAX - 1, u32::MAX]),
        _ => random.of(ends),
    }
}

/// Numbers at and about ends, halves and squares, and of any bits.
fn number(random: &mut Random) -> f64 {
    let whole = random.whole(-1_000_000, 1_000_000) as f64;
    let beside = |x: f64, by: i64| f64::from_bits((x.to_bits() as i64).wrapping_add(by) as u64);
    let by = random.whole(-1, 1);
    match random.below(6) {
        0 => random.of(&[0.0, -0.0, 0.5, -0.5, 1.5, 2.5, -2.5, 5e-324, f64::MIN_POSITIVE, f64::MAX, f64::INFINITY, f64::NEG_INFINITY, f64::NAN]),
        1 => beside(whole + 0.5, by),
        2 => beside(whole * whole, by),
        3 => beside(random.of(&[4_503_599_627_370_496.0, 9_007_199_254_740_992.0, 2_251_799_813_685_248.0]), random.whole(-2, 2)),
        4 => f64::from_bits(random.bits()),
        _ => random.decades(-12, 12) * random.of(&[1.0, -1.0]),
    }
}

/// A place on the earth, near it, on an axis, or anywhere.
fn place(random: &mut Random) -> [f64; 3] {
    match random.below(5) {
        0 => [0; 3].map(|_: i64| random.of(&[0.0, -0.0, 6_378_137.0, -6_356_752.0, 1e-9, 1e300, f64::INFINITY, f64::NAN])),
        1 => [0; 3].map(|_: i64| random.whole(-20_000_000_000, 20_000_000_000) as f64 / 2_000.0),
        2 => [0; 3].map(|_: i64| number(random)),
        _ => geo::to_ecef(Geodetic { height_m: random.between(-2_000.0, 30_000.0), ..sky::place(random) }),
    }
}

fn position(random: &mut Random) -> Geodetic {
    let mut at = Geodetic { height_m: random.between(-2_000.0, 30_000.0), ..sky::place(random) };
    if random.one_in(6) {
        at = Geodetic { lat_deg: number(random), lon_deg: random.within(400.0), height_m: number(random) };
    }
    at
}

/// A covariance of a fix, with any entries, of a diagonal alone, or with numbers at the ends.
fn covariance(random: &mut Random, like: &Solution) -> [[f64; 3]; 3] {
    let mut all = like.covariance;
    match random.below(5) {
        0 => all.iter_mut().flatten().for_each(|x| *x = random.within(1e4)),
        1 => all = [0, 1, 2].map(|i| [0, 1, 2].map(|j| if i == j { random.of(&[0.0, -0.0, 1.0, 25.0, 1e6]) } else { 0.0 })),
        2 => all.iter_mut().flatten().for_each(|x| *x = number(random)),
        _ => {}
    }
    all
}

/// The solution of a sound problem.
fn solved(random: &mut Random) -> Solution {
    loop {
        let n = 5 + random.below(5);
        if let Ok(solution) = solve_problem(&sky::sound(random, n, true).scene.problem()) {
            return solution;
        }
    }
}

fn main() {
    let out = std::env::args().nth(1).expect("numbers_recording OUT");
    let random = &mut Random::new(SEED);
    let mut recording = Recording::default();
    for _ in 0..200 {
        recording.numbers(number(random));
        recording.place(place(random));
        recording.position(position(random));
        let like = solved(random);
        recording.claims(like.position, like.covariance, &like);
        let (at, all) = (position(random), covariance(random, &like));
        recording.claims(at, all, &like);
    }
    for _ in 0..100 {
        let most = random.of(&[1 << 62, 10_000_000_000, 1 << 54]);
        recording.millimetres([0; 3].map(|_: i64| if random.one_in(9) { random.of(&[i64::MIN, i64::MAX, 0, -1]) } else { random.whole(-most, most) }));
    }
    for dof in (0..=40).chain([100, 1_000, 65_535, 1 << 24, u32::MAX - 1, u32::MAX]) {
        recording.call(9, &[u64::from(dof)], &[bits(chi2_limit(dof))]);
    }
    let receptions = [131, 132, 133, 4_223, 4_224, 4_225, 4_354, 4_355, 4_356, 4_357, 4_487, 4_488, 4_489, 132_000, 132_001];
    for _ in 0..200 {
        recording.lengths([
            length(random, &receptions),
            length(random, &[8, 8_191, 8_192, 8_193, 8_194]),
            length(random, &[15, 16, 17, 18]),
            length(random, &[7, 8, 9, 10]),
        ]);
    }
    std::fs::write(&out, &recording.bytes).expect("the recording is writable");
    println!("{} calls, {} bytes; by function: {:?}", recording.calls.iter().sum::<usize>(), recording.bytes.len(), recording.calls);
}
