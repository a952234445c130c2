//! The port's chi-square limits and covariances beside those of solve.rs: equal bits on N arguments for each function, all not-a-numbers counted as
//! one value; the one difference that is listed; and the times of both. Built and run by compare/limits.

mod random;

use original::geo::Geodetic;
use original::linalg::Matrix;
use original::solve;
use random::Random;
use std::time::Instant;

extern "C" {
    fn mlat_chi2_limit(dof: u32) -> f64;
    fn mlat_enu_covariance(position: *const [f64; 3], covariance: *const [f64; 9], enu: *mut [f64; 9]);
    fn mlat_horizontal_sigma_m(position: *const [f64; 3], covariance: *const [f64; 9]) -> f64;
    fn rounding_norm_c(a: *const [f64; 33], b: *const [f64; 33], c: *const [f64; 33], d: *const [f64; 33], rows: usize) -> f64;
    fn published_chi2_limit_c(dof: u32, rounding: f64) -> f64;
    fn published_c(inverse: *const [f64; 16], covariance: *mut [f64; 9]);
}

/// Arguments for any of the functions: each takes what it needs of them.
struct Input {
    dof: u32,
    rows: usize,
    position: [f64; 3],
    numbers: [f64; 132],
}

impl Input {
    fn first<const N: usize>(&self) -> [f64; N] {
        self.numbers[..N].try_into().unwrap()
    }
    fn column(&self, k: usize) -> [f64; 33] {
        self.numbers[33 * k..33 * k + 33].try_into().unwrap()
    }
    fn place(&self) -> Geodetic {
        let [lat_deg, lon_deg, height_m] = self.position;
        Geodetic { lat_deg, lon_deg, height_m }
    }
    fn solution(&self) -> solve::Solution {
        solve::Solution { position: self.place(), covariance: rows(self.first()) }
    }
}

fn rows(c: [f64; 9]) -> [[f64; 3]; 3] {
    [[c[0], c[1], c[2]], [c[3], c[4], c[5]], [c[6], c[7], c[8]]]
}

fn bits(x: f64) -> u64 {
    if x.is_nan() { 0x7ff8_0000_0000_0000 } else { x.to_bits() }
}

fn one(x: f64) -> [u64; 9] {
    [bits(x), 0, 0, 0, 0, 0, 0, 0, 0]
}

fn nine(c: [[f64; 3]; 3]) -> [u64; 9] {
    let mut all = [0; 9];
    c.iter().flatten().zip(&mut all).for_each(|(&x, word)| *word = bits(x));
    all
}

/// One function on both sides.
struct Pair {
    name: &'static str,
    open: bool,
    ours: fn(&Input) -> [u64; 9],
    theirs: fn(&Input) -> [u64; 9],
}

const PAIRS: [Pair; 6] = [
    Pair {
        name: "chi2_limit",
        open: true,
        ours: |input| one(unsafe { mlat_chi2_limit(input.dof) }),
        theirs: |input| one(solve::chi2_limit(input.dof)),
    },
    Pair {
        name: "rounding_norm",
        open: false,
        ours: |input| one(unsafe { rounding_norm_c(&input.column(0), &input.column(1), &input.column(2), &input.column(3), input.rows) }),
        theirs: |input| {
            let row = |k: usize| [0, 1, 2, 3].map(|c| input.numbers[33 * c + k]);
            one(solve::rounding_norm(&(0..input.rows).map(row).collect::<Vec<_>>()))
        },
    },
    Pair {
        name: "published_chi2_limit",
        open: false,
        ours: |input| one(unsafe { published_chi2_limit_c(input.dof, input.numbers[0]) }),
        theirs: |input| one(solve::published_chi2_limit(input.dof, input.numbers[0])),
    },
    Pair {
        name: "published",
        open: false,
        ours: |input| {
            let mut covariance = [0.0; 9];
            unsafe { published_c(&input.first(), &mut covariance) };
            covariance.map(bits)
        },
        theirs: |input| {
            let mut inverse = Matrix::zeros(4);
            (0..16).for_each(|k| inverse.set(k / 4, k % 4, input.numbers[k]));
            nine(solve::published(&inverse))
        },
    },
    Pair {
        name: "enu_covariance",
        open: true,
        ours: |input| {
            let mut enu = [0.0; 9];
            unsafe { mlat_enu_covariance(&input.position, &input.first(), &mut enu) };
            enu.map(bits)
        },
        theirs: |input| nine(input.solution().enu_covariance()),
    },
    Pair {
        name: "horizontal_sigma_m",
        open: true,
        ours: |input| one(unsafe { mlat_horizontal_sigma_m(&input.position, &input.first()) }),
        theirs: |input| one(input.solution().horizontal_sigma_m()),
    },
];

impl Random {
    fn edge(&mut self) -> f64 {
        let edge = EDGES[(self.next() >> 8) as usize % EDGES.len()];
        if self.next() >> 63 == 0 { edge } else { -edge }
    }
}

/// Zeros, the ends of the subnormals and of the finite, the rounding's own sizes, angles about ±7 radians, infinity, not-a-number.
const EDGES: [f64; 18] = [
    0.0,
    5e-324,
    1e-323,
    2.225073858507201e-308,
    2.2250738585072014e-308,
    1e-160,
    1e-6,
    0.007901,
    1.0,
    25.0,
    90.0,
    180.0,
    401.0704565915762,
    401.07045659157625,
    1e154,
    1.7976931348623157e308,
    f64::INFINITY,
    f64::NAN,
];

const KINDS: [&str; 6] = ["of a fix", "subnormals at quarter turns", "edges", "edges among zeros", "one size", "any bits"];

/// The k-th input; its kind is k modulo the number of kinds.
fn input(random: &mut Random, k: u64) -> Input {
    let kind = (k % KINDS.len() as u64) as usize;
    // in turn, of any number of digits, or any
    let dof = match kind {
        0 => (k / KINDS.len() as u64) as u32,
        5 => (random.next() >> 32) as u32,
        _ => ((random.next() >> 32) as u32).checked_shr((random.next() >> 40) as u32 % 33).unwrap_or(0),
    };
    let rows = (random.next() >> 8) as usize % 34;
    let size = f64::from_bits(random.next() % 0x7ff0_0000_0000_0000);
    let mut number = || match kind {
        0 => random.within(-1e4, 1e4),
        1 => f64::from_bits((random.next() >> 8) % 5 | random.next() & 1 << 63),
        2 => random.edge(),
        3 => if (random.next() >> 8) % 4 == 0 { random.edge() } else { 0.0 },
        4 => size * random.within(-1.0, 1.0),
        _ => f64::from_bits(random.next()),
    };
    let numbers = [0.0; 132].map(|_| number());
    let position = match kind {
        1 => [random.next(), random.next(), 0].map(|n| 90.0 * ((n >> 8) % 5) as f64 - 180.0),
        2 => [random.edge(), random.edge(), random.edge()],
        5 => [random.next(), random.next(), random.next()].map(f64::from_bits),
        _ => [random.within(-90.0, 90.0), random.within(-180.0, 180.0), random.within(-1_500.0, 25_000.0)],
    };
    Input { dof, rows, position, numbers }
}

/// Differences of one pair on N inputs, their kinds in turn.
fn compare(pair: &Pair, count: u64) -> u64 {
    let mut random = Random(88_172_645_463_325_252);
    let mut differences = 0;
    for k in 0..count {
        let input = input(&mut random, k);
        let (ours, theirs) = ((pair.ours)(&input), (pair.theirs)(&input));
        if ours != theirs {
            differences += 1;
            if differences <= 5 {
                let (kind, dof, rows, position) = (KINDS[(k % KINDS.len() as u64) as usize], input.dof, input.rows, input.position);
                println!("{} {kind}, dof {dof}, rows {rows}, {position:?}: port {ours:016x?}, solve.rs {theirs:016x?}", pair.name);
            }
        }
    }
    println!("{:<22}{count:>9} arguments, {differences} differences", pair.name);
    differences
}

/// Whether the one difference that document 01 makes is as listed. Half the least negative variance is -0; of -0 and 0 document 01's `max` gives 0,
/// and Rust leaves open which: unoptimised it gives -0, optimised 0.
fn zeros() -> bool {
    let mut covariance = [0.0; 9];
    covariance[4] = -5e-324;
    let port = unsafe { mlat_horizontal_sigma_m(&[0.0; 3], &covariance) };
    let place = original::geo::Geodetic { lat_deg: 0.0, lon_deg: 0.0, height_m: 0.0 };
    let optimised = original::as_it_stands::Solution { position: place, covariance: rows(covariance) }.horizontal_sigma_m();
    let place = unoptimised::geo::Geodetic { lat_deg: 0.0, lon_deg: 0.0, height_m: 0.0 };
    let plain = unoptimised::as_it_stands::Solution { position: place, covariance: rows(covariance) }.horizontal_sigma_m();
    println!("horizontal_sigma_m at 0, 0, 0 of the variances 0, -5e-324, 0: port {port:?}; solve.rs as it stands {plain:?}, optimised {optimised:?}");
    port.to_bits() == 0 && plain.to_bits() == 1 << 63
}

/// Nanoseconds a call on 1,000 inputs of the first kind, the sides in turn, the least of 300 passes.
fn time(pair: &Pair) {
    let mut random = Random(0x9e37_79b9_7f4a_7c15);
    let inputs: Vec<Input> = (0..1_000).map(|k| input(&mut random, k * KINDS.len() as u64)).collect();
    let pass = |f: fn(&Input) -> [u64; 9]| {
        let start = Instant::now();
        for input in &inputs {
            std::hint::black_box(f(std::hint::black_box(input)));
        }
        start.elapsed().as_nanos() as f64 / inputs.len() as f64
    };
    let (mut ours, mut theirs) = (f64::INFINITY, f64::INFINITY);
    for _ in 0..300 {
        ours = ours.min(pass(pair.ours));
        theirs = theirs.min(pass(pair.theirs));
    }
    println!("{:<22}port {ours:>6.1} ns, solve.rs {theirs:>6.1} ns, ratio {:.2}", pair.name, ours / theirs);
}

fn main() {
    let count = std::env::args().nth(1).map_or(1_000_000, |n| n.parse().expect("N is a number"));
    println!("in turn: {}; dof from 0 up, of any number of digits, and any u32", KINDS.join(", "));
    let differences: u64 = PAIRS.iter().map(|pair| compare(pair, count)).sum();
    let listed = zeros();
    println!("{differences} differences");
    PAIRS.iter().filter(|pair| pair.open).for_each(time);
    std::process::exit((differences > 0 || !listed) as i32);
}
