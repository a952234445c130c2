//! The port's geo beside geo.rs: equal bits on N arguments for each function, all not-a-numbers counted as one value, and the times of both.
//! Built and run by compare/geo.

mod random;

use original::geo::{self, Geodetic};
use random::Random;
use std::time::Instant;

extern "C" {
    fn mlat_to_ecef(geodetic: *const [f64; 3], ecef: *mut [f64; 3]);
    fn mlat_from_ecef(ecef: *const [f64; 3], geodetic: *mut [f64; 3]);
    fn mlat_enu_basis(lat_deg: f64, lon_deg: f64, basis: *mut [f64; 9]);
    fn mlat_to_mm(ecef: *const [f64; 3], mm: *mut [i64; 3]);
    fn mlat_from_mm(mm: *const [i64; 3], ecef: *mut [f64; 3]);
}

/// One function on both sides, over three words: the bits of f64, or i64.
struct Pair {
    name: &'static str,
    edges: &'static [u64],
    kinds: &'static [(&'static str, fn(&mut Random) -> [u64; 3])],
    ours: fn([u64; 3]) -> [u64; 9],
    theirs: fn([u64; 3]) -> [u64; 9],
}

fn floats(words: [u64; 3]) -> [f64; 3] {
    words.map(f64::from_bits)
}

fn bits(x: f64) -> u64 {
    if x.is_nan() { 0x7ff8_0000_0000_0000 } else { x.to_bits() }
}

fn nine(words: [u64; 3]) -> [u64; 9] {
    [words[0], words[1], words[2], 0, 0, 0, 0, 0, 0]
}

fn geodetic(words: [u64; 3]) -> Geodetic {
    let [lat_deg, lon_deg, height_m] = floats(words);
    Geodetic { lat_deg, lon_deg, height_m }
}

const PAIRS: [Pair; 5] = [
    Pair {
        name: "to_ecef",
        edges: &EDGES,
        kinds: &[("aircraft", aircraft), ("quarter turns", quarters), ("any angle to ±7 and any height", angles), ("any bits", any)],
        ours: |words| {
            let mut ecef = [0.0; 3];
            unsafe { mlat_to_ecef(&floats(words), &mut ecef) };
            nine(ecef.map(bits))
        },
        theirs: |words| nine(geo::to_ecef(geodetic(words)).map(bits)),
    },
    Pair {
        name: "from_ecef",
        edges: &EDGES,
        kinds: &[("aircraft", places), ("near the axis or the equator", corners), ("any size", sizes), ("any bits", any)],
        ours: |words| {
            let mut position = [0.0; 3];
            unsafe { mlat_from_ecef(&floats(words), &mut position) };
            nine(position.map(bits))
        },
        theirs: |words| {
            let position = geo::from_ecef(floats(words));
            nine([position.lat_deg, position.lon_deg, position.height_m].map(bits))
        },
    },
    Pair {
        name: "enu_basis",
        edges: &EDGES,
        kinds: &[("aircraft", aircraft), ("quarter turns", quarters), ("any angle to ±7", angles), ("any bits", any)],
        ours: |words| {
            let [lat_deg, lon_deg, _] = floats(words);
            let mut basis = [0.0; 9];
            unsafe { mlat_enu_basis(lat_deg, lon_deg, &mut basis) };
            basis.map(bits)
        },
        theirs: |words| {
            let [lat_deg, lon_deg, _] = floats(words);
            let [e, n, u] = geo::enu_basis(lat_deg, lon_deg);
            [e[0], e[1], e[2], n[0], n[1], n[2], u[0], u[1], u[2]].map(bits)
        },
    },
    Pair {
        name: "to_mm",
        edges: &EDGES,
        kinds: &[("aircraft", places), ("halves of a millimetre", halves), ("any size", sizes), ("any bits", any)],
        ours: |words| {
            let mut mm = [0; 3];
            unsafe { mlat_to_mm(&floats(words), &mut mm) };
            nine(mm.map(|value| value as u64))
        },
        theirs: |words| nine(geo::to_mm(floats(words)).map(|value| value as u64)),
    },
    Pair {
        name: "from_mm",
        edges: &WHOLE_EDGES,
        kinds: &[("aircraft", millimetres), ("any number of digits", digits), ("any i64", any)],
        ours: |words| {
            let mut ecef = [0.0; 3];
            unsafe { mlat_from_mm(&words.map(|word| word as i64), &mut ecef) };
            nine(ecef.map(bits))
        },
        theirs: |words| nine(geo::from_mm(words.map(|word| word as i64)).map(bits)),
    },
];

/// Every three of them are tried: zeros, subnormals, the ends of i64 in metres, angles about ±7 radians, the axes of the ellipsoid.
static EDGES: [u64; 44] = {
    let positive = [
        0.0,
        5e-324,
        2.2250738585072014e-308,
        1e-300,
        1e-9,
        0.0004999999999999999,
        0.0005,
        1.0,
        45.0,
        90.0,
        180.0,
        360.0,
        401.0704565915762,
        401.07045659157625,
        6_356_752.314245179,
        6_378_137.0,
        9_223_372_036_854_774.0,
        9_223_372_036_854_776.0,
        1e154,
        1.7976931348623157e308,
        f64::INFINITY,
        f64::NAN,
    ];
    let mut edges = [0; 44];
    let mut i = 0;
    while i < positive.len() {
        edges[2 * i] = positive[i].to_bits();
        edges[2 * i + 1] = positive[i].to_bits() | 1 << 63;
        i += 1;
    }
    edges
};

/// The ends of i64, and both sides of where f64 begins to have gaps.
static WHOLE_EDGES: [u64; 16] = {
    let values = [
        0,
        1,
        -1,
        999,
        -1000,
        6_378_137_000,
        1 << 53,
        (1 << 53) + 1,
        (1 << 53) + 3,
        -(1 << 53) - 1,
        (1 << 62) + 257,
        i64::MAX - 1,
        i64::MAX - 511,
        i64::MAX,
        i64::MIN + 1,
        i64::MIN,
    ];
    let mut edges = [0; 16];
    let mut i = 0;
    while i < values.len() {
        edges[i] = values[i] as u64;
        i += 1;
    }
    edges
};

fn any(random: &mut Random) -> [u64; 3] {
    [random.next(), random.next(), random.next()]
}

fn sizes(random: &mut Random) -> [u64; 3] {
    // sizes near each other: one exponent for the three, within 2^8 either way
    let middle = random.any_size();
    [0; 3].map(|_| (middle * random.within(-1.0, 1.0) * 2f64.powf(random.within(-8.0, 8.0))).to_bits())
}

fn aircraft(random: &mut Random) -> [u64; 3] {
    [random.within(-90.0, 90.0), random.within(-180.0, 180.0), random.within(-1_500.0, 25_000.0)].map(f64::to_bits)
}

fn quarters(random: &mut Random) -> [u64; 3] {
    let mut near = |n: u64| (90.0 * (random.next() % (2 * n + 1)) as f64 - 90.0 * n as f64).to_bits().wrapping_add(random.next() % 5).wrapping_sub(2);
    [near(1), near(2), near(100)]
}

fn angles(random: &mut Random) -> [u64; 3] {
    [random.within(-401.1, 401.1).to_bits(), random.within(-401.1, 401.1).to_bits(), random.any_size().to_bits()]
}

fn places(random: &mut Random) -> [u64; 3] {
    geo::to_ecef(geodetic(aircraft(random))).map(f64::to_bits)
}

fn corners(random: &mut Random) -> [u64; 3] {
    let mut place = floats(places(random));
    let small = 2f64.powf(random.within(-60.0, 20.0));
    match random.next() % 3 {
        0 => place[2] = small,
        1 => (place[0], place[1]) = (small, random.within(-small, small)),
        _ => place[(random.next() % 3) as usize] = 0.0,
    }
    place.map(f64::to_bits)
}

fn halves(random: &mut Random) -> [u64; 3] {
    [0; 3].map(|_: u64| {
        let whole = (random.next() >> (11 + random.next() % 53)) as f64;
        let half = ((whole + 0.5) / 1000.0).to_bits().wrapping_add(random.next() % 5).wrapping_sub(2);
        half % (1 << 63) | random.next() & 1 << 63
    })
}

fn millimetres(random: &mut Random) -> [u64; 3] {
    [0; 3].map(|_: u64| random.within(-7e9, 7e9) as i64 as u64)
}

fn digits(random: &mut Random) -> [u64; 3] {
    [0; 3].map(|_: u64| ((random.next() as i64) >> (random.next() % 64)) as u64)
}

/// Differences of one pair, on every three of its edges and on N arguments, its kinds in turn.
fn compare(pair: &Pair, count: u64) -> u64 {
    let mut random = Random(88_172_645_463_325_252);
    let mut tried = 0;
    let mut differences = 0;
    let mut hold = |words: [u64; 3]| {
        tried += 1;
        let (ours, theirs) = ((pair.ours)(words), (pair.theirs)(words));
        if ours != theirs {
            differences += 1;
            if differences <= 5 {
                println!("{} {words:016x?}: port {ours:016x?}, geo.rs {theirs:016x?}", pair.name);
            }
        }
    };
    for &a in pair.edges {
        for &b in pair.edges {
            for &c in pair.edges {
                hold([a, b, c]);
            }
        }
    }
    for k in 0..count {
        let (_, made) = pair.kinds[k as usize % pair.kinds.len()];
        hold(made(&mut random));
    }
    let kinds: Vec<&str> = pair.kinds.iter().map(|kind| kind.0).collect();
    println!("{:<10}{tried:>9} arguments, {differences} differences ({} edges; {})", pair.name, pair.edges.len().pow(3), kinds.join("; "));
    differences
}

/// Nanoseconds a call on 1,000 arguments of the first kind, the sides in turn, the least of 300 passes.
fn time(pair: &Pair) {
    let mut random = Random(0x9e37_79b9_7f4a_7c15);
    let words: Vec<[u64; 3]> = (0..1_000).map(|_| pair.kinds[0].1(&mut random)).collect();
    let pass = |f: fn([u64; 3]) -> [u64; 9]| {
        let start = Instant::now();
        for &w in &words {
            std::hint::black_box(f(std::hint::black_box(w)));
        }
        start.elapsed().as_nanos() as f64 / words.len() as f64
    };
    let (mut ours, mut theirs) = (f64::INFINITY, f64::INFINITY);
    for _ in 0..300 {
        ours = ours.min(pass(pair.ours));
        theirs = theirs.min(pass(pair.theirs));
    }
    println!("{:<10}port {ours:>6.1} ns, geo.rs {theirs:>6.1} ns, ratio {:.2}", pair.name, ours / theirs);
}

fn main() {
    let count = std::env::args().nth(1).map_or(1_000_000, |n| n.parse().expect("N is a number"));
    let differences: u64 = PAIRS.iter().map(|pair| compare(pair, count)).sum();
    println!("{differences} differences");
    PAIRS.iter().for_each(time);
    std::process::exit((differences > 0) as i32);
}
