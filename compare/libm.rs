//! The port's five beside Rust's own f64 functions: how many steps their results are apart. Built and run by compare/libm.

mod random;

use random::Random;

/// One function on both sides, over two numbers.
struct Pair {
    name: &'static str,
    made: fn(&mut Random, u64) -> [f64; 2],
    ours: fn(f64, f64) -> f64,
    theirs: fn(f64, f64) -> f64,
}

const PAIRS: [Pair; 6] = [
    Pair { name: "sin", made: angle, ours: |x, _| libm::sin(x), theirs: |x, _| x.sin() },
    Pair { name: "cos", made: angle, ours: |x, _| libm::cos(x), theirs: |x, _| x.cos() },
    Pair { name: "sincos, sine", made: angle, ours: |x, _| libm::sincos(x).0, theirs: |x, _| x.sin_cos().0 },
    Pair { name: "sincos, cosine", made: angle, ours: |x, _| libm::sincos(x).1, theirs: |x, _| x.sin_cos().1 },
    Pair { name: "atan2", made: point, ours: libm::atan2, theirs: f64::atan2 },
    Pair { name: "hypot", made: point, ours: libm::hypot, theirs: f64::hypot },
];

const SPECIAL: [f64; 12] = [0.0, -0.0, 5e-324, -5e-324, 1.0, -1.0, 7.0, -7.0, f64::MAX, f64::INFINITY, f64::NEG_INFINITY, f64::NAN];

/// An angle within ±7: even between the ends, by quarter turns and their neighbours, and of any size.
fn angle(random: &mut Random, k: u64) -> [f64; 2] {
    let x = match k % 4 {
        0 if k < 48 => SPECIAL[(k / 4) as usize].clamp(-7.0, 7.0),
        0 | 1 => random.within(-7.0, 7.0),
        2 => {
            let turns = (random.next() % 9) as f64 - 4.0;
            let quarter = turns * std::f64::consts::FRAC_PI_2;
            f64::from_bits(quarter.to_bits().wrapping_add(random.next() % 9).wrapping_sub(4)).clamp(-7.0, 7.0)
        }
        _ => {
            let small = random.any_size();
            if small.abs() < 7.0 { small } else { 7.0 / small }
        }
    };
    [x, 0.0]
}

/// Two numbers of any size, of one size, on the ground in metres, and special ones.
fn point(random: &mut Random, k: u64) -> [f64; 2] {
    match k % 4 {
        0 if k < 4 * 144 => [SPECIAL[(k / 48) as usize], SPECIAL[(k / 4 % 12) as usize]],
        0 | 1 => [random.any_size(), random.any_size()],
        2 => {
            let size = random.any_size();
            [size * random.within(-1.0, 1.0), size * random.within(-1.0, 1.0)]
        }
        _ => [random.within(-7e6, 7e6), random.within(-7e6, 7e6)],
    }
}

/// How many steps from one binary64 to the next lead from a to b. Not-a-numbers count as one value, far from every other.
fn apart(a: f64, b: f64) -> u64 {
    let place = |x: f64| {
        let size = (x.to_bits() % (1 << 63)) as i128;
        if x.is_sign_negative() { -size } else { size }
    };
    match (a.is_nan(), b.is_nan()) {
        (true, true) => 0,
        (false, false) => (place(a) - place(b)).unsigned_abs() as u64,
        _ => u64::MAX,
    }
}

fn main() {
    let count = std::env::args().nth(1).map_or(1_000_000, |n| n.parse().expect("N is a number"));
    let mut most = 0;
    for pair in &PAIRS {
        let mut random = Random(88_172_645_463_325_252);
        let mut by_distance = [0u64; 4];
        let mut farthest = (0, [0.0, 0.0]);
        for k in 0..count {
            let [a, b] = (pair.made)(&mut random, k);
            let distance = apart((pair.ours)(a, b), (pair.theirs)(a, b));
            by_distance[distance.min(3) as usize] += 1;
            if distance > farthest.0 {
                farthest = (distance, [a, b]);
            }
        }
        let [same, one, two, more] = by_distance;
        println!("{:<15}{count} arguments: {same} the same, {one} at 1 unit, {two} at 2, {more} farther; first at the most, {}: {:?}", pair.name, farthest.0, farthest.1);
        most = most.max(farthest.0);
    }
    println!("units in the last place, at the most: {most}");
    std::process::exit((most > 2) as i32);
}
