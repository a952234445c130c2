//! Sound problems: an aircraft, sites about it, and when each heard it.

use crate::geo::{self, C, Geodetic};
use crate::identities;
use crate::linalg::{add, norm, scale, sub};
use crate::random::Random;
use crate::scene::{Reception, Scene};

const LAST_TIME: i64 = 10_000_000_000_000;

/// Degrees; mostly where people live, at times a pole, the equator or the date line.
pub fn place(random: &mut Random) -> Geodetic {
    let lat_deg = match random.below(12) {
        0 => random.of(&[90.0, -90.0, 89.9999, -89.9]),
        1 => random.of(&[0.0, -1e-7, 0.001]),
        _ => random.between(-65.0, 70.0),
    };
    let lon_deg = match random.below(12) {
        0 => random.of(&[180.0, -180.0, 179.999, -179.99]),
        1 => random.of(&[0.0, 90.0, -90.0]),
        _ => random.between(-180.0, 180.0),
    };
    Geodetic { lat_deg, lon_deg, height_m: 0.0 }
}

/// So many metres east and north of a place, at a height.
pub fn beside(centre: Geodetic, east: f64, north: f64, height_m: f64) -> [f64; 3] {
    let basis = geo::enu_basis(centre.lat_deg, centre.lon_deg);
    let there = add(geo::to_ecef(centre), add(scale(basis[0], east), scale(basis[1], north)));
    geo::to_ecef(Geodetic { height_m, ..geo::from_ecef(there) })
}

pub fn sites(random: &mut Random, centre: Geodetic, spread: f64, n: usize) -> Vec<[i64; 3]> {
    (0..n)
        .map(|_| {
            let (east, north) = (random.within(spread), random.within(spread));
            let height = random.between(0.0, 1_500.0);
            geo::to_mm(beside(centre, east, north, height))
        })
        .collect()
}

/// Receptions of a transmission from `x` by those sites, each off by its error in metres. `z` counts from the earliest.
pub fn heard(random: &mut Random, x: [f64; 3], sites: &[[i64; 3]], noise: &[f64], error: &[f64]) -> Vec<Reception> {
    let start = random.whole(0, LAST_TIME - 20_000_000_000) as f64;
    let path = |i: usize| norm(sub(x, geo::from_mm(sites[i]))) + error[i];
    let time = |i: usize| ((start + path(i) / C * 1e12).round() as i64).clamp(0, LAST_TIME);
    let first = (0..sites.len()).map(time).min().unwrap_or(0);
    let family = random.bits();
    let seeds: Vec<u64> = sites.iter().map(|_| random.bits()).collect();
    let heard = identities::ascending(family, &seeds).into_iter().enumerate().map(|(i, identity)| {
        let z = (time(i) - first) as f64 * 1e-12 * C;
        Reception { identity, time: time(i), site_mm: sites[i], z: z.clamp(0.0, 3e9), noise: noise[i] }
    });
    heard.collect()
}

/// A clock covariance of n receptions, about `size` m² on its diagonal: none at all, one clock in common, or a product of random vectors.
pub fn clock(random: &mut Random, n: usize, size: f64) -> Vec<f64> {
    let mut m = vec![0.0; n * n];
    let rank = match random.below(4) {
        0 => 0,
        1 => 1,
        _ => 1 + random.below(n + 1),
    };
    let common = rank == 1 && random.one_in(2);
    for _ in 0..rank {
        let v: Vec<f64> = (0..n).map(|_| if common { 1.0 } else { random.within(1.0) }).collect();
        for i in 0..n {
            for j in i..n {
                m[i * n + j] += size * v[i] * v[j];
                m[j * n + i] = m[i * n + j];
            }
        }
    }
    m
}

/// What an aircraft might report of its height.
pub fn altitude(random: &mut Random, height: f64) -> (u8, f64) {
    let kind = 1 + random.below(2) as u8;
    let sigma = if kind == 1 { 100.0 } else { 15.0 };
    (kind, (height + sigma * random.normal()).clamp(-100_000.0, 100_000.0))
}

pub struct Sky {
    pub centre: Geodetic,
    pub aircraft: [f64; 3],
    pub scene: Scene,
}

/// n receptions of one aircraft, with errors as the noise says.
pub fn sound(random: &mut Random, n: usize, with_altitude: bool) -> Sky {
    let centre = place(random);
    let spread = random.of(&[20_000.0, 80_000.0, 200_000.0, 300_000.0]);
    let height = random.between(100.0, 13_000.0);
    let (east, north) = (random.within(0.7 * spread), random.within(0.7 * spread));
    let aircraft = beside(centre, east, north, height);
    let sites = sites(random, centre, spread, n);
    let noise: Vec<f64> = (0..n).map(|_| random.between(10.0, 3_000.0)).collect();
    let error: Vec<f64> = noise.iter().map(|m2| m2.sqrt() * random.normal()).collect();
    let receptions = heard(random, aircraft, &sites, &noise, &error);
    let size = random.of(&[1.0, 100.0, 10_000.0]);
    let scene = Scene {
        clock: Some(clock(random, n, size)),
        altitude: with_altitude.then(|| altitude(random, height)),
        correction: 0,
        reference: (!random.one_in(8)).then(|| random.bits() as i64 >> 8),
        receptions,
    };
    Sky { centre, aircraft, scene }
}
