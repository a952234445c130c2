//! Problems of every kind, from a seed.

use crate::geo;
use crate::identities::{self, Family};
use crate::random::{Random, ten_to};
use crate::scene::{Reception, Scene};
use crate::sky::{self, Sky, sound};

pub type Kind<T> = (&'static str, fn(&mut Random) -> T);

pub const SCENES: [Kind<Scene>; 21] = [
    ("sound", |random| any_sound(random, 0, false)),
    ("sound, with altitude", |random| any_sound(random, 0, true)),
    ("one to five outliers", outliers),
    ("few receptions beside outliers", masked),
    ("screened", screened),
    ("three with altitude", three),
    ("too few", few),
    ("sites at one place or two", heaped),
    ("sites on a line", in_line),
    ("sites in a plane", in_plane),
    ("correlated clocks, tiny noise", correlated),
    ("correlated clocks, outliers", returned),
    ("poorly determined", poor),
    ("far or high", far),
    ("ends of the domain", ends),
    ("random numbers of the domain", domain),
    ("references near the ends of i64", references),
    ("receptions twice", twice),
    ("tiny noise", exact),
    ("off by several deviations", strained),
    ("clocks without a factor", indefinite),
];

fn any_sound(random: &mut Random, least: usize, with_altitude: bool) -> Scene {
    let n = least + if random.one_in(3) { random.below(33 - least) } else { random.below(13 - least.min(12)) };
    sound(random, n, with_altitude).scene
}

fn either(random: &mut Random, n: usize) -> Sky {
    let with_altitude = random.one_in(2);
    sound(random, n, with_altitude)
}

/// Reception i arrives later by so many metres, in time and z alike.
fn late(scene: &mut Scene, i: usize, metres: f64) {
    let r = &mut scene.receptions[i];
    r.time = (r.time + (metres / geo::C * 1e12) as i64).clamp(0, 10_000_000_000_000);
    r.z = (r.z + metres).clamp(0.0, 3e9);
}

fn outliers(random: &mut Random) -> Scene {
    let n = 4 + random.below(29);
    let mut scene = either(random, n).scene;
    for _ in 0..1 + random.below(5) {
        let metres = random.between(150.0, 900.0) * random.of(&[1.0, 1.0, 5.0, 50.0]);
        late(&mut scene, random.below(n), metres);
    }
    scene
}

fn masked(random: &mut Random) -> Scene {
    let n = 5 + random.below(7);
    let mut scene = either(random, n).scene;
    for _ in 0..1 + random.below(3) {
        let sigma = scene.receptions[0].noise.sqrt();
        let metres = sigma * random.between(4.0, 60.0);
        late(&mut scene, random.below(n), metres);
    }
    scene
}

fn screened(random: &mut Random) -> Scene {
    let n = 1 + random.below(32);
    let mut scene = either(random, n).scene;
    for _ in 0..1 + random.below(6) {
        let i = random.below(n);
        let by = random.whole(-40_000_000_000, 40_000_000_000);
        let r = &mut scene.receptions[i];
        r.time = (r.time + by).clamp(0, 10_000_000_000_000);
        if random.one_in(2) {
            r.z = (r.z + by as f64 * 1e-12 * geo::C).clamp(0.0, 3e9);
        }
    }
    scene
}

fn three(random: &mut Random) -> Scene {
    sound(random, 3, true).scene
}

fn few(random: &mut Random) -> Scene {
    let n = random.below(4);
    let with_altitude = n < 3 && random.one_in(2);
    sound(random, n, with_altitude).scene
}

/// The receptions as those sites have them of the aircraft, with errors a tenth of the noise's deviation.
fn moved_to(random: &mut Random, sky: &mut Sky, sites: &[[i64; 3]]) {
    let noise: Vec<f64> = sky.scene.receptions.iter().map(|r| r.noise).collect();
    let error: Vec<f64> = noise.iter().map(|m2| 0.1 * m2.sqrt() * random.normal()).collect();
    sky.scene.receptions = sky::heard(random, sky.aircraft, sites, &noise, &error);
}

fn heaped(random: &mut Random) -> Scene {
    let n = 3 + random.below(8);
    let mut sky = either(random, n);
    let two = [sky.scene.receptions[0].site_mm, sky.scene.receptions[1].site_mm];
    let places = 1 + random.below(2);
    let sites: Vec<[i64; 3]> = (0..n).map(|i| two[i % places]).collect();
    moved_to(random, &mut sky, &sites);
    sky.scene
}

/// Multiples of one or two directions from the centre.
fn spanned(random: &mut Random, directions: usize) -> Scene {
    let n = 3 + random.below(8);
    let mut sky = either(random, n);
    let centre = geo::to_mm(geo::to_ecef(sky.centre));
    let way: Vec<[i64; 3]> = (0..directions).map(|_| [0; 3].map(|_: i64| random.whole(-10_000_000, 10_000_000))).collect();
    let sites: Vec<[i64; 3]> = (0..n)
        .map(|_| {
            way.iter().fold(centre, |site, step| {
                let by = random.whole(-10, 10);
                [0, 1, 2].map(|axis| site[axis] + by * step[axis])
            })
        })
        .collect();
    moved_to(random, &mut sky, &sites);
    sky.scene
}

fn in_line(random: &mut Random) -> Scene {
    spanned(random, 1)
}

fn in_plane(random: &mut Random) -> Scene {
    spanned(random, 2)
}

/// One clock error in common, each reception its own multiple of it, far above the noise; one or two receptions are off by up to `off` deviations.
fn bound(random: &mut Random, deviation: (i64, i64), noise: (i64, i64), off: f64) -> Scene {
    let n = 5 + random.below(6);
    let mut scene = either(random, n).scene;
    let common: Vec<f64> = (0..n).map(|_| random.decades(deviation.0, deviation.1) * random.of(&[1.0, -1.0])).collect();
    let error = random.normal() * random.of(&[0.0, 1.0]);
    for i in 0..n {
        scene.receptions[i].noise = random.decades(noise.0, noise.1).max(1e-6);
        let metres = common[i] * error + scene.receptions[i].noise.sqrt() * random.normal();
        late(&mut scene, i, metres);
    }
    for _ in 0..1 + random.below(2) {
        let i = random.below(n);
        late(&mut scene, i, common[i].abs() * random.within(off));
    }
    scene.clock = Some((0..n * n).map(|k| common[k / n] * common[k % n]).collect());
    scene
}

fn correlated(random: &mut Random) -> Scene {
    if random.one_in(2) { bound(random, (0, 1), (-6, 0), 6.0) } else { bound(random, (1, 1), (-1, 1), 12.0) }
}

fn returned(random: &mut Random) -> Scene {
    bound(random, (1, 1), (1, 2), 20.0)
}

fn poor(random: &mut Random) -> Scene {
    let n = 4 + random.below(4);
    let mut scene = either(random, n).scene;
    let least = random.of(&[3, 3, 8, 11]);
    for r in &mut scene.receptions {
        r.noise = random.decades(least, least + 3).min(1e12);
    }
    scene
}

/// An aircraft above 25 km, below -1.5 km, or hundreds of kilometres off.
fn far(random: &mut Random) -> Scene {
    let n = 3 + random.below(8);
    let mut sky = either(random, n);
    let height = random.of(&[-3_000.0, -1_500.0, 24_900.0, 25_100.0, 60_000.0, 300_000.0]);
    let away = random.of(&[0.0, 100_000.0, 450_000.0, 620_000.0]);
    sky.aircraft = sky::beside(sky.centre, away, random.within(50_000.0), height);
    let sites: Vec<[i64; 3]> = sky.scene.receptions.iter().map(|r| r.site_mm).collect();
    moved_to(random, &mut sky, &sites);
    sky.scene
}

/// A sound problem, some fields of which stand at an end of the domain, or next to it.
fn ends(random: &mut Random) -> Scene {
    let n = random.below(13);
    let mut scene = either(random, n).scene;
    for _ in 0..1 + random.below(2 * n + 2) {
        end(random, &mut scene);
    }
    scene
}

fn end(random: &mut Random, scene: &mut Scene) {
    let n = scene.n();
    let what = random.below(7);
    if what == 5 {
        scene.altitude = Some((1 + random.below(2) as u8, random.of(&[100_000.0, -100_000.0, 0.0, -0.0, 5e-324])));
    } else if what == 6 {
        scene.reference = Some(random.of(&[i64::MIN, i64::MAX, 0, -1]));
    } else if n > 0 {
        let (i, j) = (random.below(n), random.below(n));
        let axis = random.below(3);
        let r = &mut scene.receptions[i];
        match what {
            0 => r.time = random.of(&[0, 1, 10_000_000_000_000, 9_999_999_999_999]),
            1 => r.site_mm[axis] = random.of(&[10_000_000_000, -10_000_000_000, 9_999_999_999, 0]),
            2 => r.z = random.of(&[0.0, -0.0, 3e9, 5e-324, 2_999_999_999.999_999_5]),
            3 => r.noise = random.of(&[1e-6, 1e12, 1.000_000_000_000_000_2e-6, 999_999_999_999.999_9]),
            _ => {
                let on = random.of(&[0.0, -0.0, 1e12, 5e-324]);
                let off = random.of(&[1e12, -1e12, 0.0, -0.0]);
                let (row, column) = (i.min(j), i.max(j));
                if let Some(clock) = &mut scene.clock {
                    clock[row * n + column] = if row == column { on } else { off };
                }
            }
        }
    }
}

/// Any number of the domain in every field, by its value or by its size.
fn domain(random: &mut Random) -> Scene {
    let n = random.below(33);
    let by_size = random.one_in(2);
    let mut seeds = Vec::new();
    let mut receptions: Vec<Reception> = (0..n)
        .map(|_| {
            seeds.push(random.bits());
            let float = |random: &mut Random, low: f64, high: f64| if by_size { random.decades(-6, 8).clamp(low, high) } else { random.between(low, high) };
            Reception {
                identity: identities::of_bytes(&[0; 76]),
                time: random.whole(0, 10_000_000_000_000),
                site_mm: [0; 3].map(|_: i64| random.whole(-10_000_000_000, 10_000_000_000)),
                z: float(random, 0.0, 3e9),
                noise: float(random, 1e-6, 1e12),
            }
        })
        .collect();
    let names = identities::sorted(Family::Any, &[0; 76], &seeds);
    receptions.iter_mut().zip(names).for_each(|(r, identity)| r.identity = identity);
    let mut clock: Vec<f64> = (0..n * n).map(|_| random.within(1.0) * ten_to(random.of(&[-6, 0, 6, 12]))).collect();
    (0..n).for_each(|i| clock[i * n + i] = clock[i * n + i].abs());
    let mut scene = Scene { receptions, clock: Some(clock), altitude: None, correction: 0, reference: Some(random.bits() as i64) };
    if random.one_in(2) {
        scene.altitude = Some((1 + random.below(2) as u8, random.within(100_000.0)));
    }
    if random.one_in(2) {
        // near enough in time and place to pass the screen
        let (time, site) = (random.whole(0, 9_999_000_000_000), geo::to_mm(geo::to_ecef(sky::place(random))));
        for r in &mut scene.receptions {
            r.time = time + random.whole(0, 1_000_000_000);
            r.site_mm = site.map(|mm| mm + random.whole(-300_000_000, 300_000_000));
        }
    }
    scene
}

fn references(random: &mut Random) -> Scene {
    let n = 4 + random.below(6);
    let mut scene = either(random, n).scene;
    if random.one_in(2) {
        // a reference long before: a transmit time of up to ten seconds
        let metres = random.between(0.0, 2.9e9);
        scene.receptions.iter_mut().for_each(|r| r.z += metres);
    }
    let off = random.of(&[0, 1, 1_000, 300_000_000, 1_000_000_000, 3_000_000_000, 10_000_000_000_000]);
    scene.reference = Some(if random.one_in(2) { i64::MAX - off } else { i64::MIN + off });
    scene
}

/// Some receptions stand there twice, with one identity after the other: their residuals tie.
fn twice(random: &mut Random) -> Scene {
    let n = 3 + random.below(6);
    let mut scene = either(random, n).scene;
    for _ in 0..random.below(3) {
        let metres = random.between(100.0, 1_500.0);
        late(&mut scene, random.below(n), metres);
    }
    let copies: Vec<usize> = (0..n).flat_map(|i| if random.one_in(2) { vec![i, i] } else { vec![i] }).collect();
    scene.receptions = copies.iter().map(|i| scene.receptions[*i]).collect();
    identities::anew(&mut scene.receptions);
    let size = random.of(&[0.0, 1.0, 100.0]);
    let entries = sky::clock(random, copies.len(), size);
    scene.clock = Some(entries);
    scene
}

fn exact(random: &mut Random) -> Scene {
    let n = 3 + random.below(8);
    let mut sky = either(random, n);
    let noise: Vec<f64> = (0..n).map(|_| random.decades(-6, -1)).collect();
    let sites: Vec<[i64; 3]> = sky.scene.receptions.iter().map(|r| r.site_mm).collect();
    let share = random.of(&[0.0, 0.1, 1.0]);
    let error: Vec<f64> = noise.iter().map(|m2| share * m2.sqrt() * random.normal()).collect();
    sky.scene.receptions = sky::heard(random, sky.aircraft, &sites, &noise, &error);
    sky.scene.clock = Some(vec![0.0; n * n]);
    sky.scene
}

/// Errors of up to five deviations: the outlier rule lets them pass and the chi-square test does not.
fn strained(random: &mut Random) -> Scene {
    let n = 4 + random.below(29);
    let mut scene = either(random, n).scene;
    let most = random.between(2.0, 6.0);
    for i in 0..n {
        let metres = scene.receptions[i].noise.sqrt() * random.between(0.0, most) * random.of(&[0.0, 1.0]);
        late(&mut scene, i, metres);
    }
    scene
}

fn indefinite(random: &mut Random) -> Scene {
    let n = 3 + random.below(8);
    let mut scene = either(random, n).scene;
    let clock = scene.clock.get_or_insert_with(|| vec![0.0; n * n]);
    let (i, j) = (random.below(n - 1), n - 1);
    clock[i * n + j] = random.of(&[1e4, -1e4, 1e12, -1e12, 3e3]);
    scene
}
