//! Problems whose outlier rounds last as long as they may, or one longer: found by climbing from problems with correlated
//! clocks, whose changes move other receptions across the limit. z is moved at random, and a move stays where the rounds
//! still settle and settle no earlier.

use crate::edges::answer;
use crate::kinds::SCENES;
use crate::random::Random;
use crate::scene::{Reception, Scene};
use crate::trace::longer;

/// How far past the last round that may make a change the rounds settle: 0 in the very last one, 2s + 2; none where they
/// do not settle.
fn beyond(scene: &Scene) -> Option<i64> {
    let told = longer(&scene.problem(), 2 * scene.n() + 6);
    Some(told.settled_after()? as i64 - (2 * told.kept.len() as i64 + 1))
}

/// A scene whose z are moved: one to three of them, by up to some deviations.
fn moved(random: &mut Random, scene: &Scene) -> Scene {
    let mut scene = scene.clone();
    let n = scene.n();
    for _ in 0..1 + random.below(3) {
        let i = random.below(n);
        let variance = scene.clock.as_ref().map_or(0.0, |clock| clock[i * n + i]) + scene.receptions[i].noise;
        let metres = variance.sqrt() * random.normal() * random.of(&[3.0, 1.0, 0.3, 0.1]);
        scene.receptions[i].z = (scene.receptions[i].z + metres).clamp(0.0, 3e9);
    }
    scene
}

/// A scene whose rounds settle in the one that is asked for.
fn climbed(random: &mut Random, asked: i64) -> Option<Scene> {
    let (_, make) = SCENES.iter().find(|(name, _)| *name == "correlated clocks, outliers")?;
    let mut scene = make(random);
    longer(&scene.problem(), 2 * scene.n() + 6).settled_after().filter(|changes| *changes > 2)?;
    let mut best = beyond(&scene)?;
    let mut idle = 0;
    while idle < 150 && best < asked {
        let other = moved(random, &scene);
        idle += 1;
        if let Some(now) = beyond(&other).filter(|now| *now >= best && *now <= asked) {
            idle *= usize::from(now == best);
            (best, scene) = (now, other);
        }
    }
    (best == asked).then_some(scene)
}

/// The rounds settle in the very last one: after 2s + 1 changes.
pub fn last_round(random: &mut Random) -> Option<Vec<Scene>> {
    let scene = climbed(random, 0)?;
    (answer(&scene) != 4).then(|| vec![scene])
}

/// They would settle in the next one: after 2s + 2 changes the answer is 4.
pub fn one_round_late(random: &mut Random) -> Option<Vec<Scene>> {
    let scene = climbed(random, 1)?;
    (answer(&scene) == 4).then(|| vec![scene])
}

/// The same beside a reception that the screen removes: 2s + 2 rounds count the kept ones.
pub fn one_round_late_of_kept(random: &mut Random) -> Option<Vec<Scene>> {
    let mut scene = climbed(random, 1)?;
    let n = scene.n();
    let last = *scene.receptions.last()?;
    let mut identity = last.identity;
    identity.receiver = [255; 32];
    // a hundredth of a second after all others: light goes 3,000 km
    let time = scene.receptions.iter().map(|r| r.time).max()? + 10_000_000_000;
    scene.receptions.push(Reception { identity, time, ..last });
    scene.clock = scene.clock.map(|clock| (0..(n + 1) * (n + 1)).map(|k| entry(&clock, n, k / (n + 1), k % (n + 1))).collect());
    let told = longer(&scene.problem(), 2 * n + 6);
    (told.kept.len() == n && last.identity < identity && answer(&scene) == 4).then(|| vec![scene])
}

/// An entry of a clock covariance with one row and column of zeros more.
fn entry(clock: &[f64], n: usize, i: usize, j: usize) -> f64 {
    if i < n && j < n { clock[i * n + j] } else { 0.0 }
}
