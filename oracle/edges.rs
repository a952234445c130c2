//! Document 01's edges that are not whole numbers, each as a problem: found by search from a fixed seed. What makes it the edge is asserted of the rounds.

use crate::climb;
use crate::geo;
use crate::identities;
use crate::linalg::{norm, sub};
use crate::parts;
use crate::random::Random;
use crate::record::record;
use crate::scene::{Reception, Scene};
use crate::sky;
use crate::solve::{self, AMBIGUOUS_COST, MAX_RANGE_M, Params, Problem, SCREEN_MARGIN_MM, chi2_limit, isqrt, published};
use crate::ties;
use crate::trace::{Change, trace};
use crate::tune::Search;

/// A name, its search, and numbers (under the seed `SEED`) with which the search finds it: the first few from 0 on.
pub type Edge = (&'static str, fn(&mut Random) -> Option<Vec<Scene>>, &'static [u64]);

pub const SEED: u64 = 77;

pub const EDGES: [Edge; 24] = [
    ("a residual of exactly 5 stays", five_stays, &[6]),
    ("a residual of exactly 5 comes back", five_returns, &[2578, 2700, 3057]),
    ("a range of exactly 600,000 m", range, &[20, 30]),
    ("a height of exactly 25,000 m", |random| height(random, 25_000.0), &[1, 2, 3]),
    ("a height of exactly -1,500 m", |random| height(random, -1_500.0), &[1, 3, 4]),
    ("a rival that costs exactly 9 more", rival, &[234, 960, 1705]),
    ("two fits of one cost", one_cost, &[579, 803, 1582]),
    ("a variance of exactly 1,500²", variance, &[9, 41, 49]),
    ("a cost beside its limit", |random| limit(random, 1.0), &[4, 11, 21]),
    ("a cost beside its limit, tiny noise", |random| limit(random, 1e-6), &[0, 2, 3]),
    ("a distance beside the rivals' limit", apart, &[37, 73, 120]),
    ("a gap at the screen's limit", gap, &[27, 91, 122]),
    ("two worst ones alike", |random| alike(random, false), &[72, 282, 337]),
    ("two least ones alike", |random| alike(random, true), &[368, 529, 1157]),
    ("a start on a site", start_on_site, &[0, 1, 2]),
    ("a fix at a pole", at_pole, &[0, 1, 2]),
    ("a transmit time beside a half", half, &[0, 1, 2]),
    ("a best fit on a site", fit_on_site, &[0, 8, 9]),
    ("rounds that settle in the very last one", climb::last_round, &[2001, 2285]),
    ("rounds that settle one too late", climb::one_round_late, &[2279, 2285]),
    ("the same beside a removed reception", climb::one_round_late_of_kept, &[2279, 2285]),
    ("a cost of exactly its limit", ties::cost, &[9, 15, 57]),
    ("a second fit 9 dearer, by one rounding of two", ties::nine, &[36745]),
    ("Bancroft's equation linear", ties::linear, &[107, 1147, 1454]),
];

/// The answer to a problem.
pub fn answer(scene: &Scene) -> u32 {
    record(&scene.files()).0
}

pub fn all(scene: &Scene) -> Vec<usize> {
    (0..scene.n()).collect()
}

/// The fit with the least cost from the starts of the first round, plausible or not.
fn least(problem: &Problem, subset: &[usize]) -> Option<parts::Fitted> {
    let fits = problem.starts(subset).into_iter().filter_map(|start| parts::levenberg_marquardt(problem, subset, start));
    fits.fold(None, |best: Option<parts::Fitted>, fit| match best {
        Some(top) if fit.cost >= top.cost => best,
        _ => Some(fit),
    })
}

fn place(params: &Params) -> [f64; 3] {
    [params[0], params[1], params[2]]
}

/// z of each reception as x has it, without error; times to match.
pub fn hears(scene: &Scene, x: [f64; 3]) -> Scene {
    let mut scene = scene.clone();
    let path = |r: &Reception| norm(sub(x, geo::from_mm(r.site_mm)));
    let first = scene.receptions.iter().map(path).fold(f64::INFINITY, f64::min);
    for r in &mut scene.receptions {
        r.z = path(r) - first;
        r.time = 1_000_000_000 + (r.z / geo::C * 1e12) as i64;
    }
    scene
}

pub fn sound(random: &mut Random, n: usize, with_altitude: bool) -> Scene {
    let mut scene = sky::sound(random, n, with_altitude).scene;
    scene.clock = Some(vec![0.0; n * n]);
    scene
}

/// One reception late until its residual is five deviations of 10 m.
fn five_stays(random: &mut Random) -> Option<Vec<Scene>> {
    let n = 10 + random.below(3);
    let sky = sky::sound(random, n, true);
    let mut base = hears(&Scene { clock: Some(vec![0.0; n * n]), ..sky.scene }, sky.aircraft);
    let i = random.below(n);
    base.receptions[i].noise = 100.0;
    let late = |u: f64| {
        let mut scene = base.clone();
        scene.receptions[i].z = (scene.receptions[i].z + u).max(0.0);
        scene
    };
    let number = |scene: &Scene| {
        let (problem, subset) = (scene.problem(), all(scene));
        let fit = problem.best_fit(&subset, &problem.starts(&subset)).ok()?;
        Some(problem.residual(i, &fit.params).abs() / problem.sigma(i))
    };
    let found = Search { low: 0.0, high: 400.0, scene: &late, number: &number, target: 5.0, tries: 300 }.run(random)?;
    (trace(&found[0].problem()).rounds.len() == 1 && answer(&found[0]) == 0).then_some(found)
}

/// A reception that comes back: its noise is changed until it does so with exactly 5.
fn five_returns(random: &mut Random) -> Option<Vec<Scene>> {
    let base = crate::kinds::SCENES[11].1(random);
    let before = trace(&base.problem());
    let round = before.rounds.iter().position(|round| matches!(round.change, Some(Change::Return(_))))?;
    let Some(Change::Return(i)) = before.rounds[round].change else { return None };
    let subset = before.rounds[round].subset.clone();
    let noisy = |u: f64| {
        let mut scene = base.clone();
        scene.receptions[i].noise = (scene.receptions[i].noise * u).clamp(1e-6, 1e12);
        scene
    };
    let number = |scene: &Scene| {
        let now = trace(&scene.problem());
        let there = now.rounds.get(round).filter(|round| round.subset == subset)?;
        there.residuals.iter().find(|(k, _)| *k == i).map(|(_, x)| *x)
    };
    let found = Search { low: 0.2, high: 1.0, scene: &noisy, number: &number, target: 5.0, tries: 300 }.run(random)?;
    let now = trace(&found[0].problem());
    (now.rounds[round].change == Some(Change::Return(i))).then_some(found)
}

/// An aircraft moved until one used site is at the greatest range.
fn range(random: &mut Random) -> Option<Vec<Scene>> {
    let centre = sky::place(random);
    let base = sound(random, 6, true);
    let sites: Vec<[i64; 3]> = (0..6).map(|k| geo::to_mm(sky::beside(centre, random.within(90_000.0), 50_000.0 * k as f64, 300.0))).collect();
    let moved = |u: f64| {
        let mut scene = base.clone();
        scene.receptions.iter_mut().zip(&sites).for_each(|(r, site)| r.site_mm = *site);
        scene.altitude = Some((2, 9_000.0));
        hears(&scene, sky::beside(centre, 10_000.0, u, 9_000.0))
    };
    let number = |scene: &Scene| {
        let problem = scene.problem();
        let x = place(&least(&problem, &all(scene))?.params);
        Some(norm(sub(x, problem.items[0].site)))
    };
    let found = Search { low: 300_000.0, high: 700_000.0, scene: &moved, number: &number, target: MAX_RANGE_M, tries: 300 }.run(random)?;
    (answer(&found[0]) == 0 && answer(&found[1]) == 3).then_some(found)
}

/// An aircraft at the greatest or least height.
fn height(random: &mut Random, target: f64) -> Option<Vec<Scene>> {
    let sky = sky::sound(random, 7, true);
    let mut base = sky.scene;
    base.clock = Some(vec![0.0; 49]);
    let (east, north) = (random.within(30_000.0), random.within(30_000.0));
    let raised = |u: f64| {
        let mut scene = hears(&base, sky::beside(sky.centre, east, north, u));
        scene.altitude = Some((2, u));
        scene
    };
    let number = |scene: &Scene| Some(geo::from_ecef(place(&least(&scene.problem(), &all(scene))?.params)).height_m);
    let found = Search { low: target - 500.0, high: target + 500.0, scene: &raised, number: &number, target, tries: 300 }.run(random)?;
    (answer(&found[0]) == 0 && answer(&found[1]) + answer(&found[2]) == 3).then_some(found)
}

/// The best plausible fit of the first round, and each other plausible one with its distance from the best.
pub fn rivals(scene: &Scene) -> Option<(parts::Fitted, Vec<(parts::Fitted, f64)>)> {
    let (problem, subset) = (scene.problem(), all(scene));
    let fits = problem.starts(&subset).into_iter().filter_map(|start| parts::levenberg_marquardt(&problem, &subset, start));
    let fits: Vec<parts::Fitted> = fits.filter(|fit| problem.plausible(&subset, &fit.params)).collect();
    let best = fits.iter().copied().reduce(|best, fit| if fit.cost < best.cost { fit } else { best })?;
    let distance = |fit: &parts::Fitted| {
        let delta = [0, 1, 2, 3].map(|k| fit.params[k] - best.params[k]);
        let moved = [0, 1, 2, 3].map(|row| (0..4).fold(0.0, |sum, k| sum + best.information[4 * row + k] * delta[k]));
        delta.iter().zip(moved).fold(0.0, |sum, (a, b)| sum + a * b)
    };
    Some((best, fits.iter().map(|fit| (*fit, distance(fit))).collect()))
}

/// What the first far fit costs above the best's cost plus 9.
fn surplus(scene: &Scene) -> Option<f64> {
    let (best, others) = rivals(scene)?;
    let other = others.iter().find(|(_, distance)| *distance > chi2_limit(4))?;
    Some(other.0.cost - (best.cost + AMBIGUOUS_COST))
}

/// Four receptions and an altitude, two places: the noise of one reception is changed until the second costs 9 more.
fn rival(random: &mut Random) -> Option<Vec<Scene>> {
    let base = sound(random, 4, true);
    surplus(&base)?;
    let i = random.below(4);
    let noisy = |u: f64| {
        let mut scene = base.clone();
        scene.receptions[i].noise = u;
        scene
    };
    let number = |scene: &Scene| surplus(scene);
    let found = Search { low: 1e-2, high: 1e9, scene: &noisy, number: &number, target: 0.0, tries: 300 }.run(random)?;
    (answer(&found[0]) == 8 && answer(&found[1]) != 8).then_some(found)
}

/// Fits from two starts that cost the same to the bit and are not the same: the record shows the earlier one.
fn one_cost(random: &mut Random) -> Option<Vec<Scene>> {
    let (n, with_altitude) = (4 + random.below(4), random.below(2) == 0);
    let scene = sound(random, n, with_altitude);
    let (best, others) = rivals(&scene)?;
    let later = others.iter().any(|(fit, _)| fit.cost == best.cost && fit.params != best.params);
    let shown = record(&scene.files()).1[16..48] == best.params.map(f64::to_le_bytes).concat()[..];
    (later && shown && answer(&scene) == 0).then(|| vec![scene])
}

/// The noise of all receptions is raised until the greatest variance is 1,500².
fn variance(random: &mut Random) -> Option<Vec<Scene>> {
    let n = 5 + random.below(3);
    let base = sound(random, n, false);
    let noisy = |u: f64| {
        let mut scene = base.clone();
        scene.receptions.iter_mut().for_each(|r| r.noise = (r.noise * u).clamp(1e-6, 1e12));
        scene
    };
    let number = |scene: &Scene| {
        let subset = all(scene);
        let problem = scene.problem();
        let fit = problem.best_fit(&subset, &problem.starts(&subset)).ok()?;
        let covariance = published(&fit.information.cholesky()?.inverse());
        Some((0..3).map(|axis| covariance[axis][axis]).fold(0.0, f64::max))
    };
    let found = Search { low: 1e-3, high: 1e5, scene: &noisy, number: &number, target: 2_250_000.0, tries: 300 }.run(random)?;
    (answer(&found[0]) == 0 && answer(&found[1]) == 9).then_some(found)
}

/// Errors grow until the cost passes the published limit.
fn limit(random: &mut Random, noise: f64) -> Option<Vec<Scene>> {
    let n = 4 + random.below(5);
    let sky = sky::sound(random, n, true);
    let base = hears(&Scene { clock: Some(vec![0.0; n * n]), ..sky.scene }, sky.aircraft);
    let error: Vec<f64> = (0..n).map(|_| random.part()).collect();
    let strained = |u: f64| {
        let mut scene = base.clone();
        for (r, error) in scene.receptions.iter_mut().zip(&error) {
            r.noise = (r.noise * noise).max(1e-6);
            r.z += u * error * r.noise.sqrt();
        }
        scene
    };
    let number = |scene: &Scene| {
        let (problem, subset) = (scene.problem(), all(scene));
        let fit = least(&problem, &subset)?;
        let (_, jacobian) = problem.whitened(&subset, &problem.whitener(&subset)?, &fit.params);
        Some(fit.cost - solve::published_chi2_limit(n as u32 - 3, solve::rounding_norm(&jacobian)))
    };
    let found = Search { low: 0.0, high: 1e4, scene: &strained, number: &number, target: 0.0, tries: 0 }.sides()?;
    (answer(&found[0]) == 0 && answer(&found[1]) == 5).then_some(found)
}

/// Two places that fit alike, brought apart by less noise until one is outside the other's ellipsoid.
fn apart(random: &mut Random) -> Option<Vec<Scene>> {
    let base = sound(random, 3, true);
    let noisy = |u: f64| {
        let mut scene = base.clone();
        scene.receptions.iter_mut().for_each(|r| r.noise = u);
        scene
    };
    let number = |scene: &Scene| Some(rivals(scene)?.1.iter().map(|(_, distance)| *distance).fold(0.0, f64::max));
    let found = Search { low: 1.0, high: 1e9, scene: &noisy, number: &number, target: chi2_limit(4), tries: 0 }.sides()?;
    (answer(&found[0]) != 8 && answer(&found[1]) == 8 && number(&found[0])? > chi2_limit(3)).then_some(found)
}

/// Two receptions as far apart in time as their sites allow, and 1 ps more: at one site, at a baseline for which gap and limit are equal, and anywhere.
fn gap(random: &mut Random) -> Option<Vec<Scene>> {
    let mut scenes = Vec::new();
    for off in [[0, 0, 0], [0, 0, 148_896_229], [0; 3].map(|_: i64| random.whole(30_000_000, 90_000_000))] {
        let mut base = sound(random, 7, true);
        let site = base.receptions[2].site_mm;
        base.receptions[5].site_mm = [0, 1, 2].map(|axis| site[axis] - site[axis].signum() * off[axis]);
        let baseline = isqrt(off.iter().map(|mm| (mm * mm) as u128).sum()) as i128;
        let most = ((baseline + SCREEN_MARGIN_MM) * 1_000_000_000 / 299_792_458) as i64;
        let kept = |more: i64| {
            let mut scene = base.clone();
            scene.receptions.iter_mut().for_each(|r| r.time = 5_000_000_000 + most / 2);
            scene.receptions[2].time = 5_000_000_000;
            scene.receptions[5].time = 5_000_000_000 + most + more;
            (scene.problem().screen().len(), scene)
        };
        let (passes, fails) = (kept(0), kept(1));
        if passes.0 != 7 || fails.0 != 6 || answer(&passes.1) != 0 {
            return None;
        }
        scenes.extend([passes.1, fails.1]);
    }
    Some(scenes)
}

/// A reception that goes out (or comes back) stands there twice, the second time bound to the others by the opposite clock error: the residuals are equal, and which of the
/// two is chosen shows in the answer.
fn alike(random: &mut Random, comes_back: bool) -> Option<Vec<Scene>> {
    let base = crate::kinds::SCENES[11].1(random);
    let (n, i) = (base.n() + 1, random.below(base.n()));
    let from = |k: usize| if k <= i { k } else { k - 1 };
    let twice = |turned: usize| {
        let sign = |k: usize| if k == turned { -1.0 } else { 1.0 };
        let mut scene = base.clone();
        scene.receptions = (0..n).map(|k| base.receptions[from(k)]).collect();
        identities::anew(&mut scene.receptions);
        let entry = |k: usize, l: usize| sign(k) * sign(l) * base.clock.as_ref().map_or(0.0, |clock| clock[from(k) * base.n() + from(l)]);
        scene.clock = Some((0..n * n).map(|k| entry(k / n, k % n)).collect());
        scene
    };
    let (scene, other) = (twice(i), twice(i + 1));
    let wanted = if comes_back { Change::Return(i) } else { Change::Removal(i) };
    let told = trace(&scene.problem());
    let round = told.rounds.iter().find(|round| round.change == Some(wanted))?;
    let both = round.subset.contains(&i) == round.subset.contains(&(i + 1));
    let equal = |k: usize| round.residuals.iter().find(|(place, _)| *place == k).map(|(_, x)| *x);
    let used = |scene: &Scene| {
        let record = record(&scene.files()).1;
        (record[0], u32::from_le_bytes([record[12], record[13], record[14], record[15]]))
    };
    let ((answer, mask), (with_other, mirrored)) = (used(&scene), used(&other));
    let swapped = mirrored & !(3 << i) | (mirrored >> 1 & 1 << i) | (mirrored & 1 << i) << 1;
    let shown = comes_back && record(&scene.files()).1[16..] != record(&other.files()).1[16..];
    (both && equal(i) == equal(i + 1) && (shown || (answer, mask) != (with_other, swapped))).then(|| vec![scene, other])
}

/// Sites in a plane about (6378137, 0, 0), so that Bancroft has no roots, and an altitude of 0: the one start is that place, which is a site.
fn start_on_site(random: &mut Random) -> Option<Vec<Scene>> {
    let mut base = sound(random, 8, true);
    let centre = [6_378_137_000, 0, 0];
    for pair in 0..4 {
        let (y, z) = (125 * random.whole(-400_000, 400_000), 125 * random.whole(-400_000, 400_000));
        let (y, z) = if pair == 0 { (0, 0) } else { (y, z) };
        base.receptions[2 * pair].site_mm = [centre[0], y, z];
        base.receptions[2 * pair + 1].site_mm = [centre[0], -y, -z];
    }
    base.altitude = Some((2, 0.0));
    let found = hears(&base, sky::beside(geo::from_ecef(geo::from_mm(centre)), 31_000.0, 22_000.0, 2_000.0));
    let problem = found.problem();
    let starts = problem.starts(&all(&found));
    (starts.len() == 1 && place(&starts[0]) == problem.items[0].site && answer(&found) == 2).then(|| vec![found])
}

/// An aircraft standing at a site, heard without error.
fn fit_on_site(random: &mut Random) -> Option<Vec<Scene>> {
    let n = 5 + random.below(3);
    let with_altitude = random.one_in(2);
    let mut base = sound(random, n, with_altitude);
    let site = base.receptions[0].site_mm.map(|mm| mm / 125 * 125);
    base.receptions[0].site_mm = site;
    base.altitude = base.altitude.map(|_| (2, geo::from_ecef(geo::from_mm(site)).height_m));
    let found = hears(&base, geo::from_mm(site));
    let problem = found.problem();
    let told = trace(&problem);
    let fit = told.rounds.first()?.fit.as_ref().ok()?;
    (told.rounds.len() == 1 && place(&fit.params) == problem.items[0].site && answer(&found) == 6).then(|| vec![found])
}

/// An aircraft on the Earth's axis, heard without error.
fn at_pole(random: &mut Random) -> Option<Vec<Scene>> {
    let n = 6 + random.below(3);
    let mut base = sound(random, n, true);
    let pole = geo::Geodetic { lat_deg: random.of(&[90.0, -90.0]), lon_deg: 0.0, height_m: 9_000.0 };
    let sites = sky::sites(random, pole, 150_000.0, n);
    base.receptions.iter_mut().zip(sites).for_each(|(r, site)| r.site_mm = site);
    base.altitude = Some((2, 9_000.0));
    let [_, _, z] = geo::to_ecef(pole);
    let found = hears(&base, [0.0, 0.0, z]);
    (answer(&found) == 0).then(|| vec![found])
}

/// A reference seconds before, and a transmit time so near half a picosecond that multiplying before dividing rounds it the other way.
fn half(random: &mut Random) -> Option<Vec<Scene>> {
    let base = sound(random, 5, true);
    let shown = |scene: &Scene| {
        let (answer, record) = record(&scene.files());
        let t = f64::from_le_bytes(record[40..48].try_into().expect("eight bytes"));
        answer == 0 && (t / geo::C * 1e12).round() != (t * 1e12 / geo::C).round()
    };
    let later = |metres: f64| {
        let mut scene = base.clone();
        scene.receptions.iter_mut().for_each(|r| r.z += metres);
        scene
    };
    (0..20_000).map(|_| later(random.between(2e9, 2.9e9))).find(shown).map(|scene| vec![scene])
}
