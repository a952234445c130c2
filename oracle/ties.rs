//! Edges of the fit and of what is published that sound problems do not come near, found by search: numbers exactly at a limit, and problems so badly conditioned that a
//! factor fails or a cost is infinite. Each tells a mutant of the original from it (mutants_ties.txt).

use crate::edges::{all, answer, hears, rivals, sound};
use crate::geo;
use crate::linalg::{self, Cholesky, Matrix};
use crate::random::Random;
use crate::scene::Scene;
use crate::sky;
use crate::solve::{self, AMBIGUOUS_COST, Params, Problem, chi2_limit, published};
use crate::tune::Search;

/// A wrong turn of `levenberg_marquardt`.
#[derive(Clone, Copy, PartialEq)]
enum Wrong {
    None,
    FailureRejected,
    InfinityTaken,
    LimitConverged,
}

/// A place and what it costs, where the fit converges, and the greatest component of each step that was taken.
struct Told {
    fit: Option<(Params, f64)>,
    steps: Vec<f64>,
}

fn length(step: &[f64]) -> f64 {
    step.iter().fold(0.0, |most: f64, value| if value.abs() > most { value.abs() } else { most })
}

/// `levenberg_marquardt` of solve.rs with one wrong turn, told step by step.
fn told(problem: &Problem, subset: &[usize], whitener: &Cholesky, start: Params, wrong: Wrong) -> Told {
    let short = |step: &[f64]| step.iter().all(|x| x.abs() < solve::LM_TOLERANCE_M || wrong == Wrong::LimitConverged && x.abs() == solve::LM_TOLERANCE_M);
    let at = |params: &Params| {
        let (residuals, jacobian) = problem.whitened(subset, whitener, params);
        Problem::normal(&residuals, &jacobian)
    };
    let (mut params, mut lambda, mut steps) = (start, solve::LM_LAMBDA, Vec::new());
    let (mut information, mut gradient, mut cost) = at(&params);
    for _ in 0..solve::LM_ITERATIONS {
        let mut damped = information.clone();
        (0..4).for_each(|i| damped.add(i, i, lambda * information.get(i, i).max(1e-12)));
        let mut taken = false;
        match damped.cholesky() {
            None if wrong != Wrong::FailureRejected => return Told { fit: None, steps },
            None => {}
            Some(factor) => {
                let step = factor.solve(&gradient.map(|value| -value));
                let candidate = [0, 1, 2, 3].map(|k| params[k] + step[k]);
                let next = at(&candidate);
                if (next.2.is_finite() || wrong == Wrong::InfinityTaken) && next.2 <= cost {
                    taken = true;
                    params = candidate;
                    (information, gradient, cost) = next;
                    lambda = (lambda / 10.0).max(1e-12);
                    steps.push(length(&step));
                    if short(&step) {
                        return Told { fit: Some((params, cost)), steps };
                    }
                }
            }
        }
        if !taken {
            lambda *= 10.0;
            if lambda > 1e12 {
                break;
            }
        }
    }
    let last = information.cholesky().map(|factor| factor.solve(&gradient.map(|value| -value)));
    Told { fit: last.filter(|step| short(step)).map(|_| (params, cost)), steps }
}

/// The place, cost and start of the best plausible fit; 2 or 3 where there is none.
fn best(problem: &Problem, subset: &[usize], starts: &[Params], wrong: Wrong) -> Result<(Params, f64, usize), u32> {
    let whitener = problem.whitener(subset).ok_or(6u32)?;
    let mut found: Result<(Params, f64, usize), u32> = Err(2);
    for (k, start) in starts.iter().enumerate() {
        let Some((params, cost)) = told(problem, subset, &whitener, *start, wrong).fit else { continue };
        if !problem.plausible(subset, &params) {
            found = found.or(Err(3));
        } else if found.as_ref().map_or(true, |(_, least, _)| cost < *least) {
            found = Ok((params, cost, k));
        }
    }
    found
}

/// Whether the first round's best fit is another with that wrong turn.
fn tells(scene: &Scene, wrong: Wrong) -> bool {
    let (problem, subset) = (scene.problem(), all(scene));
    let starts = problem.starts(&subset);
    best(&problem, &subset, &starts, Wrong::None) != best(&problem, &subset, &starts, wrong)
}

/// A noise is changed until a step of the best fit is 1e-4 long, to the last bit.
pub fn step(random: &mut Random) -> Option<Vec<Scene>> {
    let n = 5 + random.below(3);
    let with_altitude = random.one_in(2);
    let base = sound(random, n, with_altitude);
    let (problem, subset) = (base.problem(), all(&base));
    let (_, _, start) = best(&problem, &subset, &problem.starts(&subset), Wrong::None).ok()?;
    let steps = |scene: &Scene| {
        let problem = scene.problem();
        Some(told(&problem, &subset, &problem.whitener(&subset)?, *problem.starts(&subset).get(start)?, Wrong::None).steps)
    };
    let k = steps(&base)?.iter().position(|length| (3e-5..3e-4).contains(length))?;
    let i = random.below(n);
    let noisy = |u: f64| {
        let mut scene = base.clone();
        scene.receptions[i].noise = (scene.receptions[i].noise * u).clamp(1e-6, 1e12);
        scene
    };
    let number = |scene: &Scene| steps(scene)?.get(k).copied();
    let found = Search { low: 0.1, high: 10.0, scene: &noisy, number: &number, target: solve::LM_TOLERANCE_M, tries: 400 }.run(random)?;
    (answer(&found[0]) == 0 && tells(&found[0], Wrong::LimitConverged)).then_some(found)
}

/// Errors grow until the cost is the published limit, to the last bit.
pub fn cost(random: &mut Random) -> Option<Vec<Scene>> {
    let n = 4 + random.below(5);
    let sky = sky::sound(random, n, true);
    let base = hears(&Scene { clock: Some(vec![0.0; n * n]), ..sky.scene }, sky.aircraft);
    let error: Vec<f64> = (0..n).map(|_| random.part()).collect();
    let strained = |u: f64| {
        let mut scene = base.clone();
        scene.receptions.iter_mut().zip(&error).for_each(|(r, error)| r.z += u * error * r.noise.sqrt());
        scene
    };
    let number = |scene: &Scene| {
        let (problem, subset) = (scene.problem(), all(scene));
        let fit = problem.best_fit(&subset, &problem.starts(&subset)).ok()?;
        let (_, jacobian) = problem.whitened(&subset, &problem.whitener(&subset)?, &fit.params);
        Some(fit.cost - solve::published_chi2_limit(n as u32 - 3, solve::rounding_norm(&jacobian)))
    };
    let found = Search { low: 0.0, high: 100.0, scene: &strained, number: &number, target: 0.0, tries: 400 }.run(random)?;
    (answer(&found[0]) == 0 && answer(&found[1]) == 5).then_some(found)
}

/// Two places that fit alike, brought apart by less noise until their distance is the limit, to the last bit.
pub fn distance(random: &mut Random) -> Option<Vec<Scene>> {
    let base = sound(random, 3, true);
    let noisy = |u: f64| {
        let mut scene = base.clone();
        scene.receptions.iter_mut().for_each(|r| r.noise = u);
        scene
    };
    let number = |scene: &Scene| {
        let (best, others) = rivals(scene)?;
        let alike = others.iter().filter(|(other, _)| other.cost <= best.cost + AMBIGUOUS_COST);
        Some(alike.map(|(_, distance)| *distance).fold(0.0, f64::max))
    };
    let found = Search { low: 1.0, high: 1e9, scene: &noisy, number: &number, target: chi2_limit(4), tries: 400 }.run(random)?;
    (answer(&found[0]) != 8 && answer(&found[1]) == 8).then_some(found)
}

/// A second fit whose cost less the best's is 9 or more by another rounding than the best's cost plus 9.
pub fn nine(random: &mut Random) -> Option<Vec<Scene>> {
    let base = sound(random, 4, true);
    let far = |scene: &Scene| {
        let (best, others) = rivals(scene)?;
        let other = others.iter().find(|(_, distance)| *distance > chi2_limit(4))?;
        Some((best.cost, other.0.cost))
    };
    far(&base)?;
    let i = random.below(4);
    let noisy = |u: f64| {
        let mut scene = base.clone();
        scene.receptions[i].noise = u;
        scene
    };
    let number = |scene: &Scene| far(scene).map(|(best, other)| other - (best + AMBIGUOUS_COST));
    let search = Search { low: 1e-2, high: 1e9, scene: &noisy, number: &number, target: 0.0, tries: 600 };
    let tells = |scene: &Scene| far(scene).is_some_and(|(best, other)| (other > best + AMBIGUOUS_COST) != (other - best > AMBIGUOUS_COST));
    let scene = search.neighbour(random, &tells)?;
    let weighed = far(&scene).is_some_and(|(best, other)| other <= best + AMBIGUOUS_COST);
    ((answer(&scene) == 8) == weighed).then(|| vec![scene])
}

/// Sites in a plane, and an aircraft so little off it that its way across is hardly determined.
fn planar(random: &mut Random) -> Scene {
    let n = 5 + random.below(6);
    let with_altitude = random.one_in(6);
    let sky = sky::sound(random, n, with_altitude);
    let mut base = sky.scene;
    base.clock = Some(vec![0.0; n * n]);
    let height = random.between(500.0, 9_000.0);
    let middle = sky::beside(sky.centre, 0.0, 0.0, height);
    let at = geo::from_ecef(middle);
    let [east, north, up] = geo::enu_basis(at.lat_deg, at.lon_deg);
    let spread = random.of(&[20_000.0, 60_000.0, 150_000.0]);
    for r in &mut base.receptions {
        let (e, n) = (random.within(spread), random.within(spread));
        r.site_mm = geo::to_mm([0, 1, 2].map(|axis| middle[axis] + e * east[axis] + n * north[axis]));
    }
    let off = random.decades(-4, 1);
    let there = [0, 1, 2].map(|axis| middle[axis] + off * up[axis]);
    base.altitude = base.altitude.map(|(kind, _)| (kind, height + off));
    let noise = random.decades(-6, -2);
    base.receptions.iter_mut().for_each(|r| r.noise = noise);
    hears(&base, there)
}

/// Whether the first three rows and columns have a factor.
fn has_factor(covariance: &[[f64; 3]; 3]) -> bool {
    let mut check = Matrix::zeros(3);
    (0..9).for_each(|k| check.set(k / 3, k % 3, covariance[k / 3][k % 3]));
    check.cholesky().is_some()
}

/// The covariance of the first round's best fit, and what is published of it.
fn claimed(scene: &Scene) -> Option<([[f64; 3]; 3], [[f64; 3]; 3])> {
    let (problem, subset) = (scene.problem(), all(scene));
    let fit = problem.best_fit(&subset, &problem.starts(&subset)).ok()?;
    let inverse = fit.information.cholesky()?.inverse();
    Some(([0, 1, 2].map(|i| [0, 1, 2].map(|j| inverse.get(i, j))), published(&inverse)))
}

/// A published covariance without a factor, and variances within their limit.
pub fn no_factor(random: &mut Random) -> Option<Vec<Scene>> {
    let scene = planar(random);
    let (_, shown) = claimed(&scene)?;
    let small = (0..3).all(|axis| shown[axis][axis] <= 2_250_000.0);
    (small && !has_factor(&shown) && answer(&scene) == 9).then(|| vec![scene])
}

/// A published covariance with a factor, made of one that has none.
pub fn factor_by_floor(random: &mut Random) -> Option<Vec<Scene>> {
    let scene = planar(random);
    let (made, shown) = claimed(&scene)?;
    (!has_factor(&made) && has_factor(&shown) && answer(&scene) == 0).then(|| vec![scene])
}

/// A damped factor that fails, where more damping would help.
pub fn no_damped_factor(random: &mut Random) -> Option<Vec<Scene>> {
    let scene = planar(random);
    tells(&scene, Wrong::FailureRejected).then(|| vec![scene])
}

/// The first coefficient of Bancroft's equation, by the steps of `bancroft` of solve.rs.
fn coefficient(problem: &Problem, subset: &[usize]) -> Option<f64> {
    let n = subset.len() as f64;
    let site = |index: &usize| problem.items[*index].site;
    let centroid = subset.iter().fold([0.0; 3], |sum, index| linalg::add(sum, linalg::scale(site(index), 1.0 / n)));
    let (mut square, mut sums) = (Matrix::zeros(4), [0.0; 4]);
    for index in subset {
        let [x, y, z] = linalg::sub(site(index), centroid);
        let row = [x, y, z, problem.items[*index].z];
        (0..16).for_each(|k| square.add(k / 4, k % 4, row[k / 4] * row[k % 4]));
        (0..4).for_each(|k| sums[k] += row[k] * 1.0);
    }
    let u = square.cholesky()?.solve(&sums);
    Some(u[0] * u[0] + u[1] * u[1] + u[2] * u[2] - -u[3] * -u[3])
}

/// Bancroft's equation is linear to the last bit: z of one reception is changed until its first coefficient is 0.
pub fn linear(random: &mut Random) -> Option<Vec<Scene>> {
    let n = 4 + random.below(3);
    let with_altitude = random.one_in(2);
    let base = sound(random, n, with_altitude);
    let i = random.below(n);
    let late = |u: f64| {
        let mut scene = base.clone();
        scene.receptions[i].z = (scene.receptions[i].z + u).clamp(0.0, 3e9);
        scene
    };
    let number = |scene: &Scene| coefficient(&scene.problem(), &all(scene));
    let search = Search { low: -100_000.0, high: 300_000.0, scene: &late, number: &number, target: 0.0, tries: 400 };
    let shown = |scene: &Scene| {
        let (problem, subset) = (scene.problem(), all(scene));
        let starts = problem.starts(&subset);
        starts.len() == 2 && best(&problem, &subset, &starts, Wrong::None) != best(&problem, &subset, &starts[1..], Wrong::None)
    };
    search.neighbour(random, &shown).map(|scene| vec![scene])
}

/// Clocks so nearly dependent that whitened residuals grow from row to row, and z seconds apart: the start costs more than there are numbers.
pub fn infinite(random: &mut Random) -> Option<Vec<Scene>> {
    let n = 26 + random.below(7);
    let with_altitude = random.one_in(2);
    let mut scene = sky::sound(random, n, with_altitude).scene;
    let (small, growth) = (1e-3, 10f64.powf(random.between(154.0, 162.0) / (n as f64 - 1.0)));
    let large = small * growth / 1e9f64.powf(1.0 / (n as f64 - 1.0));
    if large > 9e5 {
        return None;
    }
    let mut clock = vec![0.0; n * n];
    for i in 0..n {
        clock[i * n + i] = if i > 0 { large * large } else { 0.0 };
        if i > 0 {
            clock[(i - 1) * n + i] = small * large;
        }
        scene.receptions[i].noise = small * small;
    }
    scene.clock = Some(clock);
    scene.receptions[0].z = random.of(&[3e9, 1e9, 1e8, 1e6]);
    tells(&scene, Wrong::InfinityTaken).then(|| vec![scene])
}
