//! What bench/solve and bench/growth share: problems that both sides answer with a fix, and times of sides that take
//! turns.

use oracle::geo;
use oracle::random::Random;
use oracle::record;
use oracle::scene::Scene;
use oracle::sky;
use oracle::trace::trace;

#[repr(C)]
struct Time {
    seconds: i64,
    nanoseconds: i64,
}

extern "C" {
    fn clock_gettime(clock: i32, time: *mut Time) -> i32;
}

/// Processor time of this process, nanoseconds.
fn now() -> f64 {
    const PROCESS: i32 = 2;
    let mut time = Time { seconds: 0, nanoseconds: 0 };
    unsafe { clock_gettime(PROCESS, &mut time) };
    time.seconds as f64 * 1e9 + time.nanoseconds as f64
}

/// The least time a problem of either side in so many runs, microseconds. They take turns, so that a slow moment of the
/// machine meets both.
pub fn least(runs: usize, problems: usize, mut sides: [&mut dyn FnMut(usize); 2]) -> [f64; 2] {
    let mut best = [f64::INFINITY; 2];
    for _ in 0..runs {
        for (side, best) in sides.iter_mut().zip(&mut best) {
            let start = now();
            (0..problems).for_each(|k| side(k));
            *best = best.min((now() - start) / problems as f64 / 1e3);
        }
    }
    best
}

/// So many problems that give a fix, the late receptions left out and no other; none where they are not to be found
/// among 500 times as many.
pub fn problems(n: usize, with_altitude: bool, outliers: usize, count: usize) -> Option<Vec<Scene>> {
    let mut random = Random::new(2_024 + n as u64);
    let mut all = Vec::new();
    for _ in 0..500 * count {
        let mut scene = sky::sound(&mut random, n, with_altitude).scene;
        for r in scene.receptions.iter_mut().take(outliers) {
            let metres = random.between(1_000.0, 3_000.0);
            r.z += metres;
            r.time += (metres / geo::C * 1e12) as i64;
        }
        if record::record(&scene.files()).0 == 0 && trace(&scene.problem()).changes().count() == outliers {
            all.push(scene);
        }
        if all.len() == count {
            return Some(all);
        }
    }
    None
}
