//! Problems in which some number of the solve stands exactly at a limit: found by bisection, then by trying neighbours.

use crate::random::Random;
use crate::scene::Scene;

/// `scene(u)` for u from low to high, in which `number` is to be `target` exactly.
pub struct Search<'a> {
    pub low: f64,
    pub high: f64,
    pub scene: &'a dyn Fn(f64) -> Scene,
    pub number: &'a dyn Fn(&Scene) -> Option<f64>,
    pub target: f64,
    pub tries: usize,
}

impl Search<'_> {
    fn above(&self, u: f64) -> Option<bool> {
        (self.number)(&(self.scene)(u)).map(|x| x > self.target)
    }

    /// Neighbours in u, to either side of the target.
    fn bisected(&self) -> Option<(f64, f64)> {
        let (mut low, mut high) = (self.low, self.high);
        let first = self.above(low)?;
        if self.above(high)? == first {
            return None;
        }
        for _ in 0..200 {
            let middle = low + (high - low) / 2.0;
            if middle <= low || middle >= high {
                break;
            }
            if self.above(middle)? == first { low = middle } else { high = middle }
        }
        Some((low, high))
    }

    /// A scene at the target or just below, and one just above it.
    pub fn sides(&self) -> Option<Vec<Scene>> {
        let (low, high) = self.bisected()?;
        let (below, above) = if self.above(low)? { (high, low) } else { (low, high) };
        Some(vec![(self.scene)(below), (self.scene)(above)])
    }

    /// A scene about the target, its bits moved by some.
    fn tried(&self, random: &mut Random, low: f64, high: f64) -> Scene {
        let reach = 1 << random.below(20);
        let by = random.whole(-reach, reach) as f64;
        let mut scene = (self.scene)(low + by * (high - low));
        let i = random.below(scene.n());
        let r = &mut scene.receptions[i];
        r.noise = f64::from_bits(r.noise.to_bits() + random.below(reach as usize) as u64).clamp(1e-6, 1e12);
        scene
    }

    /// The first of those tried that is as asked for.
    pub fn neighbour(&self, random: &mut Random, asked: &dyn Fn(&Scene) -> bool) -> Option<Scene> {
        let (low, high) = self.bisected()?;
        (0..self.tries).map(|_| self.tried(random, low, high)).find(asked)
    }

    /// A scene at the target, and the nearest above and below it that were tried. Each try moves u, and a noise, by some of their last bits.
    pub fn run(&self, random: &mut Random) -> Option<Vec<Scene>> {
        let (low, high) = self.bisected()?;
        let (mut exact, mut above, mut below) = (None, None, None);
        for _ in 0..self.tries {
            let scene = self.tried(random, low, high);
            let off = (self.number)(&scene)? - self.target;
            let side: &mut Option<(f64, Scene)> = if off == 0.0 {
                &mut exact
            } else if off > 0.0 {
                &mut above
            } else {
                &mut below
            };
            if side.as_ref().is_none_or(|(least, _)| off.abs() < *least) {
                *side = Some((off.abs(), scene));
            }
            if exact.is_some() && above.is_some() && below.is_some() {
                return Some(vec![exact?.1, above?.1, below?.1]);
            }
        }
        None
    }
}
