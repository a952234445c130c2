//! Numbers from a seed: every run has the same problems, on every machine.

#[derive(Clone)]
pub struct Random(u64);

impl Random {
    pub fn new(seed: u64) -> Self {
        Self(seed)
    }

    /// That of the k-th problem under a seed, so that each problem can be made anew by itself.
    pub fn of_problem(seed: u64, k: u64) -> Self {
        Self(Self(seed).bits() ^ Self(!k).bits())
    }

    /// splitmix64
    pub fn bits(&mut self) -> u64 {
        self.0 = self.0.wrapping_add(0x9e37_79b9_7f4a_7c15);
        let a = (self.0 ^ (self.0 >> 30)).wrapping_mul(0xbf58_476d_1ce4_e5b9);
        let b = (a ^ (a >> 27)).wrapping_mul(0x94d0_49bb_1331_11eb);
        b ^ (b >> 31)
    }

    pub fn below(&mut self, n: usize) -> usize {
        (self.bits() % n as u64) as usize
    }

    pub fn one_in(&mut self, n: usize) -> bool {
        self.below(n) == 0
    }

    /// Whole, both ends included.
    pub fn whole(&mut self, low: i64, high: i64) -> i64 {
        low.wrapping_add((self.bits() % (high.wrapping_sub(low) as u64).wrapping_add(1).max(1)) as i64)
    }

    /// From 0 up to 1.
    pub fn part(&mut self) -> f64 {
        (self.bits() >> 11) as f64 / (1u64 << 53) as f64
    }

    pub fn between(&mut self, low: f64, high: f64) -> f64 {
        low + (high - low) * self.part()
    }

    /// Of either sign.
    pub fn within(&mut self, size: f64) -> f64 {
        self.between(-size, size)
    }

    /// A power of ten between the two, times 1 to 10.
    pub fn decades(&mut self, low: i64, high: i64) -> f64 {
        let power = self.whole(low, high);
        self.between(1.0, 10.0) * ten_to(power)
    }

    /// Near a standard normal: twelve uniform ones, less 6.
    pub fn normal(&mut self) -> f64 {
        (0..12).fold(-6.0, |sum, _| sum + self.part())
    }

    pub fn of<T: Copy>(&mut self, values: &[T]) -> T {
        values[self.below(values.len())]
    }
}

pub fn ten_to(power: i64) -> f64 {
    let size = (0..power.unsigned_abs()).fold(1.0, |size, _| size * 10.0);
    if power < 0 { 1.0 / size } else { size }
}
