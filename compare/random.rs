//! xorshift64 from a fixed seed: every run has the same arguments.

pub struct Random(pub u64);

#[allow(dead_code)]
impl Random {
    pub fn next(&mut self) -> u64 {
        self.0 ^= self.0 << 13;
        self.0 ^= self.0 >> 7;
        self.0 ^= self.0 << 17;
        self.0
    }

    pub fn within(&mut self, low: f64, high: f64) -> f64 {
        low + (high - low) * ((self.next() >> 11) as f64 / (1u64 << 53) as f64)
    }

    /// A finite number, every one as likely.
    pub fn any_size(&mut self) -> f64 {
        f64::from_bits(self.next() % 0x7ff0_0000_0000_0000 | self.next() & 1 << 63)
    }
}
