//! Matrices, factors and vectors of every kind, from a seed.

pub struct Random(u64);

pub const KINDS: [&str; 10] = [
    "well conditioned",
    "badly conditioned",
    "singular",
    "small whole numbers",
    "zeros among the entries",
    "infinities and not-a-numbers",
    "any bits",
    "huge and tiny",
    "not symmetric",
    "diagonal",
];

impl Random {
    pub fn new(seed: u64) -> Self {
        Self(seed)
    }

    /// splitmix64
    pub fn bits(&mut self) -> u64 {
        self.0 = self.0.wrapping_add(0x9e37_79b9_7f4a_7c15);
        let a = (self.0 ^ (self.0 >> 30)).wrapping_mul(0xbf58_476d_1ce4_e5b9);
        let b = (a ^ (a >> 27)).wrapping_mul(0x94d0_49bb_1331_11eb);
        b ^ (b >> 31)
    }

    pub fn below(&mut self, n: usize) -> usize {
        (self.bits() % n as u64) as usize
    }

    /// From -1 up to 1.
    pub fn unit(&mut self) -> f64 {
        (self.bits() >> 11) as f64 / (1u64 << 52) as f64 - 1.0
    }

    pub fn special(&mut self) -> f64 {
        const SPECIAL: [f64; 10] = [
            0.0,
            -0.0,
            1.0,
            -1.0,
            f64::INFINITY,
            f64::NEG_INFINITY,
            f64::NAN,
            f64::MAX,
            f64::MIN_POSITIVE,
            5e-324,
        ];
        SPECIAL[self.below(SPECIAL.len())]
    }

    fn whole(&mut self, most: usize) -> f64 {
        self.below(2 * most + 1) as f64 - most as f64
    }

    fn scaled(&mut self, most: i32) -> f64 {
        let power = self.below(2 * most as usize + 1) as i32 - most;
        self.unit() * 10f64.powi(power)
    }

    /// The sizes 3 and 4, which the solver uses most, come up more often than the others.
    pub fn size(&mut self) -> usize {
        match self.below(4) {
            0 => 3 + self.below(2),
            _ => self.below(33),
        }
    }

    /// G Gᵀ for a G with `rank` columns, plus `ridge` on the diagonal.
    fn product(&mut self, n: usize, rank: usize, ridge: f64, whole: bool) -> Vec<f64> {
        let g: Vec<f64> = (0..n * rank)
            .map(|_| if whole { self.whole(3) } else { self.unit() })
            .collect();
        let mut m = vec![0.0; n * n];
        for i in 0..n {
            for j in 0..n {
                for k in 0..rank {
                    m[i * n + j] += g[i * rank + k] * g[j * rank + k];
                }
            }
            m[i * n + i] += ridge;
        }
        m
    }

    pub fn matrix(&mut self, kind: usize, n: usize) -> Vec<f64> {
        let mut m = match kind {
            0 | 4 | 5 | 8 => self.product(n, n, 0.25, false),
            1 | 7 => self.product(n, n, 1e-9, false),
            2 => {
                let rank = if n == 0 { 0 } else { self.below(n) };
                self.product(n, rank, 0.0, false)
            }
            3 => {
                let rank = self.below(n + 1);
                let ridge = self.below(2) as f64;
                self.product(n, rank, ridge, true)
            }
            6 => (0..n * n).map(|_| f64::from_bits(self.bits())).collect(),
            _ => {
                let mut m = vec![0.0; n * n];
                for i in 0..n {
                    let pivot = self.scaled(300);
                    m[i * n + i] = match self.below(64) {
                        0 => self.special(),
                        1 => pivot,
                        _ => pivot.abs(),
                    };
                }
                m
            }
        };
        match kind {
            1 | 7 => self.rescale(n, &mut m, if kind == 1 { 6 } else { 160 }),
            4 => self.sprinkle(&mut m, |_| 0.0),
            5 => self.sprinkle(&mut m, Self::special),
            8 => self.sprinkle(&mut m, Self::unit),
            _ => {}
        }
        m
    }

    /// Row and column i by one power of ten each.
    fn rescale(&mut self, n: usize, m: &mut [f64], most: i32) {
        for i in 0..n {
            let by = 10f64.powi(self.below(2 * most as usize + 1) as i32 - most);
            for j in 0..n {
                m[i * n + j] *= by;
                m[j * n + i] *= by;
            }
        }
    }

    fn sprinkle(&mut self, m: &mut [f64], value: fn(&mut Self) -> f64) {
        for _ in 0..1 + m.len() / 8 {
            if !m.is_empty() {
                let at = self.below(m.len());
                m[at] = value(self);
            }
        }
    }

    /// A factor that no matrix need have: zeros, infinities and not-a-numbers may stand on its diagonal.
    pub fn factor(&mut self, n: usize) -> Vec<f64> {
        let mut l = vec![0.0; n * n];
        for i in 0..n {
            for j in 0..=i {
                l[i * n + j] = self.scaled(3);
            }
        }
        if self.below(2) == 0 {
            self.sprinkle(&mut l, Self::special);
        }
        l
    }

    pub fn vector(&mut self, n: usize) -> Vec<f64> {
        let kind = self.below(8);
        (0..n)
            .map(|_| match kind {
                0 => self.special(),
                1 => f64::from_bits(self.bits()),
                2 => self.whole(4),
                3 => -0.0,
                _ => self.scaled(4),
            })
            .collect()
    }
}
