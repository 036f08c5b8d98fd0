//! A small generator of numbers with a fixed seed, and the floats that cases are made of.

/// SplitMix64.
#[derive(Clone)]
pub struct Random(u64);

impl Random {
    pub fn new(seed: u64) -> Self {
        Random(seed)
    }

    pub fn next(&mut self) -> u64 {
        self.0 = self.0.wrapping_add(0x9e37_79b9_7f4a_7c15);
        let mut z = self.0;
        z = (z ^ (z >> 30)).wrapping_mul(0xbf58_476d_1ce4_e5b9);
        z = (z ^ (z >> 27)).wrapping_mul(0x94d0_49bb_1331_11eb);
        z ^ (z >> 31)
    }

    /// Below `end`, which is not 0.
    pub fn below(&mut self, end: u64) -> u64 {
        self.next() % end
    }

    /// True once in `times`.
    pub fn once_in(&mut self, times: u64) -> bool {
        self.below(times) == 0
    }

    pub fn pick<T: Copy>(&mut self, from: &[T]) -> T {
        from[self.below(from.len() as u64) as usize]
    }

    /// A special float, a plain one, or any bits.
    pub fn float(&mut self) -> f64 {
        match self.below(8) {
            0 | 1 => self.pick(&SPECIAL),
            2 => f64::from_bits(self.next()),
            3 => self.below(7) as f64 - 3.0,
            _ => (self.next() >> 40) as f64 / 4_194_304.0 - 2.0,
        }
    }

    /// A float without infinities, NaN and extremes, seldom zero.
    pub fn plain(&mut self) -> f64 {
        (self.next() >> 20) as f64 / 8_796_093_022_208.0 - 1.0
    }

    /// A float of a list: each NaN has a payload of its own.
    pub fn listed(&mut self) -> f64 {
        let x = self.float();
        if x.is_nan() {
            nan(self.0, 0)
        } else {
            x
        }
    }

    pub fn floats(&mut self, count: usize) -> Vec<f64> {
        // One list in four is plain throughout, so that sums do not all end in NaN.
        let plain = self.once_in(4);
        (0..count).map(|_| if plain { self.plain() } else { self.listed() }).collect()
    }

    /// Numbers below `end`; 0 where there are none.
    pub fn numbers(&mut self, count: usize, end: u64) -> Vec<u32> {
        (0..count).map(|_| if end == 0 { 0 } else { self.below(end) as u32 }).collect()
    }
}

const SPECIAL: [f64; 14] = [
    0.0,
    -0.0,
    0.0,
    -0.0,
    1.0,
    -1.0,
    f64::NAN,
    f64::INFINITY,
    f64::NEG_INFINITY,
    5e-324,
    f64::MIN_POSITIVE,
    f64::MAX,
    f64::MIN,
    std::f64::consts::PI,
];

/// Past every end.
pub const EXTREMES: [u64; 7] = [1 << 16, u32::MAX as u64, 1 << 32, (1 << 32) + 1, 1 << 63, u64::MAX - 1, u64::MAX];

/// A NaN, quiet or signalling, of either sign, with a payload that depends on the seed and ends in this bit.
pub fn nan(seed: u64, last: u64) -> f64 {
    let mixed = seed.wrapping_add(1).wrapping_mul(0x9e37_79b9_7f4a_7c15);
    let payload = mixed ^ (mixed >> 31);
    f64::from_bits(payload & 0x800f_ffff_ffff_fffc | 0x7ff0_0000_0000_0002 | last)
}

/// Equal bits, or both no number.
pub fn same(a: f64, b: f64) -> bool {
    a.to_bits() == b.to_bits() || (a.is_nan() && b.is_nan())
}
