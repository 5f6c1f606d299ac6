//! Seeded draws, so that every run meets the same samples.

/// SplitMix64.
pub struct Draws(u64);

impl Draws {
    pub fn new(seed: u64) -> Self {
        Draws(seed)
    }

    pub fn word(&mut self) -> u64 {
        self.0 = self.0.wrapping_add(0x9e37_79b9_7f4a_7c15);
        let mut value = self.0;
        value = (value ^ (value >> 30)).wrapping_mul(0xbf58_476d_1ce4_e5b9);
        value = (value ^ (value >> 27)).wrapping_mul(0x94d0_49bb_1331_11eb);
        value ^ (value >> 31)
    }

    /// A whole number from first to last, both included.
    pub fn whole(&mut self, first: u64, last: u64) -> u64 {
        first + self.word() % (last - first + 1)
    }

    /// A number of the range, every part of it equally likely.
    pub fn between(&mut self, lo: f32, hi: f32) -> f32 {
        let part = (self.word() >> 11) as f64 / (1_u64 << 53) as f64;
        (f64::from(lo) + part * (f64::from(hi) - f64::from(lo))) as f32
    }

    /// Any pattern of 32 bits.
    pub fn pattern(&mut self) -> f32 {
        f32::from_bits(self.word() as u32)
    }

    /// Any pattern that is no NaN.
    pub fn number(&mut self) -> f32 {
        loop {
            let x = self.pattern();
            if !x.is_nan() {
                return x;
            }
        }
    }

    /// Any pattern that is neither NaN nor an infinity.
    pub fn finite(&mut self) -> f32 {
        loop {
            let x = self.pattern();
            if x.is_finite() {
                return x;
            }
        }
    }

    /// A finite number: subnormal or hardly more, huge, tiny, a zero, or an ordinary one.
    pub fn of_any_size(&mut self) -> f32 {
        match self.whole(1, 5) {
            1 => self.sign() * f32::from_bits(self.whole(0, 1 << 24) as u32),
            2 => self.sign() * self.power_of_ten(),
            3 => self.sign() / self.power_of_ten(),
            4 => self.sign() * 0.0,
            _ => self.between(-1.0, 1.0),
        }
    }

    pub fn sign(&mut self) -> f32 {
        if self.word() % 2 == 0 {
            1.0
        } else {
            -1.0
        }
    }

    /// 1, 10, .. or 1e38.
    pub fn power_of_ten(&mut self) -> f32 {
        10f64.powi(self.whole(0, 38) as i32) as f32
    }
}
