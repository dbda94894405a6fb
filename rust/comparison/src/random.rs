//! Numbers that look random and are the same in every run.

/// splitmix64
pub struct Random(u64);

/// Patterns at which float code goes wrong: zeros, subnormals, the ends of the range, infinities, NaNs quiet
/// and signalling.
const HOSTILE: [u32; 22] = [
    0x0000_0000,
    0x8000_0000,
    0x0000_0001,
    0x8000_0001,
    0x007f_ffff,
    0x0080_0000,
    0x8080_0000,
    0x3f80_0000,
    0xbf80_0000,
    0x7f7f_ffff,
    0xff7f_ffff,
    0x7f80_0000,
    0xff80_0000,
    0x7fc0_0000,
    0xffc1_2345,
    0x7f80_0001,
    0xff80_0001,
    0x7fa5_5aa5,
    0x0da2_4260,
    0x7149_f2ca,
    0xf149_f2ca,
    0x3380_0000,
];

impl Random {
    pub fn new(seed: u64) -> Self {
        Self(seed.wrapping_mul(0xd134_2543_de82_ef95))
    }

    pub fn bits(&mut self) -> u64 {
        self.0 = self.0.wrapping_add(0x9e37_79b9_7f4a_7c15);
        let mut z = self.0;
        z = (z ^ (z >> 30)).wrapping_mul(0xbf58_476d_1ce4_e5b9);
        z = (z ^ (z >> 27)).wrapping_mul(0x94d0_49bb_1331_11eb);
        z ^ (z >> 31)
    }

    pub fn below(&mut self, n: usize) -> usize {
        (self.bits() >> 11) as usize % n
    }

    pub fn within(&mut self, first: usize, last: usize) -> usize {
        first + self.below(last - first + 1)
    }

    /// True in so many cases of a hundred.
    pub fn percent(&mut self, n: usize) -> bool {
        self.below(100) < n
    }

    pub fn one_of<T: Copy>(&mut self, list: &[T]) -> T {
        list[self.below(list.len())]
    }

    pub fn between(&mut self, low: f32, high: f32) -> f32 {
        let unit = (self.bits() >> 40) as f32 / (1u32 << 24) as f32;
        low + unit * (high - low)
    }

    pub fn hostile(&mut self) -> f32 {
        f32::from_bits(self.one_of(&HOSTILE))
    }

    /// A signalling NaN of either sign and any payload.
    pub fn signalling(&mut self) -> f32 {
        f32::from_bits(self.bits() as u32 & 0x803f_ffff | 0x7f80_0001)
    }

    /// Other numbers, which leave these as they are.
    pub fn beside(&self) -> Self {
        Self(self.0 ^ 0x5851_f42d_4c95_7f2d)
    }
}
