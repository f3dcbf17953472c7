//! Random numbers from a seed: the same seed gives the same run (splitmix64).

pub struct Random(u64);

impl Random {
    pub fn new(seed: u64) -> Random {
        Random(seed)
    }

    pub fn word(&mut self) -> u64 {
        self.0 = self.0.wrapping_add(0x9E37_79B9_7F4A_7C15);
        let mut z = self.0;
        z = (z ^ (z >> 30)).wrapping_mul(0xBF58_476D_1CE4_E5B9);
        z = (z ^ (z >> 27)).wrapping_mul(0x94D0_49BB_1331_11EB);
        z ^ (z >> 31)
    }

    /// 0 to `end` less one.
    pub fn below(&mut self, end: u32) -> u32 {
        ((self.word() >> 32) * u64::from(end) >> 32) as u32
    }

    /// `low` to `high`.
    pub fn from(&mut self, low: u32, high: u32) -> u32 {
        low + self.below(high - low + 1)
    }

    /// True in `percent` of a hundred cases.
    pub fn chance(&mut self, percent: u32) -> bool {
        self.below(100) < percent
    }

    pub fn pick<T: Copy>(&mut self, from: &[T]) -> T {
        from[self.below(from.len() as u32) as usize]
    }

    pub fn bytes(&mut self, count: usize) -> Vec<u8> {
        (0..count).map(|_| self.word() as u8).collect()
    }

    /// Any number: one of the edges of the paper's ranges and its neighbours, or one of any size.
    pub fn number(&mut self) -> u32 {
        const EDGES: [u32; 20] = [
            0,
            1,
            4,
            13,
            24,
            44,
            54,
            91,
            128,
            255,
            256,
            300,
            324,
            65_535,
            65_536,
            86_400,
            131_070,
            524_287,
            1 << 31,
            u32::MAX,
        ];
        if self.chance(50) {
            return self.pick(&EDGES).wrapping_add(self.below(3)).wrapping_sub(1);
        }
        let width = self.below(32);
        (self.word() as u32) >> width
    }
}
