//! Random numbers (splitmix64) and the integers worth trying.

pub struct Random(u64);

impl Random {
    pub fn new(seed: u64) -> Random {
        Random(seed)
    }

    pub fn next(&mut self) -> u64 {
        self.0 = self.0.wrapping_add(0x9E37_79B9_7F4A_7C15);
        let mut z = self.0;
        z = (z ^ (z >> 30)).wrapping_mul(0xBF58_476D_1CE4_E5B9);
        z = (z ^ (z >> 27)).wrapping_mul(0x94D0_49BB_1331_11EB);
        z ^ (z >> 31)
    }

    /// 0 to count - 1.
    pub fn below(&mut self, count: usize) -> usize {
        (self.next() % count as u64) as usize
    }

    /// Both ends included.
    pub fn between(&mut self, low: i64, high: i64) -> i64 {
        low + (self.next() % (high - low + 1) as u64) as i64
    }

    pub fn percent(&mut self, chance: usize) -> bool {
        self.below(100) < chance
    }

    pub fn pick<T: Copy>(&mut self, choices: &[T]) -> T {
        choices[self.below(choices.len())]
    }

    /// Mostly small, else near an end or a half of the range, else any.
    pub fn integer(&mut self) -> i32 {
        let near = self.between(-3, 3);
        let number = match self.below(20) {
            0..=12 => self.between(-6, 12),
            13 | 14 => 2147483647 - near.abs(),
            15 | 16 => -2147483648 + near.abs(),
            17 => 1073741824 + near,
            18 => -1073741824 + near,
            _ => self.next() as i32 as i64,
        };
        number as i32
    }
}
