//! Numbers for made-up cases: the same seed gives the same cases on every machine.

/// The seed of every run; the environment variable SEED puts another in its place.
pub const SEED: u64 = 20_240_229;

pub fn seed() -> u64 {
    match std::env::var("SEED") {
        Ok(word) => word.parse().expect("SEED is a whole number"),
        Err(_) => SEED,
    }
}

/// How many cases to make: as usual, or as many times that as the environment variable TIMES says.
pub fn cases(usual: u64) -> u64 {
    match std::env::var("TIMES") {
        Ok(word) => usual * word.parse::<u64>().expect("TIMES is a whole number"),
        Err(_) => usual,
    }
}

/// SplitMix64: one word of state, so that a case is reproduced from the seed and its number alone.
pub struct Seeded(u64);

impl Seeded {
    pub fn case(seed: u64, number: u64) -> Seeded {
        let mut seeded = Seeded(seed ^ number.wrapping_mul(0xd1b5_4a32_d192_ed03));
        seeded.word();
        seeded
    }

    pub fn word(&mut self) -> u64 {
        self.0 = self.0.wrapping_add(0x9e37_79b9_7f4a_7c15);
        let mut word = self.0;
        word = (word ^ (word >> 30)).wrapping_mul(0xbf58_476d_1ce4_e5b9);
        word = (word ^ (word >> 27)).wrapping_mul(0x94d0_49bb_1331_11eb);
        word ^ (word >> 31)
    }

    /// From 0 up to, not including, the limit.
    pub fn below(&mut self, limit: u64) -> u64 {
        self.word() % limit
    }

    /// Both ends included.
    pub fn between(&mut self, low: u64, high: u64) -> u64 {
        low + self.below(high - low + 1)
    }

    /// Once in so many times.
    pub fn once_in(&mut self, times: u64) -> bool {
        self.below(times) == 0
    }

    pub fn one_of<T: Copy>(&mut self, these: &[T]) -> T {
        these[self.below(these.len() as u64) as usize]
    }

    pub fn bytes(&mut self, count: u64) -> Vec<u8> {
        (0..count).map(|_| self.word() as u8).collect()
    }
}

pub fn hex(bytes: &[u8]) -> String {
    bytes.iter().map(|byte| format!("{:02x}", byte)).collect()
}
