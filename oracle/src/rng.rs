//! Numbers at random, the same ones for the same seed (SplitMix64).

pub struct Rng(u64);

impl Rng {
    pub fn new(seed: u64) -> Self {
        Rng(seed)
    }

    fn draw(&mut self) -> u64 {
        self.0 = self.0.wrapping_add(0x9E37_79B9_7F4A_7C15);
        let z = (self.0 ^ (self.0 >> 30)).wrapping_mul(0xBF58_476D_1CE4_E5B9);
        let z = (z ^ (z >> 27)).wrapping_mul(0x94D0_49BB_1331_11EB);
        z ^ (z >> 31)
    }

    pub fn word(&mut self) -> u32 {
        (self.draw() >> 32) as u32
    }

    pub fn between(&mut self, least: u32, most: u32) -> u32 {
        let count = u64::from(most - least) + 1;
        least + ((u64::from(self.word()) * count) >> 32) as u32
    }

    pub fn one_in(&mut self, n: u32) -> bool {
        self.between(1, n) == n
    }

    pub fn pick<T: Copy>(&mut self, choices: &[T]) -> T {
        choices[self.between(0, choices.len() as u32 - 1) as usize]
    }

    /// A number of any bit length, each as often as the others.
    pub fn any_width(&mut self) -> u32 {
        let bits = self.between(0, 32);
        self.word().checked_shr(32 - bits).unwrap_or(0)
    }

    /// A number of the range, one of its ends in half of the cases.
    pub fn or_end(&mut self, least: u32, most: u32) -> u32 {
        match self.between(0, 3) {
            0 => least,
            1 => most,
            _ => self.between(least, most),
        }
    }

    pub fn fill(&mut self, bytes: &mut [u8]) {
        bytes.fill_with(|| self.word() as u8);
    }
}
