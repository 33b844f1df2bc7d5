//! SplitMix64: small, and the same on every machine.

pub struct Rng {
    state: u64,
}

impl Rng {
    /// The stream of one history: each number of each seed has its own.
    pub fn new(seed: u64, number: u64) -> Self {
        let mut rng = Self { state: seed };
        rng.state = rng.draw() ^ number.wrapping_mul(0xD134_2543_DE82_EF95);
        rng
    }

    pub fn draw(&mut self) -> u64 {
        self.state = self.state.wrapping_add(0x9E37_79B9_7F4A_7C15);
        let mut z = self.state;
        z = (z ^ z >> 30).wrapping_mul(0xBF58_476D_1CE4_E5B9);
        z = (z ^ z >> 27).wrapping_mul(0x94D0_49BB_1331_11EB);
        z ^ z >> 31
    }

    pub fn word(&mut self) -> u32 {
        (self.draw() >> 32) as u32
    }

    /// Below `bound`, which is not 0. The modulo's lean is of no account here.
    pub fn below(&mut self, bound: usize) -> usize {
        (self.draw() % bound as u64) as usize
    }

    pub fn chance(&mut self, percent: u32) -> bool {
        self.below(100) < percent as usize
    }

    pub fn pick<T: Copy>(&mut self, from: &[T]) -> T {
        from[self.below(from.len())]
    }
}
