//! Seeded pseudo-random numbers (splitmix64): one seed gives one list of calls, on every machine.
pub struct Random(u64);

impl Random {
    pub fn new(seed: u64) -> Random {
        Random(seed)
    }

    pub fn bits(&mut self) -> u64 {
        self.0 = self.0.wrapping_add(0x9E37_79B9_7F4A_7C15);
        let mut z = self.0;
        z = (z ^ (z >> 30)).wrapping_mul(0xBF58_476D_1CE4_E5B9);
        z = (z ^ (z >> 27)).wrapping_mul(0x94D0_49BB_1331_11EB);
        z ^ (z >> 31)
    }

    /// A number below `end`, which is above 0.
    pub fn below(&mut self, end: u64) -> u64 {
        self.bits() % end
    }

    pub fn index(&mut self, end: usize) -> usize {
        self.below(end as u64) as usize
    }

    pub fn from_to(&mut self, least: i64, greatest: i64) -> i64 {
        least + self.below((greatest - least) as u64 + 1) as i64
    }

    pub fn load(&mut self, least: i32, greatest: i32) -> i32 {
        self.from_to(least.into(), greatest.into()) as i32
    }

    /// True once in `times` on average.
    pub fn once_in(&mut self, times: u64) -> bool {
        self.below(times) == 0
    }

    pub fn pick<T: Copy>(&mut self, choices: &[T]) -> T {
        choices[self.index(choices.len())]
    }

    /// A place in a list of weights, each as often as its weight says.
    pub fn by_weight(&mut self, weights: &[u64]) -> usize {
        let mut left = self.below(weights.iter().sum());
        let reaches = |weight: &u64| match left.checked_sub(*weight) {
            Some(rest) => {
                left = rest;
                false
            }
            None => true,
        };
        weights.iter().position(reaches).unwrap()
    }

    pub fn note(&mut self) -> [u8; 20] {
        if self.once_in(4) {
            return [0; 20];
        }
        std::array::from_fn(|_| self.bits() as u8)
    }
}
