//! A small generator of numbers (splitmix64): the same seed gives the same session on every machine.

pub struct Random(u64);

impl Random {
    /// The generator of one session: of a seed, a family and the session's number.
    pub fn new(seed: u64, family: u64, number: u64) -> Random {
        let mut random = Random(seed);
        random.0 = random.long() ^ family;
        random.0 = random.long() ^ number;
        random
    }

    fn long(&mut self) -> u64 {
        self.0 = self.0.wrapping_add(0x9E37_79B9_7F4A_7C15);
        let mut z = self.0;
        z = (z ^ (z >> 30)).wrapping_mul(0xBF58_476D_1CE4_E5B9);
        z = (z ^ (z >> 27)).wrapping_mul(0x94D0_49BB_1331_11EB);
        z ^ (z >> 31)
    }

    pub fn word(&mut self) -> u32 {
        self.long() as u32
    }

    /// A number below `end`.
    pub fn below(&mut self, end: u32) -> u32 {
        (((self.long() >> 32) * end as u64) >> 32) as u32
    }

    /// A number from `first` to `last`.
    pub fn from_to(&mut self, first: u32, last: u32) -> u32 {
        first + self.below(last - first + 1)
    }

    /// True once in `times`.
    pub fn once_in(&mut self, times: u32) -> bool {
        self.below(times) == 0
    }

    pub fn pick<T: Copy>(&mut self, from: &[T]) -> T {
        from[self.below(from.len() as u32) as usize]
    }

    pub fn shuffle<T>(&mut self, list: &mut [T]) {
        for last in (1..list.len()).rev() {
            list.swap(last, self.below(last as u32 + 1) as usize);
        }
    }
}
