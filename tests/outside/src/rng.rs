//! A small seeded generator of numbers (splitmix).

pub struct Rng(u64);

impl Rng {
    pub fn new(seed: u64) -> Rng {
        Rng(seed)
    }

    pub fn next(&mut self) -> u64 {
        self.0 = self.0.wrapping_add(0x9E37_79B9_7F4A_7C15);
        let mut z = self.0;
        z = (z ^ (z >> 30)).wrapping_mul(0xBF58_476D_1CE4_E5B9);
        z = (z ^ (z >> 27)).wrapping_mul(0x94D0_49BB_1331_11EB);
        z ^ (z >> 31)
    }

    pub fn below(&mut self, bound: u64) -> u64 {
        self.next() % bound
    }

    /// A number from low to high, both included.
    pub fn range(&mut self, low: u64, high: u64) -> u64 {
        low + self.below(high - low + 1)
    }

    /// As range, but every order of magnitude is about as likely.
    pub fn spread(&mut self, low: u64, high: u64) -> u64 {
        let magnitude = |number: u64| u64::from(63 - number.max(1).leading_zeros());
        let bits = self.range(magnitude(low), magnitude(high));
        let from = low.max(1 << bits);
        let to = high.min((2 << bits) - 1);
        self.range(from.min(to), to)
    }

    pub fn chance(&mut self, wins: u64, of: u64) -> bool {
        self.below(of) < wins
    }

    pub fn pick<T: Copy>(&mut self, from: &[T]) -> T {
        from[self.below(from.len() as u64) as usize]
    }

    pub fn index(&mut self, length: usize) -> usize {
        self.below(length as u64) as usize
    }

    pub fn shuffle<T>(&mut self, row: &mut [T]) {
        for last in (1..row.len()).rev() {
            row.swap(last, self.index(last + 1));
        }
    }

    /// Some different numbers out of 1 to highest, in random order.
    pub fn numbers(&mut self, how_many: usize, highest: u16) -> Vec<u16> {
        let mut all: Vec<u16> = (1..=highest).collect();
        self.shuffle(&mut all);
        all.truncate(how_many);
        all
    }
}
