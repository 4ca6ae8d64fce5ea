/// The splitmix64 generator.
#[derive(Clone, Debug)]
pub struct Random(u64);

/// Spreads a number over 64 bits.
pub const fn mix(number: u64) -> u64 {
    let number = (number ^ (number >> 30)).wrapping_mul(0xbf58_476d_1ce4_e5b9);
    let number = (number ^ (number >> 27)).wrapping_mul(0x94d0_49bb_1331_11eb);
    number ^ (number >> 31)
}

impl Random {
    /// The generator of one case of a seed.
    pub const fn of_case(seed: u64, case: u64) -> Self {
        Self(mix(mix(seed.wrapping_add(1)).wrapping_add(case)))
    }

    pub const fn draw(&mut self) -> u64 {
        self.0 = self.0.wrapping_add(0x9e37_79b9_7f4a_7c15);
        mix(self.0)
    }

    /// A number below `bound`, which is not 0.
    pub fn below(&mut self, bound: usize) -> usize {
        (self.draw() >> 16) as usize % bound
    }

    /// A number from `low` to `high`, both included.
    pub fn between(&mut self, low: usize, high: usize) -> usize {
        low + self.below(high - low + 1)
    }

    /// True one time out of `times`.
    pub fn one_in(&mut self, times: usize) -> bool {
        self.below(times) == 0
    }

    /// One of the items, of which there is one at least.
    pub fn pick<T: Copy>(&mut self, items: &[T]) -> T {
        items[self.below(items.len())]
    }

    pub fn shuffle<T>(&mut self, items: &mut [T]) {
        for last in (1..items.len()).rev() {
            items.swap(last, self.below(last + 1));
        }
    }

    /// Each number below `bound` one time out of `times`, in order.
    pub fn some_below(&mut self, bound: usize, times: usize) -> Vec<u16> {
        (0..bound as u16).filter(|_| self.one_in(times)).collect()
    }

    /// A byte that is small most often.
    pub fn byte(&mut self) -> u8 {
        let bound = if self.one_in(4) { 256 } else { 10 };
        self.below(bound) as u8
    }
}
