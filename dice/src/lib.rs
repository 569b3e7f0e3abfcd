//! Numbers from a seed (splitmix64), so that lists of calls, buffers and fleets
//! are the same in every run.

/// The numbers from 0 to below a count in another order, far from rising; the
/// count has no divisor but 1 in common with 7,919.
pub fn scattered(number: usize, count: usize) -> usize {
    7_919 * number % count
}

pub struct Dice(u64);

/// What the state grows by at each number.
const STEP: u64 = 0x9e37_79b9_7f4a_7c15;

impl Dice {
    pub fn new(seed: u64) -> Dice {
        Dice(seed)
    }

    /// The numbers of seed 0 without so many of the first.
    pub fn after(count: u64) -> Dice {
        Dice(STEP.wrapping_mul(count))
    }

    pub fn bits(&mut self) -> u64 {
        self.0 = self.0.wrapping_add(STEP);
        let z = (self.0 ^ (self.0 >> 30)).wrapping_mul(0xbf58_476d_1ce4_e5b9);
        let z = (z ^ (z >> 27)).wrapping_mul(0x94d0_49bb_1331_11eb);
        z ^ (z >> 31)
    }

    /// A number from low to high, both included.
    pub fn range(&mut self, low: i64, high: i64) -> i64 {
        low + (self.bits() % (high - low + 1) as u64) as i64
    }

    /// A number from 0 to below the given one.
    pub fn below(&mut self, end: usize) -> usize {
        self.range(0, end as i64 - 1) as usize
    }

    pub fn pick<T: Copy>(&mut self, from: &[T]) -> T {
        from[self.below(from.len())]
    }

    /// True this often in a thousand.
    pub fn chance(&mut self, often: i64) -> bool {
        self.range(1, 1_000) <= often
    }
}
