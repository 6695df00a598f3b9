//! Random numbers from a seed.

use std::env;

/// A source of random numbers (SplitMix64).
pub struct Random(u64);

impl Random {
    /// A source that depends on the seed alone.
    pub fn new(seed: u64) -> Random {
        Random(seed)
    }

    /// A number below 2^64.
    pub fn next(&mut self) -> u64 {
        self.0 = self.0.wrapping_add(0x9e37_79b9_7f4a_7c15);
        let mut mixed = self.0;
        mixed = (mixed ^ (mixed >> 30)).wrapping_mul(0xbf58_476d_1ce4_e5b9);
        mixed = (mixed ^ (mixed >> 27)).wrapping_mul(0x94d0_49bb_1331_11eb);
        mixed ^ (mixed >> 31)
    }

    /// A number below `end`.
    pub fn below(&mut self, end: usize) -> usize {
        (self.next() % end as u64) as usize
    }

    /// A number from `low` to `high`, both included.
    pub fn range(&mut self, low: usize, high: usize) -> usize {
        low + self.below(high - low + 1)
    }

    /// True once in `times`.
    pub fn once_in(&mut self, times: usize) -> bool {
        self.below(times) == 0
    }

    /// One of the items.
    pub fn pick<'a, T>(&mut self, items: &'a [T]) -> &'a T {
        &items[self.below(items.len())]
    }

    /// This many bytes.
    pub fn bytes(&mut self, length: usize) -> Vec<u8> {
        (0..length).map(|_| self.next() as u8).collect()
    }
}

/// The seed, from `VINZAGEW_SEED`, and the number of cases, from `VINZAGEW_CASES`.
pub fn seed_and_cases(default_cases: usize) -> (u64, usize) {
    let read = |name: &str| {
        env::var(name).ok().map(|value| {
            value
                .parse::<u64>()
                .unwrap_or_else(|_| panic!("{name} is not a number"))
        })
    };
    (
        read("VINZAGEW_SEED").unwrap_or(1),
        read("VINZAGEW_CASES").map_or(default_cases, |cases| cases as usize),
    )
}

/// The source for one case: each case can be repeated alone.
pub fn for_case(seed: u64, case: usize) -> Random {
    let mut random = Random::new(seed);
    let offset = random.next();
    Random::new(offset ^ (case as u64).wrapping_mul(0xd6e8_feb8_6659_fd93))
}
