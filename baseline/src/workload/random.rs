//! A small seeded generator (xorshift64*): the same seed gives the same numbers everywhere.

use crate::entry::Origin;

pub struct Random {
    state: u64,
}

impl Random {
    pub fn seeded(seed: u64) -> Random {
        let mut random = Random {
            state: seed << 1 | 1,
        };
        // neighbouring seeds begin alike
        for _ in 0..8 {
            random.number();
        }
        random
    }

    pub fn number(&mut self) -> u64 {
        self.state ^= self.state >> 12;
        self.state ^= self.state << 25;
        self.state ^= self.state >> 27;
        self.state.wrapping_mul(0x2545_F491_4F6C_DD1D)
    }

    /// A number below the bound.
    pub fn below(&mut self, bound: usize) -> usize {
        (self.number() >> 16) as usize % bound
    }

    pub fn one_in(&mut self, times: usize) -> bool {
        self.below(times) == 0
    }

    pub fn pick<T: Copy>(&mut self, choices: &[T]) -> T {
        choices[self.below(choices.len())]
    }

    /// This job for any sheet, and often for the first or the last.
    pub fn origin(&mut self, job: u8) -> Origin {
        let any = self.below(1 << 16) as u16;
        let sheet = self.pick(&[0, any, u16::MAX]);
        Origin { job, sheet }
    }

    /// The key of a tile of a chart pack, at any level.
    pub fn key(&mut self) -> u32 {
        let zoom = 4 + self.below(11);
        let column = self.below(1 << zoom);
        let row = self.below(1 << zoom);
        (zoom << 28 | column << 14 | row) as u32
    }

    /// The keys that are given, and then others, each of them once, until there are so many.
    pub fn distinct_keys(&mut self, mut keys: Vec<u32>, count: usize) -> Vec<u32> {
        let mut known: std::collections::HashSet<u32> = keys.iter().copied().collect();
        while keys.len() < count {
            let key = self.key();
            if known.insert(key) {
                keys.push(key);
            }
        }
        keys
    }
}
