//! A small seeded source of chance (SplitMix64).

/// The same seed gives the same numbers everywhere.
#[derive(Clone, Debug)]
pub struct Chance {
    state: u64,
}

impl Chance {
    pub fn new(seed: u64) -> Chance {
        Chance { state: seed }
    }

    /// A source of its own for one of many cases of the same seed, so that
    /// any case can be had again without those before it.
    pub fn of_case(seed: u64, case: u64) -> Chance {
        let mut chance = Chance::new(seed ^ case.wrapping_mul(0xD134_2543_DE82_EF95));
        chance.word();
        chance
    }

    /// 64 bits.
    pub fn word(&mut self) -> u64 {
        self.state = self.state.wrapping_add(0x9E37_79B9_7F4A_7C15);
        let mut z = self.state;
        z = (z ^ (z >> 30)).wrapping_mul(0xBF58_476D_1CE4_E5B9);
        z = (z ^ (z >> 27)).wrapping_mul(0x94D0_49BB_1331_11EB);
        z ^ (z >> 31)
    }

    /// 0 to `limit` - 1.
    pub fn below(&mut self, limit: usize) -> usize {
        (self.word() % limit as u64) as usize
    }

    /// `least` to `most`, both included.
    pub fn between(&mut self, least: i64, most: i64) -> i64 {
        least + (self.word() % (most - least + 1) as u64) as i64
    }

    /// True once in `of` times.
    pub fn once_in(&mut self, of: usize) -> bool {
        self.below(of) == 0
    }

    /// True in `percent` of a hundred times.
    pub fn percent(&mut self, percent: usize) -> bool {
        self.below(100) < percent
    }

    pub fn pick<'a, T>(&mut self, from: &'a [T]) -> &'a T {
        &from[self.below(from.len())]
    }

    /// A choice by weights: the index of the one chosen.
    pub fn weighted(&mut self, weights: &[usize]) -> usize {
        let mut left = self.below(weights.iter().sum());
        for (at, &weight) in weights.iter().enumerate() {
            if left < weight {
                return at;
            }
            left -= weight;
        }
        unreachable!("the weights' sum was the limit")
    }

    /// Bell-shaped about 0, with a spread of about `spread`: the sum of four
    /// even ones.
    pub fn bell(&mut self, spread: i64) -> i64 {
        let reach = 3 * spread;
        let sum: i64 = (0..4).map(|_| self.between(-reach, reach)).sum();
        // The sum's spread is 2 x reach / sqrt 3, about 3.46 x spread.
        sum * 2 / 7
    }

    pub fn bytes(&mut self, length: usize) -> Vec<u8> {
        (0..length).map(|_| self.word() as u8).collect()
    }
}
