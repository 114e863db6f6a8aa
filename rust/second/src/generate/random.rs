//! A xorshift generator: the same seed gives the same numbers everywhere.

/// The state of the generator, never 0.
pub struct Random {
    state: u64,
}

impl Random {
    /// The generator for this seed.
    pub fn seeded(seed: u64) -> Random {
        // Spreads small seeds over all bits; xorshift cannot leave the state 0.
        let state = seed.wrapping_mul(0x9E37_79B9_7F4A_7C15) ^ 0x2545_F491_4F6C_DD1D;
        Random { state: state.max(1) }
    }

    /// The next number, any 64 bits.
    pub fn number(&mut self) -> u64 {
        self.state ^= self.state << 13;
        self.state ^= self.state >> 7;
        self.state ^= self.state << 17;
        // The upper half is the better mixed one.
        self.state.wrapping_mul(0x2545_F491_4F6C_DD1D).rotate_left(32)
    }

    /// A number below the limit; 0 if the limit is 0.
    pub fn below(&mut self, limit: usize) -> usize {
        match limit as u64 {
            0 => 0,
            limit => (self.number() % limit) as usize,
        }
    }

    /// A number from the first to the last, both included.
    pub fn between(&mut self, first: usize, last: usize) -> usize {
        first + self.below((last + 1).saturating_sub(first))
    }

    /// True once in so many times on average; never if that is 0.
    pub fn one_in(&mut self, times: usize) -> bool {
        times != 0 && self.below(times) == 0
    }

    /// One of the items, if there are any.
    pub fn pick<'a, T>(&mut self, items: &'a [T]) -> Option<&'a T> {
        items.get(self.below(items.len()))
    }
}
