//! Random numbers from a seed that is printed, so that a run can be repeated.

/// A xorshift generator with a final multiplication.
pub struct Random {
    state: u64,
}

impl Random {
    /// Parts get unlike streams from one seed.
    pub fn new(seed: u64, part: u64) -> Random {
        let mixed = (seed ^ part.wrapping_mul(0xA24B_AED4_963E_E407)).wrapping_add(part);
        let mut random = Random {
            state: mixed.wrapping_mul(0x9E37_79B9_7F4A_7C15) | 1,
        };
        for _ in 0..16 {
            random.next();
        }
        random
    }

    pub fn next(&mut self) -> u64 {
        self.state ^= self.state >> 12;
        self.state ^= self.state << 25;
        self.state ^= self.state >> 27;
        self.state.wrapping_mul(0x2545_F491_4F6C_DD1D)
    }

    /// From 0 to less than the limit.
    pub fn below(&mut self, limit: u64) -> u64 {
        (self.next() >> 11) % limit
    }

    /// True once in so many times.
    pub fn once_in(&mut self, times: u64) -> bool {
        self.below(times) == 0
    }

    pub fn one_of<T: Copy>(&mut self, choices: &[T]) -> T {
        choices[self.below(choices.len() as u64) as usize]
    }

    /// Every order as often as every other.
    pub fn shuffle<T>(&mut self, list: &mut [T]) {
        for place in (1..list.len()).rev() {
            list.swap(place, self.below(place as u64 + 1) as usize);
        }
    }

    /// The room of a buffer to be lent: mostly enough, sometimes too short.
    pub fn room(&mut self, needed: u64) -> usize {
        let room = match self.below(6) {
            0 => self.below(needed + 1),
            1 => needed,
            _ => needed + self.below(5),
        };
        room as usize
    }
}
