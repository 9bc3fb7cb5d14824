//! Numbers that look random and are the same for the same seed everywhere.

pub struct Random {
    state: u64,
}

impl Random {
    pub fn new(seed: u64) -> Random {
        Random { state: seed }
    }

    /// Splitmix64.
    pub fn next(&mut self) -> u64 {
        self.state = self.state.wrapping_add(0x9E37_79B9_7F4A_7C15);
        let mut mixed = self.state;
        mixed = (mixed ^ (mixed >> 30)).wrapping_mul(0xBF58_476D_1CE4_E5B9);
        mixed = (mixed ^ (mixed >> 27)).wrapping_mul(0x94D0_49BB_1331_11EB);
        mixed ^ (mixed >> 31)
    }

    pub fn word(&mut self) -> u32 {
        (self.next() >> 32) as u32
    }

    pub fn byte(&mut self) -> u8 {
        (self.next() >> 56) as u8
    }

    /// A number below `end`, which is not 0.
    pub fn below(&mut self, end: u64) -> u64 {
        ((u128::from(self.next()) * u128::from(end)) >> 64) as u64
    }

    /// An index below `end`, which is not 0.
    pub fn index(&mut self, end: usize) -> usize {
        self.below(end as u64) as usize
    }

    pub fn one_in(&mut self, times: u64) -> bool {
        self.below(times) == 0
    }

    pub fn pick<T: Copy>(&mut self, choices: &[T]) -> T {
        choices[self.index(choices.len())]
    }

    pub fn junk(&mut self, length: usize) -> Vec<u8> {
        (0..length).map(|_| self.byte()).collect()
    }

    /// A number up to `most`, often at an edge of 0 to `most` or one past it.
    pub fn edgy(&mut self, most: u32) -> u32 {
        match self.below(12) {
            0 => 0,
            1 => 1,
            2 => most - 1,
            3 => most,
            4 => most + 1,
            5 if self.one_in(4) => u32::MAX,
            _ => self.within(most),
        }
    }

    /// A number from 1 to `most`, often small, often at an end.
    pub fn within(&mut self, most: u32) -> u32 {
        let end = match self.below(6) {
            0 => return 1,
            1 => return most,
            2 => most.min(1_000),
            _ => most,
        };
        1 + self.below(u64::from(end)) as u32
    }
}
