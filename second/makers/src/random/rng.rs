//! A small random generator (splitmix64), the same on every machine.

pub struct Rng {
    state: u64,
}

impl Rng {
    pub fn new(seed: u64) -> Rng {
        Rng { state: seed }
    }

    pub fn draw(&mut self) -> u64 {
        self.state = self.state.wrapping_add(0x9E37_79B9_7F4A_7C15);
        let mut z = self.state;
        z = (z ^ (z >> 30)).wrapping_mul(0xBF58_476D_1CE4_E5B9);
        z = (z ^ (z >> 27)).wrapping_mul(0x94D0_49BB_1331_11EB);
        z ^ (z >> 31)
    }

    /// A number below `limit`; 0 if there is none.
    pub fn below(&mut self, limit: usize) -> usize {
        if limit == 0 {
            0
        } else {
            (self.draw() % limit as u64) as usize
        }
    }

    /// A number from `low` to `high`, both included.
    pub fn between(&mut self, low: usize, high: usize) -> usize {
        low + self.below(high - low + 1)
    }

    /// True so many times out of a hundred.
    pub fn chance(&mut self, percent: usize) -> bool {
        self.below(100) < percent
    }

    pub fn pick<'a, T>(&mut self, from: &'a [T]) -> &'a T {
        &from[self.below(from.len())]
    }

    /// Any number, often one at an end of its range or small.
    pub fn odd_number(&mut self) -> u32 {
        match self.below(4) {
            0 => *self.pick(&[0, 1, 2, 3, 4, 5, 16, 17, 63, 64, 65, u32::MAX, u32::MAX - 1, 1 << 31]),
            1 => self.below(8) as u32,
            2 => self.below(100) as u32,
            _ => self.draw() as u32,
        }
    }

    /// Any long number, often one at an end of its range or small.
    pub fn odd_long(&mut self) -> u64 {
        match self.below(4) {
            0 => *self.pick(&[0, 1, u64::MAX, u64::MAX - 1, 1 << 32, (1 << 32) - 1, 1 << 63]),
            1 => self.draw(),
            _ => self.below(200) as u64,
        }
    }
}
