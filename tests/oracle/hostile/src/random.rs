/// Numbers that look like chance, always the same for a seed and a case.
#[derive(Clone, Copy, Debug)]
pub struct Random {
    state: u64,
}

impl Random {
    /// The numbers of a case of a seed.
    pub fn new(seed: u64, case: u64) -> Random {
        let mut random = Random { state: seed };
        random.state = random.next() ^ case;
        random
    }

    /// The next number: that of the generator SplitMix64.
    pub fn next(&mut self) -> u64 {
        self.state = self.state.wrapping_add(0x9E37_79B9_7F4A_7C15);
        let mut number = self.state;
        number = (number ^ number >> 30).wrapping_mul(0xBF58_476D_1CE4_E5B9);
        number = (number ^ number >> 27).wrapping_mul(0x94D0_49BB_1331_11EB);
        number ^ number >> 31
    }

    /// The next number of four bytes.
    pub fn number(&mut self) -> u32 {
        (self.next() >> 32) as u32
    }

    /// The next number below a limit; 0 where the limit is.
    pub fn below(&mut self, limit: u32) -> u32 {
        let number = self.number();
        if limit == 0 { 0 } else { number % limit }
    }

    /// The next number from one up to another.
    pub fn between(&mut self, first: u32, last: u32) -> u32 {
        first.saturating_add(self.below(last.saturating_sub(first).saturating_add(1)))
    }

    /// An offset below a length, which is not 0.
    pub fn offset(&mut self, len: usize) -> usize {
        self.below(u32::try_from(len).unwrap_or(u32::MAX)) as usize
    }

    /// The next byte.
    pub fn byte(&mut self) -> u8 {
        (self.next() >> 56) as u8
    }

    /// Whether the next of `chances` chances is the one.
    pub fn is_one_in(&mut self, chances: u32) -> bool {
        self.below(chances) == 0
    }

    /// One of some values, of which there are some.
    pub fn pick<T: Copy>(&mut self, values: &[T]) -> T {
        values[self.offset(values.len())]
    }
}
