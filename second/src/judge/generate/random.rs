//! A small random source, the same on every machine for the same seed.

pub struct Random {
    state: u64,
}

impl Random {
    /// A source of its own for each case, so that a case does not depend on those before it.
    pub fn for_case(seed: u64, number: u64) -> Random {
        let mut random = Random { state: seed };
        random.state = random.next() ^ number;
        random
    }

    /// SplitMix64.
    fn next(&mut self) -> u64 {
        self.state = self.state.wrapping_add(0x9E37_79B9_7F4A_7C15);
        let mut mixed = self.state;
        mixed = (mixed ^ mixed >> 30).wrapping_mul(0xBF58_476D_1CE4_E5B9);
        mixed = (mixed ^ mixed >> 27).wrapping_mul(0x94D0_49BB_1331_11EB);
        mixed ^ mixed >> 31
    }

    /// A number below the limit, which is at least one.
    pub fn below(&mut self, limit: u32) -> u32 {
        let scaled = (self.next() >> 32) * u64::from(limit);
        (scaled >> 32) as u32
    }

    /// A number from the first to the last, both possible.
    pub fn between(&mut self, first: u32, last: u32) -> u32 {
        first + self.below(last - first + 1)
    }

    /// True once in so many times.
    pub fn one_in(&mut self, times: u32) -> bool {
        self.below(times) == 0
    }

    pub fn byte(&mut self) -> u8 {
        self.next() as u8
    }

    pub fn word(&mut self) -> u16 {
        self.next() as u16
    }

    pub fn double_word(&mut self) -> u32 {
        self.next() as u32
    }

    pub fn pick<T: Copy>(&mut self, choices: &[T]) -> T {
        choices[self.below(choices.len() as u32) as usize]
    }

    pub fn boundary_word(&mut self) -> u16 {
        self.pick(&[
            0, 1, 2, 0x0F, 0x10, 0x7E, 0x7F, 0x80, 0x81, 0xFE, 0xFF, 0x100, 0x7FFE, 0x7FFF, 0x8000,
            0x8001, 0xFF7F, 0xFF80, 0xFFFD, 0xFFFE, 0xFFFF,
        ])
    }

    pub fn boundary_byte(&mut self) -> u8 {
        self.pick(&[
            0, 1, 2, 9, 0x0A, 0x0F, 0x10, 0x7F, 0x80, 0x81, 0x99, 0x9A, 0x9F, 0xA0, 0xF9, 0xFA,
            0xFE, 0xFF,
        ])
    }

    /// As often a boundary as not.
    pub fn some_word(&mut self) -> u16 {
        if self.one_in(2) {
            self.boundary_word()
        } else {
            self.word()
        }
    }

    pub fn some_byte(&mut self) -> u8 {
        if self.one_in(2) {
            self.boundary_byte()
        } else {
            self.byte()
        }
    }
}
