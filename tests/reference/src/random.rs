//! A small deterministic generator (splitmix64), so that every test can be repeated from its seed.

/// The generator. Equal seeds give equal numbers.
#[derive(Clone, Debug, PartialEq, Eq)]
pub struct Random {
    state: u64,
}

impl Random {
    pub const fn new(seed: u64) -> Random {
        Random { state: seed }
    }

    /// The next 64 bits.
    pub fn bits(&mut self) -> u64 {
        // Splitmix64 is defined modulo 2^64, so this wraps on purpose.
        self.state = self.state.wrapping_add(0x9E37_79B9_7F4A_7C15);
        let mut z = self.state;
        z = (z ^ (z >> 30)).wrapping_mul(0xBF58_476D_1CE4_E5B9);
        z = (z ^ (z >> 27)).wrapping_mul(0x94D0_49BB_1331_11EB);
        z ^ (z >> 31)
    }

    /// A number below `bound`; 0 for bound 0.
    pub fn below(&mut self, bound: u64) -> u64 {
        self.bits().checked_rem(bound).unwrap_or(0)
    }

    /// A number from `low` to `high`, both included; `low` if `high` is below it.
    pub fn between(&mut self, low: u64, high: u64) -> u64 {
        match high.checked_sub(low).map(|span| span.checked_add(1)) {
            None => low,
            Some(None) => self.bits(),
            Some(Some(count)) => low + self.below(count),
        }
    }

    /// An index below `length`; 0 for length 0.
    pub fn index(&mut self, length: usize) -> usize {
        self.below(length as u64) as usize
    }

    /// True once in `times`.
    pub fn once_in(&mut self, times: u64) -> bool {
        self.below(times) == 0
    }

    /// Any byte.
    pub fn byte(&mut self) -> u8 {
        self.below(256) as u8
    }

    /// A digit byte.
    pub fn digit(&mut self) -> u8 {
        b'0' + self.below(10) as u8
    }

    /// One of the bytes given; 0 if there are none.
    pub fn one_of(&mut self, bytes: &[u8]) -> u8 {
        let i = self.index(bytes.len());
        bytes.get(i).copied().unwrap_or(0)
    }

    /// A number of at most `width` digits, and of at most 19. Each length is as likely as another.
    pub fn number(&mut self, width: u32) -> u64 {
        let digits = self.between(0, u64::from(width.min(19))) as u32;
        self.below(10u64.pow(digits))
    }
}
