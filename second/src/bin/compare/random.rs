//! A small source of random numbers, the same on every machine for the same seed.

use second::sizes::{DESKS, FILES, PROCESSES};

/// The constants of the generator splitmix64.
const STEP: u64 = 0x9E37_79B9_7F4A_7C15;
const MIX_ONE: u64 = 0xBF58_476D_1CE4_E5B9;
const MIX_TWO: u64 = 0x94D0_49BB_1331_11EB;

/// Numbers at which something ends: a right, a thing that can be counted, a byte, a number.
const EDGES: [usize; 14] = [
    0,
    1,
    2,
    3,
    DESKS - 1,
    DESKS,
    DESKS + 1,
    FILES - 1,
    FILES,
    PROCESSES - 1,
    PROCESSES,
    255,
    256,
    u32::MAX as usize,
];

pub struct Random {
    state: u64,
}

impl Random {
    /// Each stream of a seed is a sequence of its own.
    pub fn new(seed: u64, stream: u64) -> Random {
        let mut mixer = Random { state: seed };
        let start = mixer.next();
        Random { state: start ^ stream.wrapping_mul(MIX_ONE) }
    }

    pub fn next(&mut self) -> u64 {
        self.state = self.state.wrapping_add(STEP);
        let mut mixed = self.state;
        mixed = (mixed ^ (mixed >> 30)).wrapping_mul(MIX_ONE);
        mixed = (mixed ^ (mixed >> 27)).wrapping_mul(MIX_TWO);
        mixed ^ (mixed >> 31)
    }

    /// A number below a bound that is not 0.
    pub fn below(&mut self, bound: usize) -> usize {
        (self.next() % bound as u64) as usize
    }

    pub fn between(&mut self, least: usize, most: usize) -> usize {
        least + self.below(most - least + 1)
    }

    /// True once in so many times.
    pub fn once_in(&mut self, times: usize) -> bool {
        self.below(times) == 0
    }

    pub fn pick<T: Clone>(&mut self, from: &[T]) -> T {
        from[self.below(from.len())].clone()
    }

    /// A 32-bit number that is likely to lie at an edge of something.
    pub fn wild(&mut self) -> u32 {
        match self.below(4) {
            0 => self.next() as u32,
            1 => (1u32 << self.below(u32::BITS as usize)).wrapping_sub(self.below(2) as u32),
            _ => self.pick(&EDGES) as u32,
        }
    }
}
