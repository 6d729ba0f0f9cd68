//! The groups of random cases.

use crate::random::Random;

/// Each group has random numbers of its own, so that a group can grow without changing the others.
#[derive(Clone, Copy)]
pub enum Group {
    Scripts = 0,
    Words = 1,
    DamagedTexts = 2,
    TextsAtTheLimits = 3,
    SoundTables = 4,
    Tables = 5,
    Damages = 6,
    DamagedTables = 7,
    WrongTables = 8,
    Makings = 9,
    WrongBuffers = 10,
    LongRuns = 11,
}

impl Group {
    /// The random numbers of a case of this group.
    pub fn random(self, seed: u64, number: u64) -> Random {
        Random::of_case(seed.wrapping_add(self as u64), number)
    }
}
