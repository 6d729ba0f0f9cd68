//! Random numbers from a seed: the same seed gives the same numbers on every machine.

/// SplitMix64, by Steele, Lea and Flood (2014).
#[derive(Clone, Debug)]
pub struct Random {
    state: u64,
}

impl Random {
    /// The numbers of one case: each case of a seed has its own, whatever was tried before it.
    pub fn of_case(seed: u64, case: u64) -> Random {
        let mut random = Random { state: seed };
        random.state = random.any() ^ case.wrapping_mul(0xd134_2543_de82_ef95);
        random
    }

    /// Any 64-bit number.
    pub fn any(&mut self) -> u64 {
        self.state = self.state.wrapping_add(0x9e37_79b9_7f4a_7c15);
        let mut mixed = self.state;
        mixed = (mixed ^ (mixed >> 30)).wrapping_mul(0xbf58_476d_1ce4_e5b9);
        mixed = (mixed ^ (mixed >> 27)).wrapping_mul(0x94d0_49bb_1331_11eb);
        mixed ^ (mixed >> 31)
    }

    /// A number below `bound`; 0 if there is none.
    pub fn below(&mut self, bound: u32) -> u32 {
        if bound == 0 {
            return 0;
        }
        (self.any() % u64::from(bound)) as u32
    }

    /// A number from `low` to `high`, both among them.
    pub fn between(&mut self, low: u32, high: u32) -> u32 {
        low + self.below(high - low + 1)
    }

    /// Yes, in `percent` of a hundred cases.
    pub fn chance(&mut self, percent: u32) -> bool {
        self.below(100) < percent
    }

    /// One of the listed; the list is not empty.
    pub fn one_of<T: Copy>(&mut self, listed: &[T]) -> T {
        listed[self.below(listed.len() as u32) as usize]
    }
}
