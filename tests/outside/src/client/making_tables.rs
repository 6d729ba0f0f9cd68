//! Making tables of all kinds of sizes, in buffers that fit and that don't.

use super::bridge::MOST_WORDS;
use super::call::Call;
use super::worker::Worker;
use crate::group::Group;
use crate::sizes::all_sizes;
use crate::vector_store::table_words;

/// Sizes far out of range; each stands with each other one.
const FAR: [u32; 6] = [1, 16, 1026, 65_536, 1 << 31, u32::MAX];
/// Buffers for sizes that no buffer would fit.
const LENGTHS: [usize; 4] = [0, 4, 14, 66_356];

/// Sizes and lengths: at the limits in fitting, shorter and longer buffers and in none, and far beyond them.
pub fn all_makings() -> Vec<([u32; 3], usize)> {
    let mut makings = all_sizes();
    let at_the_limits: Vec<[u32; 3]> = makings.iter().step_by(3).map(|(sizes, _)| *sizes).collect();
    for sizes in at_the_limits {
        let fitting = table_words(sizes[0], sizes[1], sizes[2]);
        makings.extend([0, 3, 4, fitting / 2, fitting + fitting / 2].map(|length| (sizes, length)));
    }
    for servers in FAR {
        for places in FAR {
            for slots in FAR {
                let fitting = table_words(servers, places, slots);
                let lengths = LENGTHS.iter().copied().chain([fitting]);
                makings.extend(lengths.map(|length| ([servers, places, slots], length)));
            }
        }
    }
    makings.retain(|(_, length)| *length <= MOST_WORDS);
    makings
}

/// Makes a table in a buffer of words that are not 0, which stands at the upper fence and at the lower one.
pub fn try_making(worker: &mut Worker, seed: u64, case: u64, (sizes, length): ([u32; 3], usize)) {
    let mut random = Group::Makings.random(seed, case);
    let buffer: Vec<u32> = (0..length).map(|_| random.any() as u32 | 1).collect();
    // An empty one is tried nowhere, too.
    for number in 0..if length == 0 { 3 } else { 2 } {
        worker.try_call(&Call::make(number, sizes, buffer.clone()));
    }
}

#[cfg(test)]
mod tests {
    use super::*;

    #[test]
    fn sizes_at_the_limits_have_buffers_of_all_kinds() {
        let makings = all_makings();
        for length in [0, 33_178, 66_355, 66_356, 66_357, 99_534] {
            assert!(makings.contains(&([16, 1024, 16], length)), "{length}");
        }
        assert!(makings.contains(&([u32::MAX, u32::MAX, u32::MAX], 66_356)));
        // Servers times places passes 32 bits.
        assert!(makings.contains(&([65_536, 65_536, 1], 14)));
    }
}
