//! Words that are no table, by their length or their header.

use super::bridge::MOST_WORDS;
use super::call::Call;
use super::tables::{proper_step, sound_tables, Filled};
use super::worker::Worker;
use crate::group::Group;
use crate::vector_store::table_words;

/// The sound tables that lengths and headers are changed of.
const SIZES: [([u32; 3], Filled); 4] = [
    ([1, 1, 1], Filled::Full),
    ([2, 4, 1], Filled::Fresh),
    ([3, 6, 2], Filled::Partly),
    ([16, 17, 16], Filled::Partly),
];

/// What the words of a header become: numbers at their limits and beyond.
#[rustfmt::skip]
const HEADER_WORDS: [u32; 14] = [
    0, 1, 2, 15, 16, 17, 255, 1023, 1024, 1025, 65_535, 65_536, 1 << 31, u32::MAX,
];

/// One of the sound tables with other words in its header, cut or filled with zeros to a length.
#[derive(Clone, Copy, Debug, PartialEq, Eq)]
struct Change {
    table: usize,
    header: [u32; 4],
    length: usize,
}

/// The sound tables, and all that is done to them.
pub struct WrongTables {
    seed: u64,
    sound: Vec<Vec<u32>>,
    changes: Vec<Change>,
}

impl WrongTables {
    pub fn of_seed(seed: u64) -> WrongTables {
        let sound = sound_tables(seed, 100, &SIZES);
        let mut changes = Vec::new();
        for (table, words) in sound.iter().enumerate() {
            let header = [words[0], words[1], words[2], words[3]];
            changes.extend(lengths(words.len()).into_iter().map(|length| Change { table, header, length }));
            for header in headers(header) {
                let asked = Some(table_words(header[0], header[1], header[2])).filter(|asked| *asked <= MOST_WORDS);
                let both = [Some(words.len()), asked.filter(|asked| *asked != words.len())];
                changes.extend(both.into_iter().flatten().map(|length| Change { table, header, length }));
            }
        }
        WrongTables { seed, sound, changes }
    }

    pub fn count(&self) -> u64 {
        self.changes.len() as u64
    }

    /// Takes a step on the words of this number, and a run of two.
    pub fn try_one(&self, worker: &mut Worker, case: u64) {
        let change = self.changes[case as usize];
        let sound = &self.sound[change.table];
        let sizes = [sound[0], sound[1], sound[2]];
        let mut words = sound.clone();
        words[..4].copy_from_slice(&change.header);
        words.resize(change.length, 0);
        let mut random = Group::WrongTables.random(self.seed, case);
        let mut step = |kind| proper_step(&mut random, sizes, 1 + (kind % 5) as u32);
        worker.try_call(&Call::step(case, words.clone(), step(case)));
        worker.try_call(&Call::run(case + 1, words, [step(case + 1), step(case + 2)].concat()));
    }
}

/// No words, only words of the header and a few more, one word less or more, half and double.
fn lengths(length: usize) -> Vec<usize> {
    let mut lengths: Vec<usize> = (0..=8).collect();
    lengths.extend([length - 1, length, length + 1, length / 2, 2 * length]);
    lengths
}

/// Each two words of the header become each two of the numbers.
fn headers(sound: [u32; 4]) -> Vec<[u32; 4]> {
    let mut headers = Vec::new();
    for (one, other) in [(0, 1), (0, 2), (0, 3), (1, 2), (1, 3), (2, 3)] {
        for word in HEADER_WORDS {
            for other_word in HEADER_WORDS {
                let mut header = sound;
                header[one] = word;
                header[other] = other_word;
                headers.push(header);
            }
        }
    }
    headers
}

#[cfg(test)]
mod tests {
    use super::*;
    use crate::vector_store::broken_rule;

    #[test]
    fn lengths_and_headers_are_all_there() {
        let tables = WrongTables::of_seed(1);
        let has = |change: Change| tables.changes.contains(&change);
        // The second table is 2 4 1, with 48 words.
        for length in [0, 1, 2, 3, 4, 5, 6, 7, 8, 24, 47, 49, 96] {
            assert!(has(Change { table: 1, header: [2, 4, 1, 0], length }), "{length}");
        }
        assert!(has(Change { table: 1, header: [16, 1024, 1, 0], length: 48 }));
        assert!(has(Change { table: 1, header: [16, 1024, 1, 0], length: table_words(16, 1024, 1) }));
        assert!(has(Change { table: 1, header: [2, u32::MAX, 1, 1 << 31], length: 48 }));
        assert!(tables.changes.iter().all(|change| change.length <= MOST_WORDS));
        assert!(tables.sound.iter().all(|words| broken_rule(words).is_none()));
    }
}
