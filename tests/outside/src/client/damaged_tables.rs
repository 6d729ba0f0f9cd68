//! Tables with one damaged word: every word of several sound tables, changed in several ways.

use super::call::Call;
use super::tables::{proper_step, sound_tables, Filled};
use super::worker::Worker;
use crate::group::Group;
use crate::making::{disturbed, number};
use crate::random::Random;
use crate::vector_store::{broken_rule, FiveWords};

/// The sound tables: one server alone, a fresh table, full logs, then others of different sizes.
const SIZES: [([u32; 3], Filled); 13] = [
    ([1, 100, 3], Filled::Partly),
    ([3, 20, 4], Filled::Fresh),
    ([4, 16, 4], Filled::Full),
    ([2, 1, 1], Filled::Full),
    ([2, 40, 3], Filled::Partly),
    ([3, 100, 5], Filled::Partly),
    ([5, 60, 8], Filled::Partly),
    ([7, 50, 6], Filled::Partly),
    ([8, 32, 8], Filled::Full),
    ([10, 64, 10], Filled::Partly),
    ([12, 30, 12], Filled::Partly),
    ([16, 16, 16], Filled::Partly),
    ([16, 40, 16], Filled::Partly),
];

/// A whole run tries so many damaged tables at least.
const TABLES_WANTED: u64 = 50_000;

/// The word at a place of one of the sound tables becomes another one.
#[derive(Clone, Copy, Debug, PartialEq, Eq)]
struct Damage {
    table: usize,
    place: usize,
    word: u32,
}

/// The sound tables, and all that is done to them.
pub struct DamagedTables {
    seed: u64,
    sound: Vec<Vec<u32>>,
    damages: Vec<Damage>,
}

impl DamagedTables {
    pub fn of_seed(seed: u64) -> DamagedTables {
        let sound = sound_tables(seed, 0, &SIZES);
        let damages = damages(&mut Group::Damages.random(seed, 0), &sound);
        DamagedTables { seed, sound, damages }
    }

    pub fn count(&self) -> u64 {
        self.damages.len() as u64
    }

    /// Takes a step on the damaged table of this number, or now and then a run of two or three.
    pub fn try_one(&self, worker: &mut Worker, case: u64) {
        let damage = self.damages[case as usize];
        let mut table = self.sound[damage.table].clone();
        let sizes = [table[0], table[1], table[2]];
        table[damage.place] = damage.word;
        worker.tally.coverage.note("tables");
        worker.tally.coverage.note_rule(broken_rule(&table));
        let mut random = Group::DamagedTables.random(self.seed, case);
        let mut step = || step_of_case(&mut random, sizes, case);
        let call = match case % 8 {
            3 => Call::run(case, table, [step(), step()].concat()),
            7 => Call::run(case, table, [step(), step(), step()].concat()),
            _ => Call::step(case, table, step()),
        };
        worker.try_call(&call);
    }
}

/// Each word of each table becomes 0, one more, one less, the greatest and any one, as far as these are other words.
fn damages(random: &mut Random, sound: &[Vec<u32>]) -> Vec<Damage> {
    let mut damages = Vec::new();
    for (table, words) in sound.iter().enumerate() {
        for (place, word) in words.iter().enumerate() {
            let others = other_words(*word, number(random));
            damages.extend(others.into_iter().map(|word| Damage { table, place, word }));
        }
    }
    damages
}

fn other_words(word: u32, any: u32) -> Vec<u32> {
    let mut others = vec![0, word.wrapping_add(1), word.wrapping_sub(1), u32::MAX, any];
    others.sort_unstable();
    others.dedup();
    others.retain(|other| *other != word);
    others
}

/// The kinds go round, so that each meets each kind of damage; one step of twenty is improper.
fn step_of_case(random: &mut Random, sizes: [u32; 3], case: u64) -> FiveWords {
    let step = proper_step(random, sizes, 1 + ((case + case / 5) % 5) as u32);
    if random.chance(5) {
        return disturbed(random, step);
    }
    step
}

/// What the damaged tables of a whole run must have come to, and how often.
pub fn wanted() -> Vec<(String, u64)> {
    let rules = "abcdef".chars().map(|rule| (format!("rule {rule} broken"), 100));
    let others = [("tables".to_string(), TABLES_WANTED), ("sound all the same".to_string(), 100)];
    rules.chain(others).collect()
}

#[cfg(test)]
mod tests {
    use super::*;

    #[test]
    fn every_word_of_every_table_is_damaged_in_every_way() {
        let tables = DamagedTables::of_seed(5);
        assert_eq!(tables.sound.len(), SIZES.len());
        let mut damages = tables.damages.iter().peekable();
        for (table, words) in tables.sound.iter().enumerate() {
            assert_eq!(broken_rule(words), None);
            for (place, word) in words.iter().enumerate() {
                let mut changed_to = Vec::new();
                while let Some(damage) = damages.next_if(|damage| (damage.table, damage.place) == (table, place)) {
                    changed_to.push(damage.word);
                }
                for wanted in [0, word.wrapping_add(1), word.wrapping_sub(1), u32::MAX] {
                    assert!(wanted == *word || changed_to.contains(&wanted), "word {place} of table {table}: {wanted}");
                }
            }
        }
        assert_eq!(damages.next(), None);
    }

    #[test]
    fn damaged_tables_really_differ_and_from_each_other() {
        let tables = DamagedTables::of_seed(6);
        for damage in &tables.damages {
            assert_ne!(tables.sound[damage.table][damage.place], damage.word);
        }
        for pair in tables.damages.windows(2) {
            assert_ne!(pair[0], pair[1]);
        }
        assert!(tables.count() >= TABLES_WANTED);
    }

    #[test]
    fn other_words_are_the_five_or_fewer() {
        assert_eq!(other_words(7, 100), [0, 6, 8, 100, u32::MAX]);
        assert_eq!(other_words(0, 1), [1, u32::MAX]);
        assert_eq!(other_words(u32::MAX, u32::MAX), [0, u32::MAX - 1]);
        assert_eq!(other_words(1, 2), [0, 2, u32::MAX]);
    }
}
