//! Sound tables in use: with open slots, and writes that went from server to server.

use crate::group::Group;
use crate::random::Random;
use crate::vector_store::{table_words, FiveWords, Procedures};

/// The sizes of the largest table.
pub const LARGEST: [u32; 3] = [16, 1024, 16];

/// How full the logs of a table are.
#[derive(Clone, Copy, Debug, PartialEq, Eq)]
pub enum Filled {
    Fresh,
    Partly,
    Full,
}

/// A fresh table of these sizes.
pub fn fresh_table([servers, places, slots]: [u32; 3]) -> Vec<u32> {
    let mut table = vec![0; table_words(servers, places, slots)];
    Procedures::default().make(servers, places, slots, &mut table);
    table
}

/// A sound table of these sizes.
pub fn sound_table(random: &mut Random, sizes: [u32; 3], filled: Filled) -> Vec<u32> {
    let [servers, places, slots] = sizes;
    let steps = match filled {
        Filled::Fresh => Vec::new(),
        Filled::Partly => busy_steps(random, sizes, slots + 2 * places),
        Filled::Full => [busy_steps(random, sizes, slots + 8 * places), all_exchanges(servers)].concat(),
    };
    let mut table = fresh_table(sizes);
    for step in steps {
        Procedures::default().step_on_sound(&mut table, step);
    }
    table
}

/// Sound tables of these sizes, each with the random numbers of its own number, from `first` on.
pub fn sound_tables(seed: u64, first: u64, sizes: &[([u32; 3], Filled)]) -> Vec<Vec<u32>> {
    let tables = (first..).zip(sizes);
    tables
        .map(|(number, (sizes, filled))| sound_table(&mut Group::Tables.random(seed, number), *sizes, *filled))
        .collect()
}

/// The steps of a busy day: most slots open, then mostly writes and exchanges, with reads, and agents who come and go.
pub fn busy_steps(random: &mut Random, sizes: [u32; 3], count: u32) -> Vec<FiveWords> {
    let opened = sizes[2] - sizes[2] / 4;
    let openings = (0..opened).map(|slot| [1, slot, guarantees(random), 0, 0]);
    let mut steps: Vec<FiveWords> = openings.collect();
    while (steps.len() as u32) < count {
        let kind = random.one_of(&[1, 1, 1, 2, 3, 3, 3, 4, 4, 4, 4, 4, 4, 4, 4, 4, 4, 5, 5, 5]);
        steps.push(proper_step(random, sizes, kind));
    }
    steps
}

/// An exchange of all that there is from each server to each other one.
pub fn all_exchanges(servers: u32) -> Vec<FiveWords> {
    let pairs = (0..servers).flat_map(|from| (0..servers).map(move |to| (from, to)));
    pairs.filter(|(from, to)| from != to).map(|(from, to)| [5, from, to, u32::MAX, 0]).collect()
}

/// A step of this kind with all its words in range.
pub fn proper_step(random: &mut Random, [servers, _, slots]: [u32; 3], kind: u32) -> FiveWords {
    let slot = random.below(slots);
    let item = random.one_of(&[0, 7, 8, 255]);
    let reach = if random.chance(70) { 1 << random.below(servers) } else { (1 << servers) - 1 };
    match kind {
        1 => [1, slot, guarantees(random), 0, 0],
        2 => [2, slot, 0, 0, 0],
        3 => [3, slot, item, reach, 0],
        4 => [4, slot, item, random.any() as u32, reach],
        _ => {
            let from = random.below(servers);
            let to = (from + 1 + random.below(servers - 1)) % servers;
            [5, from, to, random.one_of(&[1, 2, 9, u32::MAX]), 0]
        }
    }
}

/// Most sessions choose nothing, so that their writes go where they can.
fn guarantees(random: &mut Random) -> u32 {
    if random.chance(60) {
        return 0;
    }
    random.below(16)
}

#[cfg(test)]
mod tests {
    use super::*;
    use crate::vector_store::broken_rule;

    /// The counts of writes of all servers.
    fn counts(table: &[u32]) -> Vec<u32> {
        let servers = table[0] as usize;
        (0..servers).map(|server| table[4 + server * (servers + 1) + servers]).collect()
    }

    #[test]
    fn tables_are_sound_and_as_full_as_they_should_be() {
        for sizes in [[1, 20, 2], [2, 8, 4], [16, 16, 16], [5, 60, 8]] {
            let table = |filled| sound_table(&mut Random::of_case(1, 2), sizes, filled);
            for filled in [Filled::Fresh, Filled::Partly, Filled::Full] {
                assert_eq!(broken_rule(&table(filled)), None, "{sizes:?} {filled:?}");
            }
            assert_eq!(table(Filled::Fresh), fresh_table(sizes));
            let partly = counts(&table(Filled::Partly));
            assert!(partly.iter().any(|count| *count > 0), "{sizes:?} {partly:?}");
            assert!(partly.iter().all(|count| *count < sizes[1]), "{sizes:?} {partly:?}");
            assert!(counts(&table(Filled::Full)).iter().all(|count| *count == sizes[1]), "{sizes:?}");
        }
    }

    #[test]
    fn proper_steps_are_never_out_of_range() {
        let mut random = Random::of_case(3, 4);
        for kind in 1..=5 {
            for sizes in [[1, 2, 1], [2, 2, 2], [16, 2, 16]] {
                let step = proper_step(&mut random, sizes, kind);
                let code = Procedures::default().step(&mut fresh_table(sizes), step)[0];
                assert!(step[0] == kind && code != 2, "{sizes:?} {step:?} answers {code}");
            }
        }
    }
}
