//! Long runs on the largest table, until its logs are full and beyond.

use super::call::Call;
use super::tables::{all_exchanges, busy_steps, fresh_table, proper_step, LARGEST};
use super::worker::Worker;
use crate::group::Group;
use crate::random::Random;
use crate::vector_store::FiveWords;

/// How many steps each run call has, one list for a case: the table of one call is that of the next.
const RUNS: [&[u32]; 2] = [&[512, 700, 600, 512], &[2_000, 512]];
/// A whole run has so many steps in them at least.
const STEPS_WANTED: u64 = 4_000;

/// How many cases there are.
pub const CASES: u64 = RUNS.len() as u64;

/// One run call after another from a fresh table; then every log must be full.
pub fn try_runs(worker: &mut Worker, seed: u64, case: u64) {
    let runs = RUNS[case as usize];
    let steps = steps(&mut Group::LongRuns.random(seed, case), runs.iter().sum());
    let mut rest: &[FiveWords] = &steps;
    let mut table = fresh_table(LARGEST);
    for (number, length) in (case..).zip(runs) {
        let (first, behind) = rest.split_at(*length as usize);
        rest = behind;
        match worker.try_call(&Call::run(number, table, first.concat())) {
            Some(outcome) => table = outcome.table,
            None => return,
        }
        first.iter().for_each(|_| worker.tally.coverage.note("steps"));
    }
    worker.test("a log of the largest table is not full after the runs", all_full(&table));
}

/// Sessions that choose nothing write at all servers, a busy time follows, everything is exchanged, and some more steps are taken.
fn steps(random: &mut Random, count: u32) -> Vec<FiveWords> {
    let [servers, _, slots] = LARGEST;
    let mut steps: Vec<FiveWords> = (0..slots).map(|slot| [1, slot, 0, 0, 0]).collect();
    steps.extend((0..900).map(|_| proper_step(random, LARGEST, 4)));
    let (last, exchanges) = (busy_steps(random, LARGEST, 100), all_exchanges(servers));
    let between = count as usize - steps.len() - exchanges.len() - last.len();
    steps.extend(busy_steps(random, LARGEST, between as u32));
    steps.extend(exchanges);
    steps.extend(last);
    steps
}

/// Whether each server's count of writes is the number of places.
fn all_full(table: &[u32]) -> bool {
    let (servers, places) = (LARGEST[0] as usize, LARGEST[1]);
    (0..servers).all(|server| table.get(4 + server * (servers + 1) + servers) == Some(&places))
}

/// What the runs must have come to, and how often.
pub fn wanted() -> Vec<(String, u64)> {
    vec![("steps".to_string(), STEPS_WANTED)]
}

#[cfg(test)]
mod tests {
    use super::*;
    use crate::vector_store::{broken_rule, Procedures};

    #[test]
    fn the_steps_fill_all_logs() {
        for (case, runs) in (0..).zip(RUNS) {
            let count: u32 = runs.iter().sum();
            let steps = steps(&mut Group::LongRuns.random(7, case), count);
            assert_eq!(steps.len() as u32, count);
            let mut table = fresh_table(LARGEST);
            for step in steps {
                Procedures::default().step_on_sound(&mut table, step);
            }
            assert!(all_full(&table) && broken_rule(&table).is_none());
        }
        assert!(RUNS.concat().iter().sum::<u32>() as u64 >= STEPS_WANTED);
    }
}
