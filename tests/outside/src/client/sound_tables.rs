//! Single steps on sound tables of all sizes, from a fresh table on, and each schedule once more as a run.

use super::call::{Call, UNWRITTEN};
use super::worker::Worker;
use crate::coverage::KINDS_AND_CODES;
use crate::group::Group;
use crate::making::{disturbed, steps};
use crate::random::Random;
use crate::vector_store::{table_words, FiveWords};

/// A whole run takes so many single steps at least.
const STEPS_WANTED: u64 = 200_000;

/// Makes a table, takes steps on it one by one, then the same steps in a run from the fresh table. The first difference ends it.
pub fn try_schedule(worker: &mut Worker, seed: u64, case: u64) {
    let (sizes, steps) = schedule(&mut Group::SoundTables.random(seed, case), case);
    let [servers, places, slots] = sizes;
    let filled = vec![UNWRITTEN; table_words(servers, places, slots)];
    let fresh = match worker.try_call(&Call::make(case, sizes, filled)) {
        Some(made) => made.table,
        None => return,
    };
    let mut table = fresh.clone();
    for (number, step) in (case..).zip(&steps) {
        let outcome = match worker.try_call(&Call::step(number, table, *step)) {
            Some(outcome) => outcome,
            None => return,
        };
        worker.tally.coverage.note("steps");
        worker.tally.coverage.note(&format!("kind {} code {}", step[0].min(6), outcome.code));
        table = outcome.table;
    }
    worker.try_call(&Call::run(case, fresh, steps.concat()));
    worker.tally.coverage.note(&format!("servers {servers}"));
    worker.tally.coverage.note(&format!("places {places}"));
    worker.tally.coverage.note(&format!("slots {slots}"));
}

/// The sizes of a case's table and the steps on it, some with a kind that is none or a word out of range.
fn schedule(random: &mut Random, case: u64) -> ([u32; 3], Vec<FiveWords>) {
    let (servers, slots) = (random.between(1, 16), random.between(1, 16));
    // Small logs fill soon; every third case takes the sizes up to 128 in turn.
    let places = match (case % 3, random.below(40)) {
        (0, _) => 1 + (case / 3 % 128) as u32,
        (_, 0) => random.between(129, 1024),
        _ => random.between(1, 8),
    };
    let sizes = [servers, places, slots];
    let count = random.between(30, 110);
    let proper = steps(random, sizes, count);
    let steps = proper.into_iter().map(|step| if random.chance(4) { disturbed(random, step) } else { step });
    (sizes, steps.collect())
}

/// What the schedules of a whole run must have come upon, and how often.
pub fn wanted() -> Vec<(String, u64)> {
    let mut wanted = vec![("steps".to_string(), STEPS_WANTED)];
    let mut want = |name: String, times: u64| wanted.push((name, times));
    (1..=16).for_each(|servers| want(format!("servers {servers}"), 50));
    (1..=128).for_each(|places| want(format!("places {places}"), 5));
    (1..=16).for_each(|slots| want(format!("slots {slots}"), 50));
    for (kind, codes) in KINDS_AND_CODES {
        codes.iter().for_each(|code| want(format!("kind {kind} code {code}"), 100));
    }
    want("kind 0 code 2".to_string(), 100);
    want("kind 6 code 2".to_string(), 100);
    wanted
}
