//! The comparison can fail: each slip of 01, planted in the procedures, is found on steps on sound tables.

use super::sound_tables::try_schedule;
use super::worker::Worker;
use crate::case::Bench;
use crate::vector_store::{Procedures, Slip};

/// How many schedules are tried for a slip.
const MOST_SCHEDULES: u64 = 400;

/// The first schedule on which the planted slip is found, and what is said of it; None if it is not found.
pub fn found(slip: Slip, right: &Bench, seed: u64) -> Option<(u64, String)> {
    let planted = Bench { procedures: Procedures { slip: Some(slip) }, program: right.program.clone() };
    let shown = |number| said(&planted, seed, number).map(|said| (number, said));
    let (number, what) = (0..MOST_SCHEDULES).find_map(shown)?;
    // What is found must be the slip: without it there is nothing against the same schedule.
    match said(right, seed, number) {
        None => Some((number, what)),
        Some(_) => None,
    }
}

fn said(bench: &Bench, seed: u64, number: u64) -> Option<String> {
    let mut worker = Worker::new(bench);
    try_schedule(&mut worker, seed, number);
    worker.finish().failures.into_iter().map(|(_, said)| said).next()
}
