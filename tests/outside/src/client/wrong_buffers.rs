//! Buffers for steps and answers of all small lengths, with null pointers for empty ones.

use super::call::{Call, UNWRITTEN};
use super::tables::{proper_step, sound_table, Filled};
use super::worker::Worker;
use crate::group::Group;
use crate::vector_store::FiveWords;

/// A step's answer buffer: five words are right.
const ANSWER_WORDS: [usize; 14] = [0, 1, 2, 3, 4, 5, 6, 7, 8, 9, 10, 11, 12, 1000];
/// Lists of steps and their answers have up to so many words.
const MOST_WORDS: usize = 21;
const SIZES: [u32; 3] = [3, 6, 4];
/// Each of three empty buffers can stand in three ways; so many calls one after another try them all.
const WAYS: u64 = 27;

/// The tables that calls with such buffers are made on.
pub struct WrongBuffers {
    seed: u64,
    /// A sound table, a damaged one, and no words at all.
    tables: [Vec<u32>; 3],
}

impl WrongBuffers {
    pub fn of_seed(seed: u64) -> WrongBuffers {
        let sound = sound_table(&mut Group::Tables.random(seed, 200), SIZES, Filled::Partly);
        let mut damaged = sound.clone();
        damaged[3] = 1;
        WrongBuffers { seed, tables: [sound, damaged, Vec::new()] }
    }

    /// A case for a step of each kind and for each length of a list, on each table.
    pub fn count(&self) -> u64 {
        (5 + MOST_WORDS as u64 + 1) * 3
    }

    /// Tries each length of the answer buffer with the step or the list of this number.
    pub fn try_one(&self, worker: &mut Worker, case: u64) {
        let table = &self.tables[(case % 3) as usize];
        let mut random = Group::WrongBuffers.random(self.seed, case);
        let mut step = |kind: u64| -> FiveWords { proper_step(&mut random, SIZES, kind as u32) };
        match case / 3 {
            kind @ 0..=4 => {
                let asked = Call::step(0, table.clone(), step(1 + kind));
                try_lengths(worker, &asked, &ANSWER_WORDS);
            }
            beyond => {
                let mut steps: Vec<u32> = (1..=5).flat_map(step).collect();
                steps.truncate(beyond as usize - 5);
                let lengths: Vec<usize> = (0..=MOST_WORDS).collect();
                try_lengths(worker, &Call::run(0, table.clone(), steps), &lengths);
            }
        }
    }
}

/// Makes the call with answer buffers of these lengths, standing in all ways.
fn try_lengths(worker: &mut Worker, asked: &Call, lengths: &[usize]) {
    for &length in lengths {
        for number in 0..WAYS {
            worker.try_call(&Call { number, answers: vec![UNWRITTEN; length], ..asked.clone() });
        }
    }
}
