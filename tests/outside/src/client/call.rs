//! One call of the library with all its buffers, and what should come of it.

use crate::judges::{same_words, Verdict};
use crate::vector_store::{FiveWords, Procedures};
use std::fmt::{Display, Formatter};

/// What stands in an answer buffer before the call: no answer has it.
pub const UNWRITTEN: u32 = 0x5a5a_5a5a;

/// Which call it is, and its numbers.
#[derive(Clone, Debug, PartialEq, Eq)]
pub enum Asked {
    /// Servers, places and slots.
    Make([u32; 3]),
    Step(FiveWords),
    /// The list of steps.
    Run(Vec<u32>),
}

/// A call. Where its buffers stand depends on its number alone.
#[derive(Clone, Debug)]
pub struct Call {
    pub number: u64,
    pub asked: Asked,
    pub table: Vec<u32>,
    pub answers: Vec<u32>,
}

/// The returned code, and the words that the call left in its buffers.
#[derive(Clone, Debug, PartialEq, Eq)]
pub struct Outcome {
    pub code: u32,
    pub table: Vec<u32>,
    pub answers: Vec<u32>,
}

impl Call {
    pub fn make(number: u64, sizes: [u32; 3], table: Vec<u32>) -> Call {
        Call { number, asked: Asked::Make(sizes), table, answers: Vec::new() }
    }

    /// A step with an answer buffer of the right length.
    pub fn step(number: u64, table: Vec<u32>, step: FiveWords) -> Call {
        Call { number, asked: Asked::Step(step), table, answers: vec![UNWRITTEN; 5] }
    }

    /// A run with an answer buffer of the right length.
    pub fn run(number: u64, table: Vec<u32>, steps: Vec<u32>) -> Call {
        let answers = vec![UNWRITTEN; steps.len()];
        Call { number, asked: Asked::Run(steps), table, answers }
    }

    /// The call as the bridge reads it: which one, its numbers, and its three buffers.
    pub fn request(&self) -> Vec<u32> {
        let none = Vec::new();
        let (which, numbers, steps) = match &self.asked {
            Asked::Make([servers, places, slots]) => (1, [*servers, *places, *slots, 0, 0], &none),
            Asked::Step(step) => (2, *step, &none),
            Asked::Run(steps) => (3, [0; 5], steps),
        };
        let mut request = vec![which];
        request.extend(numbers);
        for (buffer, words) in (0..).zip([&self.table, steps, &self.answers]) {
            request.extend([self.stand(buffer, words.is_empty()), words.len() as u32]);
            request.extend(words);
        }
        request
    }

    /// Where a buffer stands: at the upper fence (0) or the lower one (1); an empty one also nowhere (2). Calls one after another
    /// have the three buffers in all these ways.
    fn stand(&self, buffer: u32, empty: bool) -> u32 {
        let ways: u64 = if empty { 3 } else { 2 };
        (self.number / ways.pow(buffer) % ways) as u32
    }

    /// What the procedures make of the same call. A step wants an answer buffer of five words before anything else.
    pub fn wanted(&self, procedures: Procedures) -> Outcome {
        let (mut table, mut answers) = (self.table.clone(), self.answers.clone());
        let code = self.made_by(procedures, &mut table, &mut answers);
        Outcome { code, table, answers }
    }

    /// The same in other buffers: the returned code.
    pub fn made_by(&self, procedures: Procedures, table: &mut [u32], answers: &mut [u32]) -> u32 {
        match &self.asked {
            Asked::Make([servers, places, slots]) => procedures.make(*servers, *places, *slots, table),
            Asked::Step(_) if answers.len() != 5 => 8,
            Asked::Step(step) => {
                answers.copy_from_slice(&procedures.step(table, *step));
                answers[0]
            }
            Asked::Run(steps) => procedures.run(table, steps, answers),
        }
    }
}

impl Display for Call {
    fn fmt(&self, to: &mut Formatter) -> std::fmt::Result {
        match &self.asked {
            Asked::Make(sizes) => write!(to, "making {sizes:?}")?,
            Asked::Step(step) => write!(to, "step {step:?}, {} words for the answer,", self.answers.len())?,
            Asked::Run(steps) => write!(
                to,
                "run of {} words, from {:?}, {} words for answers,",
                steps.len(),
                &steps[..steps.len().min(15)],
                self.answers.len()
            )?,
        }
        write!(to, " on {} words, from {:?}", self.table.len(), &self.table[..self.table.len().min(4)])
    }
}

impl Outcome {
    /// The same code and the same words in all buffers; Err says what differs first.
    pub fn compared(&self, wanted: &Outcome) -> Verdict {
        if self.code != wanted.code {
            return Err(format!("returns {}, not {}", self.code, wanted.code));
        }
        same_words(format_args!("the answers"), &self.answers, &wanted.answers)?;
        same_words(format_args!("the table"), &self.table, &wanted.table)
    }
}

#[cfg(test)]
mod tests;
