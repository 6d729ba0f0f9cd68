//! Many cases of calls, on all processors: each worker has a bridge of its own.

use super::bridge::Bridge;
use super::call::{Call, Outcome};
use crate::case::Bench;
use crate::coverage::Coverage;
use crate::trials::on_all_processors;

/// A worker that found so many differences tries no more of the group: more would tell the same.
const MOST_FAILURES: usize = 100;

/// What came of many calls.
#[derive(Debug, Default)]
pub struct Tally {
    pub passed: u64,
    /// The numbers of failing cases, and what is said of them.
    pub failures: Vec<(u64, String)>,
    pub coverage: Coverage,
}

/// Makes calls through a bridge and holds what comes of them to the procedures.
pub struct Worker<'a> {
    bench: &'a Bench,
    bridge: Option<Bridge>,
    case: u64,
    pub tally: Tally,
}

impl<'a> Worker<'a> {
    pub fn new(bench: &'a Bench) -> Worker<'a> {
        Worker { bench, bridge: None, case: 0, tally: Tally::default() }
    }

    /// Makes a call and counts it as one test. What came of it, unless something differs.
    pub fn try_call(&mut self, call: &Call) -> Option<Outcome> {
        match self.came_of(call) {
            Ok(outcome) => {
                self.tally.passed += 1;
                Some(outcome)
            }
            Err(said) => {
                self.tally.failures.push((self.case, format!("{call}: {said}")));
                None
            }
        }
    }

    /// Counts one test of another kind.
    pub fn test(&mut self, said: &str, passed: bool) {
        if passed {
            self.tally.passed += 1;
        } else {
            self.tally.failures.push((self.case, said.to_string()));
        }
    }

    fn came_of(&mut self, call: &Call) -> Result<Outcome, String> {
        let mut bridge = match self.bridge.take() {
            Some(bridge) => bridge,
            None => Bridge::start(&self.bench.program)?,
        };
        let outcome = match bridge.call(call) {
            Ok(outcome) => outcome,
            Err(error) => return Err(bridge.ended(&error)),
        };
        // After a difference nothing more is believed of this bridge; the next call starts another.
        if let Err(said) = outcome.compared(&call.wanted(self.bench.procedures)) {
            bridge.stop();
            return Err(said);
        }
        self.bridge = Some(bridge);
        Ok(outcome)
    }

    /// Ends the bridge, which must have nothing more to say.
    pub fn finish(mut self) -> Tally {
        if let Some(Err(said)) = self.bridge.take().map(Bridge::finish) {
            self.tally.failures.push((self.case, said));
        }
        self.tally
    }
}

impl Tally {
    fn add_all(&mut self, other: Tally) {
        self.passed += other.passed;
        self.failures.extend(other.failures);
        self.coverage.add_all(other.coverage);
    }
}

/// Tries the cases with the numbers below `count`. What is tried for a number may depend on nothing else.
pub fn try_all(count: u64, bench: &Bench, try_case: impl Fn(u64, &mut Worker) + Sync) -> Tally {
    let tallies = on_all_processors(count, |cases| {
        let mut worker = Worker::new(bench);
        while worker.tally.failures.len() < MOST_FAILURES {
            match cases.next() {
                Some(case) => worker.case = case,
                None => break,
            }
            try_case(worker.case, &mut worker);
        }
        worker.finish()
    });
    let mut all = Tally::default();
    tallies.into_iter().for_each(|tally| all.add_all(tally));
    all.failures.sort();
    all
}
