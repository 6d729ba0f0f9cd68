//! Many cases tried one after another, on all processors.

use crate::case::{Bench, Case, Judge};
use crate::coverage::Coverage;
use std::iter;
use std::sync::atomic::{AtomicU64, Ordering};
use std::thread;

/// A case that a judge found fault with.
#[derive(Clone, Debug)]
pub struct Failure {
    pub number: u64,
    pub case: Case,
    pub judge: Judge,
    pub said: String,
}

/// What came of many cases.
#[derive(Debug, Default)]
pub struct Tally {
    pub passed: u64,
    pub failures: Vec<Failure>,
    pub coverage: Coverage,
}

impl Tally {
    /// Tries one case before all judges; the first that says something counts.
    pub fn try_case(&mut self, number: u64, case: Case, judges: &[Judge], bench: &Bench) {
        for &judge in judges {
            if let Err(said) = case.judged_by(judge, bench, &mut self.coverage) {
                self.failures.push(Failure { number, case, judge, said });
                return;
            }
        }
        self.passed += 1;
    }

    fn add_all(&mut self, other: Tally) {
        self.passed += other.passed;
        self.failures.extend(other.failures);
        self.coverage.add_all(other.coverage);
    }
}

/// Makes and tries the cases with the numbers below `count`. What is made of a number may depend on nothing else.
pub fn try_cases(
    count: u64,
    judges: &[Judge],
    bench: &Bench,
    make: impl Fn(u64, &mut Coverage) -> Case + Sync,
) -> Tally {
    let tallies = on_all_processors(count, |numbers| {
        let mut tally = Tally::default();
        for number in numbers {
            let case = make(number, &mut tally.coverage);
            tally.try_case(number, case, judges, bench);
        }
        tally
    });
    let mut all = Tally::default();
    tallies.into_iter().for_each(|tally| all.add_all(tally));
    all.failures.sort_by_key(|failure| failure.number);
    all
}

/// Gives the numbers below `count` out to workers, one for each processor; what each of them made of its share.
pub fn on_all_processors<T: Send>(count: u64, work: impl Fn(&mut dyn Iterator<Item = u64>) -> T + Sync) -> Vec<T> {
    let next = AtomicU64::new(0);
    let give_out = || Some(next.fetch_add(1, Ordering::Relaxed)).filter(|number| *number < count);
    let workers = thread::available_parallelism().map_or(1, usize::from);
    thread::scope(|scope| {
        let started: Vec<_> = (0..workers).map(|_| scope.spawn(|| work(&mut iter::from_fn(give_out)))).collect();
        // A worker that panicked has counted nothing; the run must not pass without its cases.
        let joined = started.into_iter().map(|worker| worker.join().expect("a case makes the tests themselves panic"));
        joined.collect()
    })
}
