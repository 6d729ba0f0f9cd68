//! The library's C calls, made by a C program (tests/client/bridge.c) and held to the vector procedures: the returned code and every
//! word of table and answers.

mod bridge;
pub mod call;
mod damaged_tables;
mod long_runs;
mod making_tables;
mod slips;
mod sound_tables;
pub mod tables;
mod worker;
mod wrong_buffers;
mod wrong_tables;

use crate::case::Bench;
use crate::judges::Verdict;
use crate::options::Options;
use crate::report::Report;
use crate::vector_store::{table_words, Slip};
use call::{Call, UNWRITTEN};
use damaged_tables::DamagedTables;
use std::process::ExitCode;
use std::time::Instant;
use worker::{try_all, Worker};
use wrong_buffers::WrongBuffers;
use wrong_tables::WrongTables;

/// Of each group this many failing cases are shown; more would tell the same.
const MOST_SHOWN: usize = 3;

/// Makes all calls and prints what came of them.
pub fn run(options: &Options) -> ExitCode {
    println!("seed {}, bridge {} {}", options.seed, options.program.file, options.program.words.join(" "));
    let mut report = Report::default();
    let bench = options.bench();
    // Without a bridge that starts, makes a call and ends, every case would fail alike.
    if let Err(said) = first_call(&bench) {
        report.test(&said, false);
        return report.close();
    }
    let mut client = Client { options, bench, report: &mut report };
    client.sound_tables();
    client.damaged_tables();
    client.wrong_tables();
    client.makings();
    client.wrong_buffers();
    client.long_runs();
    if options.slip.is_none() {
        client.slips();
    }
    report.close()
}

fn first_call(bench: &Bench) -> Verdict {
    let mut worker = Worker::new(bench);
    worker.try_call(&Call::make(0, [1, 1, 1], vec![UNWRITTEN; table_words(1, 1, 1)]));
    worker.finish().failures.into_iter().next().map_or(Ok(()), |(_, said)| Err(said))
}

struct Client<'a> {
    options: &'a Options,
    bench: Bench,
    report: &'a mut Report,
}

impl Client<'_> {
    fn sound_tables(&mut self) {
        let seed = self.options.seed;
        self.try_group("steps on sound tables", self.options.scripts, sound_tables::wanted(), |case, worker| {
            sound_tables::try_schedule(worker, seed, case);
        });
    }

    fn damaged_tables(&mut self) {
        let tables = DamagedTables::of_seed(self.options.seed);
        let fewer = self.options.fewer();
        self.try_group("damaged tables", tables.count() / fewer, damaged_tables::wanted(), |case, worker| {
            tables.try_one(worker, case * fewer);
        });
    }

    fn wrong_tables(&mut self) {
        let tables = WrongTables::of_seed(self.options.seed);
        self.try_group("tables of wrong length or header", tables.count(), Vec::new(), |case, worker| {
            tables.try_one(worker, case);
        });
    }

    fn makings(&mut self) {
        let (seed, makings) = (self.options.seed, making_tables::all_makings());
        self.try_group("making tables", makings.len() as u64, Vec::new(), |case, worker| {
            making_tables::try_making(worker, seed, case, makings[case as usize]);
        });
    }

    fn wrong_buffers(&mut self) {
        let buffers = WrongBuffers::of_seed(self.options.seed);
        self.try_group("buffers of all lengths", buffers.count(), Vec::new(), |case, worker| {
            buffers.try_one(worker, case);
        });
    }

    fn long_runs(&mut self) {
        let seed = self.options.seed;
        self.try_group("long runs on the largest table", long_runs::CASES, long_runs::wanted(), |case, worker| {
            long_runs::try_runs(worker, seed, case);
        });
    }

    fn slips(&mut self) {
        for slip in Slip::ALL {
            let name = format!("slip {} is found by the calls", slip.name());
            match slips::found(slip, &self.bench, self.options.seed) {
                Some((case, said)) => self.report.test(&format!("{name}, case {case}\n        {said}"), true),
                None => self.report.test(&name, false),
            }
        }
    }

    /// Tries a group of cases, and asks what they came upon unless some failed already.
    fn try_group(
        &mut self,
        name: &str,
        count: u64,
        wanted: Vec<(String, u64)>,
        try_case: impl Fn(u64, &mut Worker) + Sync,
    ) {
        let started = Instant::now();
        let tally = try_all(count, &self.bench, try_case);
        let seconds = started.elapsed().as_secs_f32();
        for (case, said) in tally.failures.iter().take(MOST_SHOWN) {
            println!("FAILED: {name}, case {case}: {said}");
        }
        self.report.group(&format!("{name} ({seconds:.1} s)"), tally.passed, tally.failures.len() as u64);
        if self.options.whole() && tally.failures.is_empty() && !wanted.is_empty() {
            println!("  {}", tally.coverage.listed());
            self.report.come_upon(&format!("{name}, come upon"), &tally.coverage, wanted);
        }
    }
}
