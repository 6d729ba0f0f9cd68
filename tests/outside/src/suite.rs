//! The whole run: kept cases, sizes at the limits, stored lines, random scripts, schedules in words, damaged texts, planted slips, and what was
//! come upon.

use crate::case::{Bench, Case, Judge};
use crate::coverage::{Coverage, AT_RANDOM, AT_THE_LIMITS, BYTE_BY_BYTE, SCRIPTS, WORDS};
use crate::damage::{byte_by_byte, damaged_text, text_at_the_limits};
use crate::desk_text::{read, spell, Reading};
use crate::group::Group;
use crate::kept::{keep, kept_cases};
use crate::making::{schedule_of_case, script_of_case};
use crate::options::Options;
use crate::report::{on_one_line, Report};
use crate::sizes::{all_sizes, judge_sizes};
use crate::slips::{finders, found};
use crate::stored_lines::judge_lines;
use crate::trials::{try_cases, Failure, Tally};
use crate::vector_store::Slip;
use std::process::ExitCode;
use std::time::Instant;

/// Of each group this many failing cases are cut down and kept; more would tell the same.
const MOST_KEPT: usize = 3;

/// What the programs `cases`, `damaged` and `buffers` print.
const STORED_LINES: [&str; 3] = ["crates/cases/stdout", "crates/damaged/stdout", "crates/buffers/stdout"];

/// Runs everything and prints it.
pub fn run(options: &Options) -> ExitCode {
    println!("seed {}, program {} {}", options.seed, options.program.file, options.program.words.join(" "));
    let mut report = Report::default();
    // Without a program that starts, every case would fail alike.
    if let Err(said) = options.program.output(b"") {
        report.test(&said, false);
        return report.close();
    }
    let mut coverage = Coverage::default();
    let mut suite = Suite { options, bench: options.bench(), report: &mut report, coverage: &mut coverage };
    suite.kept();
    suite.sizes();
    suite.stored_lines();
    suite.scripts();
    suite.words();
    suite.damaged();
    if options.slip.is_none() {
        suite.slips();
    }
    suite.come_upon();
    report.close()
}

struct Suite<'a> {
    options: &'a Options,
    bench: Bench,
    report: &'a mut Report,
    coverage: &'a mut Coverage,
}

impl Suite<'_> {
    fn kept(&mut self) {
        let cases = match kept_cases(&self.options.kept) {
            Ok(cases) => cases,
            Err(error) => return self.report.test(&format!("the folder of kept cases: {error}"), false),
        };
        for (path, case) in cases {
            let mut tally = Tally::default();
            tally.try_case(0, case, &Judge::ALL, &self.bench);
            let said = tally.failures.first().map_or(String::new(), |failure| format!(": {}", failure.said));
            self.report.test(&format!("{}{said}", path.display()), tally.failures.is_empty());
        }
    }

    fn sizes(&mut self) {
        let verdicts = all_sizes().into_iter().map(|(sizes, length)| judge_sizes(self.bench.procedures, sizes, length));
        self.report.verdicts("sizes at the limits", verdicts.collect());
    }

    fn stored_lines(&mut self) {
        let mut text = String::new();
        for path in STORED_LINES {
            match std::fs::read_to_string(path) {
                Ok(lines) => text.push_str(&lines),
                Err(error) => return self.report.test(&format!("{path}: {error}"), false),
            }
        }
        self.report
            .verdicts("lines of the programs cases, damaged and buffers", judge_lines(self.bench.procedures, &text));
    }

    fn scripts(&mut self) {
        let seed = self.options.seed;
        self.try_group(SCRIPTS, self.options.scripts, &Judge::ALL, |number, coverage| {
            let script = script_of_case(&mut Group::Scripts.random(seed, number), number);
            coverage.note_script(&script);
            Case::Text(spell(&script).unwrap_or_default())
        });
    }

    fn words(&mut self) {
        let seed = self.options.seed;
        self.try_group(WORDS, 2 * self.options.scripts, &[Judge::Book, Judge::Guarantees], |number, _| {
            let schedule = schedule_of_case(&mut Group::Words.random(seed, number), number);
            Case::Words(schedule.spell().into_bytes())
        });
    }

    fn damaged(&mut self) {
        let seed = self.options.seed;
        let texts = byte_by_byte();
        let fewer = self.options.fewer();
        self.try_group(BYTE_BY_BYTE, texts.len() as u64 / fewer, &[Judge::Desk], |number, coverage| {
            noted(texts[(number * fewer) as usize].clone(), coverage)
        });
        self.try_group(AT_RANDOM, self.options.scripts / 4, &[Judge::Desk], |number, coverage| {
            noted(damaged_text(&mut Group::DamagedTexts.random(seed, number), number), coverage)
        });
        self.try_group(AT_THE_LIMITS, self.options.scripts / 16, &[Judge::Desk], |number, coverage| {
            noted(text_at_the_limits(&mut Group::TextsAtTheLimits.random(seed, number)), coverage)
        });
    }

    fn slips(&mut self) {
        for slip in Slip::ALL {
            for &judge in finders(slip) {
                let name = format!("slip {} is found by the {}", slip.name(), judge.name());
                match found(slip, judge, &self.bench, self.options.seed) {
                    Some((case, said)) => {
                        self.report.test(&format!("{name}: {}\n        {said}", on_one_line(case.bytes())), true);
                    }
                    None => self.report.test(&name, false),
                }
            }
        }
    }

    /// What a whole run must have come upon.
    fn come_upon(&mut self) {
        if !self.options.whole() {
            return;
        }
        println!("{}", self.coverage.summary());
        self.report.come_upon("come upon", self.coverage, Coverage::wanted());
    }

    fn try_group(
        &mut self,
        name: &str,
        count: u64,
        judges: &[Judge],
        make: impl Fn(u64, &mut Coverage) -> Case + Sync,
    ) {
        let started = Instant::now();
        let tally = try_cases(count, judges, &self.bench, make);
        let seconds = started.elapsed().as_secs_f32();
        for failure in tally.failures.iter().take(MOST_KEPT) {
            self.tell(name, failure);
        }
        self.report.group(&format!("{name} ({seconds:.1} s)"), tally.passed, tally.failures.len() as u64);
        self.coverage.add_all(tally.coverage.of_group(name));
    }

    /// Says what failed, cuts it down and keeps it. A case that fails for a planted slip is not kept.
    fn tell(&self, group: &str, failure: &Failure) {
        let judge = failure.judge;
        println!("FAILED: {group}, case {}, by the {}: {}", failure.number, judge.name(), failure.said);
        let small = failure.case.cut_down(judge, &self.bench);
        println!("  cut down: {}", on_one_line(small.bytes()));
        if let Err(said) = small.judged_by(judge, &self.bench, &mut Coverage::default()) {
            println!("  of which the {} says: {said}", judge.name());
        }
        if self.options.slip.is_some() {
            return;
        }
        let name = format!("{}-{}-{}-{}", judge.name(), self.options.seed, group.replace(' ', "-"), failure.number);
        match keep(&self.options.kept, &name, &small) {
            Ok(path) => println!("  kept as {}", path.display()),
            Err(error) => println!("  not kept: {error}"),
        }
    }
}

fn noted(text: Vec<u8>, coverage: &mut Coverage) -> Case {
    let reading: Reading = read(&text);
    coverage.note_reading(&reading);
    Case::Text(text)
}
