//! What is printed, and the count that closes a run.

use crate::coverage::Coverage;
use crate::judges::Verdict;
use std::process::ExitCode;

/// How many tests passed and failed so far.
#[derive(Debug, Default)]
pub struct Report {
    passed: u64,
    failed: u64,
}

impl Report {
    /// Says how a group of tests went.
    pub fn group(&mut self, name: &str, passed: u64, failed: u64) {
        println!("{name}: {passed} passed, {failed} failed");
        self.passed += passed;
        self.failed += failed;
    }

    /// Says what verdicts of a group found, and how it went.
    pub fn verdicts(&mut self, name: &str, verdicts: Vec<Verdict>) {
        let found: Vec<&String> = verdicts.iter().filter_map(|verdict| verdict.as_ref().err()).collect();
        found.iter().for_each(|said| println!("FAILED: {said}"));
        self.group(name, (verdicts.len() - found.len()) as u64, found.len() as u64);
    }

    /// What must have been come upon, and how often: one test each, of which those that failed are shown.
    pub fn come_upon(&mut self, name: &str, coverage: &Coverage, wanted: Vec<(String, u64)>) {
        let mut enough = 0;
        for (thing, wanted) in wanted {
            let times = coverage.times(&thing);
            if times >= wanted {
                enough += 1;
            } else {
                self.test(&format!("{name}: {thing}: {times} times, {wanted} wanted"), false);
            }
        }
        self.group(name, enough, 0);
    }

    /// Counts one test and says it.
    pub fn test(&mut self, name: &str, passed: bool) {
        println!("{}: {name}", if passed { "passed" } else { "FAILED" });
        if passed {
            self.passed += 1;
        } else {
            self.failed += 1;
        }
    }

    /// The closing line. A run without a test is a failure.
    pub fn close(self) -> ExitCode {
        println!("{} passed, {} failed", self.passed, self.failed);
        if self.failed == 0 && self.passed > 0 {
            ExitCode::SUCCESS
        } else {
            ExitCode::FAILURE
        }
    }
}

/// A case on one line.
pub fn on_one_line(bytes: &[u8]) -> String {
    let text = String::from_utf8_lossy(bytes);
    let shown = text.trim_end_matches('\n').replace('\n', " / ");
    shown.escape_debug().collect()
}
