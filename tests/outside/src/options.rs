//! What the command line asks for.

use crate::case::Bench;
use crate::program::Program;
use crate::vector_store::{Procedures, Slip};
use std::path::PathBuf;

pub const USAGE: &str = "\
usage: outside [OPTIONS] [-- PROGRAM WORDS..]            tries everything; the last line is 'N passed, M failed'
       outside [OPTIONS] client [-- BRIDGE WORDS..]      tries the C calls, which the bridge makes; the last line is the same
       outside [OPTIONS] try FILE [-- PROGRAM WORDS..]   says what each judge says of one case (.txt or .words)
       outside [OPTIONS] reply                           answers a text on standard input as the desk does
       outside benchmark                                 times the library's calls (tools/benchmark.sh)
PROGRAM, run with the words behind it, is held to the rules; the usual one is crates/desk/out/desk
BRIDGE is the program of tests/client/bridge.c; the usual one is target/client/bridge
options: --kept FOLDER    the cases that are tried in every run, and where a failing one goes (tests/regressions)
         --seed NUMBER    of the random cases
         --scripts NUMBER of random scripts; what a whole run must come upon is asked of 3000 and more
         --slip NAME      plants a slip of 01 in the vector procedures: last-used-trusted, clock-of-own-writes,
                          newest-first, read-vector-only-under-mr or behind-for-a-full-log";

/// A whole run has this many scripts at least; of fewer nothing is asked that they come upon.
const WHOLE: u64 = 3_000;

/// What is to be done.
#[derive(Clone, Debug, PartialEq, Eq)]
pub enum Order {
    Suite,
    Client,
    Benchmark,
    Try(String),
    Reply,
}

/// What was asked for, or the usual.
#[derive(Clone, Debug)]
pub struct Options {
    pub order: Order,
    pub program: Program,
    pub kept: PathBuf,
    pub seed: u64,
    pub scripts: u64,
    pub slip: Option<Slip>,
}

impl Options {
    /// The options that these words give; Err says which of them is none.
    pub fn given(words: impl Iterator<Item = String>) -> Result<Options, String> {
        let mut options = Options {
            order: Order::Suite,
            program: Program { file: "crates/desk/out/desk".to_string(), words: Vec::new() },
            kept: PathBuf::from("tests/regressions"),
            seed: 19_940_928,
            scripts: 3_200,
            slip: None,
        };
        let mut words = words;
        while let Some(word) = words.next() {
            let mut value = || words.next().ok_or(format!("{word} wants a value"));
            match word.as_str() {
                "--kept" => options.kept = PathBuf::from(value()?),
                "--seed" => options.seed = number(&value()?)?,
                "--scripts" => options.scripts = number(&value()?)?,
                "--slip" => options.slip = Some(slip(&value()?)?),
                "client" => {
                    options.order = Order::Client;
                    options.program = Program { file: "target/client/bridge".to_string(), words: Vec::new() };
                }
                "benchmark" => options.order = Order::Benchmark,
                "try" => options.order = Order::Try(value()?),
                "reply" => options.order = Order::Reply,
                "--" => {
                    options.program = Program { file: value()?, words: words.collect() };
                    break;
                }
                _ => return Err(format!("{word:?} is no option")),
            }
        }
        Ok(options)
    }

    /// Whether it is asked what the run comes upon.
    pub fn whole(&self) -> bool {
        self.scripts >= WHOLE
    }

    /// Of lists of cases that are not random, one of so many is tried.
    pub fn fewer(&self) -> u64 {
        (WHOLE / self.scripts.max(1)).max(1)
    }

    /// The procedures and the program that were asked for.
    pub fn bench(&self) -> Bench {
        Bench { procedures: Procedures { slip: self.slip }, program: self.program.clone() }
    }
}

fn number(value: &str) -> Result<u64, String> {
    value.parse().map_err(|_| format!("{value:?} is no number"))
}

fn slip(name: &str) -> Result<Slip, String> {
    Slip::named(name).ok_or(format!("{name:?} is no slip"))
}
