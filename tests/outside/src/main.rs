//! Evidence from outside the proofs. Three parts written from the scope paper (01) alone, the vector procedures
//! (`vector_store`), the plain book (`book`) and the desk's text (`desk_text`), are held against each other and against the
//! built program on random schedules. README.md beside this package tells what is tried and how a failure is read.

#[cfg(feature = "linked")]
mod benchmark;
mod book;
mod case;
mod client;
mod coverage;
mod cutting;
mod damage;
mod desk_text;
mod group;
mod history;
mod judges;
mod kept;
mod making;
mod options;
mod program;
mod random;
mod report;
mod schedule;
mod sizes;
mod slips;
mod stored_lines;
mod suite;
mod trials;
mod vector_store;

use case::{Bench, Case, Judge};
use coverage::Coverage;
use options::{Options, Order};
use std::io::{self, Read, Write};
use std::path::Path;
use std::process::ExitCode;
use vector_store::Procedures;

fn main() -> ExitCode {
    let options = match Options::given(std::env::args().skip(1)) {
        Ok(options) => options,
        Err(said) => {
            eprintln!("outside: {said}\n{}", options::USAGE);
            return ExitCode::from(2);
        }
    };
    match &options.order {
        Order::Reply => reply(options.bench().procedures),
        Order::Try(file) => try_file(Path::new(file), &options.bench()),
        Order::Suite => suite::run(&options),
        Order::Client => client::run(&options),
        Order::Benchmark => benchmark(&options),
    }
}

/// Answers a text on standard input as the desk does, so that the two can be compared by hand.
fn reply(procedures: Procedures) -> ExitCode {
    let mut text = Vec::new();
    let printed = io::stdin()
        .read_to_end(&mut text)
        .and_then(|_| io::stdout().write_all(&desk_text::output(&text, |script| judges::answers(procedures, script))));
    match printed {
        Ok(()) => ExitCode::SUCCESS,
        Err(error) => {
            eprintln!("outside: {error}");
            ExitCode::FAILURE
        }
    }
}

/// Times the library's calls, if they are in this program.
#[cfg(feature = "linked")]
fn benchmark(options: &Options) -> ExitCode {
    benchmark::run(options)
}

#[cfg(not(feature = "linked"))]
fn benchmark(_: &Options) -> ExitCode {
    eprintln!("outside: this program is built without the library (tools/benchmark.sh builds it with it)");
    ExitCode::from(2)
}

/// Says what each judge says of one file.
fn try_file(path: &Path, bench: &Bench) -> ExitCode {
    let case: Case = match kept::case_in(path) {
        Ok(case) => case,
        Err(error) => {
            eprintln!("outside: {error}");
            return ExitCode::from(2);
        }
    };
    let mut failed = false;
    for judge in Judge::ALL {
        match case.judged_by(judge, bench, &mut Coverage::default()) {
            Ok(()) => println!("{}: nothing to say", judge.name()),
            Err(said) => {
                println!("{}: {said}", judge.name());
                failed = true;
            }
        }
    }
    if failed {
        ExitCode::FAILURE
    } else {
        ExitCode::SUCCESS
    }
}
