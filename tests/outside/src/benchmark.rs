//! How long the library's calls take, beside the vector procedures on the same words.

mod largest;
mod library;

use crate::client::call::{Asked, Call, Outcome};
use crate::options::Options;
use crate::vector_store::Procedures;
use largest::{all_timed, Timed};
use std::process::ExitCode;
use std::time::{Duration, Instant};

/// Each call is timed until it took so long in all, on either side,
const ENOUGH: Duration = Duration::from_millis(600);
/// and so often at least.
const LEAST_ROUNDS: usize = 8;

const INSIDE: &str = "\
Inside the measured part: the call alone, that is the check of the whole table and the step, or all of them for a run.
Outside: copying the table before each call, and comparing returned code, answers and every word of the table after it.
The two sides work in one process and in the same memory, and take turns in being first; the ratio is the library's time by
that of the vector procedures in Rust.";

/// Times everything and prints it.
pub fn run(options: &Options) -> ExitCode {
    println!("largest table: 16 servers, 1,024 places, 16 slots, 66,356 words");
    println!("processor: {}", processor());
    println!("procedures: compiled by {}", env!("OUTSIDE_COMPILER"));
    println!("{INSIDE}\n");
    println!("{:38} {:>7} {:>23} {:>23} {:>15}", "", "", "library", "Rust", "ratio");
    println!(
        "{:38} {:>7} {:>11} {:>11} {:>11} {:>11} {:>7} {:>7}",
        "", "rounds", "median", "least", "median", "least", "median", "least"
    );
    for timed in all_timed() {
        match time(options.bench().procedures, &timed) {
            Ok(times) => print_line(timed.name, &times),
            Err(said) => {
                println!("FAILED: {}: {said}", timed.name);
                return ExitCode::FAILURE;
            }
        }
    }
    ExitCode::SUCCESS
}

/// What was measured: the times of each round, least first.
struct Times {
    library: Vec<Duration>,
    procedures: Vec<Duration>,
}

/// Times a call on both sides. They work in the same buffers, and take turns in being first. Err says what differs.
fn time(procedures: Procedures, timed: &Timed) -> Result<Times, String> {
    let call = &timed.call;
    let by_library = |table: &mut [u32], answers: &mut [u32]| made_by_library(&call.asked, table, answers);
    let by_procedures = |table: &mut [u32], answers: &mut [u32]| call.made_by(procedures, table, answers);
    let sides: [&Side; 2] = [&by_library, &by_procedures];
    let wanted = call.wanted(procedures);
    if (wanted.answers[0], wanted.answers[4]) != timed.answer {
        return Err(format!("answers {:?}, which is not what is to be timed", &wanted.answers[..5]));
    }
    let mut buffers = wanted.clone();
    let mut times = [Vec::new(), Vec::new()];
    for round in 0.. {
        for side in [round % 2, (round + 1) % 2] {
            let took = one_call(call, &mut buffers, sides[side]);
            buffers.compared(&wanted)?;
            // The first rounds find nothing in the caches, and are left out.
            if round >= 2 {
                times[side].push(took);
            }
        }
        if times.iter().all(|times| are_enough(times)) {
            break;
        }
    }
    times.iter_mut().for_each(|times| times.sort_unstable());
    let [library, procedures] = times;
    Ok(Times { library, procedures })
}

/// Who makes a call, in a table and a buffer for answers; it returns the code.
type Side<'a> = dyn Fn(&mut [u32], &mut [u32]) -> u32 + 'a;

fn are_enough(times: &[Duration]) -> bool {
    times.len() >= LEAST_ROUNDS && times.iter().sum::<Duration>() >= ENOUGH
}

/// Puts the words of a call into the buffers and makes it there: how long it took.
fn one_call(call: &Call, buffers: &mut Outcome, make: &Side) -> Duration {
    buffers.table.copy_from_slice(&call.table);
    buffers.answers.copy_from_slice(&call.answers);
    let started = Instant::now();
    buffers.code = make(&mut buffers.table, &mut buffers.answers);
    started.elapsed()
}

fn made_by_library(asked: &Asked, table: &mut [u32], answers: &mut [u32]) -> u32 {
    match asked {
        Asked::Make(sizes) => library::make(*sizes, table),
        Asked::Step(step) => library::step(table, *step, answers),
        Asked::Run(steps) => library::run(table, steps, answers),
    }
}

fn print_line(name: &str, times: &Times) {
    let both = |of: fn(&[Duration]) -> Duration| [of(&times.library), of(&times.procedures)];
    let (medians, least) = (both(median), both(|sorted| sorted[0]));
    let ratio = |[library, procedures]: [Duration; 2]| library.as_secs_f64() / procedures.as_secs_f64();
    println!(
        "{name:38} {:>7} {:>11} {:>11} {:>11} {:>11} {:>7.2} {:>7.2}",
        times.library.len(),
        shown(medians[0]),
        shown(least[0]),
        shown(medians[1]),
        shown(least[1]),
        ratio(medians),
        ratio(least)
    );
}

fn median(sorted: &[Duration]) -> Duration {
    sorted[sorted.len() / 2]
}

fn shown(time: Duration) -> String {
    let seconds = time.as_secs_f64();
    if seconds < 0.01 {
        format!("{:.1} µs", seconds * 1e6)
    } else {
        format!("{:.1} ms", seconds * 1e3)
    }
}

/// The processor's name, as Linux tells it.
fn processor() -> String {
    let told = std::fs::read_to_string("/proc/cpuinfo").unwrap_or_default();
    let name = told.lines().find_map(|line| line.strip_prefix("model name")?.split(": ").nth(1));
    name.unwrap_or("unknown").to_string()
}
