//! The three judges: the plain book, the four guarantees, and the desk program. Each holds the vector procedures and one
//! other thing against each other on one case, and says what differs.

use crate::book::{book_of, table_of, Book};
use crate::coverage::Coverage;
use crate::desk_text::{output, FiveWords, Script};
use crate::history::History;
use crate::program::Program;
use crate::schedule::{Event, Schedule};
use crate::vector_store::{broken_rule, table_words, Procedures};
use std::fmt::Arguments;

/// What a judge says: nothing, or what differs.
pub type Verdict = Result<(), String>;

/// Both stores answer alike and show the same words after every step, and judge every damaged table alike.
pub fn by_the_book(procedures: Procedures, schedule: &Schedule, coverage: &mut Coverage) -> Verdict {
    let mut table = fresh_table(procedures, schedule)?;
    let mut book = Book::fresh(schedule.servers as usize, schedule.places as usize, schedule.slots as usize);
    same_words(format_args!("the fresh table"), &table, &table_of(&book))?;
    let mut answers = Vec::new();
    let mut damaged = None;
    for event in &schedule.events {
        match *event {
            Event::Becomes(place, word) => change(damaged.get_or_insert_with(|| table.clone()), place, |_| word),
            Event::Grows(place, word) => {
                change(damaged.get_or_insert_with(|| table.clone()), place, |old| old.wrapping_add(word))
            }
            Event::Step(step) => {
                if let Some(damaged) = damaged.take() {
                    judge_damaged(procedures, damaged, step, coverage)?;
                }
                let wanted = coverage.watch(&mut book, step);
                let answer = procedures.step(&mut table, step);
                same_answer(step, answer, wanted)?;
                same_words(format_args!("the table after {step:?}"), &table, &table_of(&book))?;
                answers.extend(answer);
            }
        }
    }
    runs_alike(procedures, schedule, &answers, &table)
}

/// The four guarantees hold at every moment of what the servers store.
pub fn by_the_guarantees(procedures: Procedures, schedule: &Schedule) -> Verdict {
    let mut table = fresh_table(procedures, schedule)?;
    let mut history = History::default();
    for (number, step) in (1..).zip(schedule.steps()) {
        // Without the check of the table: an unsound one would hide what follows from it.
        let answer = procedures.step_on_sound(&mut table, step);
        history
            .take_in(step, answer, &table)
            .map_err(|broken| format!("step {number}, {step:?}, answered {answer:?}: {broken}"))?;
    }
    Ok(())
}

/// The program prints for the text, byte for byte, what it should.
pub fn by_the_desk(procedures: Procedures, text: &[u8], program: &Program) -> Verdict {
    let wanted = output(text, |script| answers(procedures, script));
    let printed = program.output(text)?;
    if printed == wanted {
        return Ok(());
    }
    let line = 1 + printed.iter().zip(&wanted).take_while(|(a, b)| a == b).filter(|(a, _)| **a == b'\n').count();
    let line_of = |text: &[u8]| {
        let found = text.split(|byte| *byte == b'\n').nth(line - 1).unwrap_or(b"");
        String::from_utf8_lossy(found).into_owned()
    };
    Err(format!("line {line} of the output: the program prints {:?}, not {:?}", line_of(&printed), line_of(&wanted)))
}

/// The answers to a script's steps from a fresh table.
pub fn answers(procedures: Procedures, script: &Script) -> Vec<FiveWords> {
    let mut table = vec![0; table_words(script.servers, script.places, script.slots)];
    procedures.make(script.servers, script.places, script.slots, &mut table);
    script.steps.iter().map(|step| procedures.step(&mut table, *step)).collect()
}

fn fresh_table(procedures: Procedures, schedule: &Schedule) -> Result<Vec<u32>, String> {
    let (servers, places, slots) = (schedule.servers, schedule.places, schedule.slots);
    // Making must clear what stood there.
    let mut table = vec![9; table_words(servers, places, slots)];
    match procedures.make(servers, places, slots, &mut table) {
        0 => Ok(table),
        code => Err(format!("making a table {servers} {places} {slots} answers {code}")),
    }
}

fn change(table: &mut [u32], place: u32, new: impl Fn(u32) -> u32) {
    if let Some(word) = table.get_mut(place as usize) {
        *word = new(*word);
    }
}

/// Both ways of judging a table agree; if it is unsound the step answers 1 and alters nothing, else both stores go on alike.
fn judge_damaged(procedures: Procedures, damaged: Vec<u32>, step: FiveWords, coverage: &mut Coverage) -> Verdict {
    let mut table = damaged.clone();
    let answer = procedures.step(&mut table, step);
    let (rule, shown) = (broken_rule(&damaged), book_of(&damaged));
    coverage.note_rule(rule);
    match (rule, shown) {
        (Some(rule), Some(_)) => Err(format!("a table breaks rule {rule}, but shows a book: {damaged:?}")),
        (None, None) => Err(format!("a table breaks no rule, but shows no book: {damaged:?}")),
        (Some(_), None) => {
            same_answer(step, answer, [1, 0, 0, 0, 0])?;
            same_words(format_args!("an unsound table after {step:?}"), &table, &damaged)
        }
        (None, Some(mut book)) => {
            if let Some(rule) = broken_rule(&table) {
                return Err(format!("step {step:?} makes a sound table break rule {rule}: {damaged:?}"));
            }
            // A session's vector may have a number that is no clock; sets can't show it, and need not answer alike.
            if table_of(&book) != damaged {
                return Ok(());
            }
            coverage.note("both stores went on from a changed table");
            let wanted = book.step(step);
            same_answer(step, answer, wanted)?;
            same_words(format_args!("a changed table after {step:?}"), &table, &table_of(&book))
        }
    }
}

/// A run gives the answers and leaves the table of its steps one after another, and refuses lengths that don't fit.
fn runs_alike(procedures: Procedures, schedule: &Schedule, answers_wanted: &[u32], table_wanted: &[u32]) -> Verdict {
    let steps: Vec<u32> = schedule.steps().flatten().collect();
    let mut table = fresh_table(procedures, schedule)?;
    let fresh = table.clone();
    let mut answers = vec![7; steps.len() + 1];
    let code = procedures.run(&mut table, &steps, &mut answers);
    if code != 8 || table != fresh || answers.iter().any(|word| *word != 7) {
        return Err("a run with an answer buffer that is too long is not refused".to_string());
    }
    answers.pop();
    let code = procedures.run(&mut table, &steps, &mut answers);
    if code != 0 {
        return Err(format!("the run answers {code}"));
    }
    same_words(format_args!("the answers of the run"), &answers, answers_wanted)?;
    same_words(format_args!("the table after the run"), &table, table_wanted)
}

fn same_answer(step: FiveWords, answer: FiveWords, wanted: FiveWords) -> Verdict {
    if answer == wanted {
        return Ok(());
    }
    Err(format!("{step:?} answers {answer:?}, not {wanted:?}"))
}

/// The same words; Err says which differs first.
pub fn same_words(what: Arguments, words: &[u32], wanted: &[u32]) -> Verdict {
    if words == wanted {
        return Ok(());
    }
    let place = words.iter().zip(wanted).take_while(|(a, b)| a == b).count();
    let shown = |words: &[u32]| words.get(place).map_or("missing".to_string(), u32::to_string);
    Err(format!("{what}: word {place} is {}, not {}", shown(words), shown(wanted)))
}
