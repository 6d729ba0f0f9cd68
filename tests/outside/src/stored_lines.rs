//! The lines to which `rt ci` holds what the programs `cases`, `damaged` and `buffers` print of the calls: making, steps and runs on
//! sound tables and on damaged ones. Each line is said again by the vector procedures. What was asked is read off the line;
//! where the line doesn't tell, it stands in `asked`.

mod asked;

use crate::judges::Verdict;
use crate::vector_store::{table_words, FiveWords, Procedures};
use asked::{Start, AFTER_A_READ, AFTER_A_WRITE, EACH_KIND, LENGTHS, LIMITS, NAMES, ON_THE_LARGEST, RUN};

/// What the procedures say of each line; Err shows a line that they say otherwise, or that is of no known form.
pub fn judge_lines(procedures: Procedures, text: &str) -> Vec<Verdict> {
    let mut teller = Teller { procedures, text, reached: 0, name: "", table: Vec::new(), answers: Vec::new() };
    text.lines()
        .map(|line| match teller.said_again(line) {
            Some(said) if said == line => Ok(()),
            Some(said) => Err(format!("the stored line {line:?} should be {said:?}")),
            None => Err(format!("the stored line {line:?} is of no known form")),
        })
        .collect()
}

struct Teller<'a> {
    procedures: Procedures,
    text: &'a str,
    /// How many of the names have been reached, the name reached last, and its table.
    reached: usize,
    name: &'a str,
    table: Vec<u32>,
    /// Answers of a run that the next lines show.
    answers: Vec<FiveWords>,
}

impl<'a> Teller<'a> {
    /// The line as it should be.
    fn said_again(&mut self, line: &'a str) -> Option<String> {
        let (name, rest) = line.split_once(':')?;
        if let Some(right) = self.said_of_a_run(name) {
            return Some(format!("{name}:{right}"));
        }
        if let Some(guarantees) = name.strip_prefix("guarantees ").and_then(|rest| rest.split(',').next()) {
            return self.said_of_guarantees(guarantees.parse().ok()?);
        }
        if let Some(right) = self.said_of_lengths(name) {
            return Some(format!("{name}:{right}"));
        }
        let (asked, _) = rest.split_once(" ->")?;
        let right = match name {
            "make, and length" => self.said_of_making(&numbers(asked)?),
            "run, with word 3 and lengths" => self.said_of_a_run_with(&numbers(asked)?),
            _ if asked.is_empty() || asked.contains('=') => self.said_of_damage(asked),
            _ => self.said_of_a_step(name, &numbers(asked)?),
        }?;
        Some(format!("{name}:{asked} ->{right}"))
    }

    fn said_of_a_step(&mut self, name: &'a str, asked: &[u32]) -> Option<String> {
        if self.name != name {
            let (expected, start) = *NAMES.get(self.reached)?;
            self.table = match start {
                Start::Fresh(sizes) => self.fresh(sizes),
                Start::AfterTenRows => self.after_ten_rows(),
                Start::GoesOn | Start::GoesOnUnsound => std::mem::take(&mut self.table),
            };
            if let Start::GoesOnUnsound = start {
                self.table[3] = 1;
            }
            if expected != name {
                return None;
            }
            self.name = name;
            self.reached += 1;
        }
        let before = self.table.clone();
        let answer = self.procedures.step(&mut self.table, five(asked)?);
        Some(shown(&answer) + &changes(&before, &self.table))
    }

    fn said_of_damage(&self, asked: &str) -> Option<String> {
        let mut damaged = self.after_ten_rows();
        for change in asked.split_whitespace() {
            let (place, word) = change.split_once('=')?;
            *damaged.get_mut(place.parse::<usize>().ok()?)? = word.parse().ok()?;
        }
        Some(self.codes_of_each_kind(&damaged))
    }

    /// The codes of a step of each kind, one after another, and what became of the words.
    fn codes_of_each_kind(&self, words: &[u32]) -> String {
        let mut table = words.to_vec();
        let codes = EACH_KIND.map(|step| self.procedures.step(&mut table, step)[0]);
        shown(&codes) + &changes(words, &table)
    }

    fn said_of_lengths(&self, name: &str) -> Option<String> {
        if let Some((_, length)) = LENGTHS.iter().find(|(known, _)| *known == name) {
            let mut words = self.after_ten_rows();
            words.resize(*length, 0);
            return Some(self.codes_of_each_kind(&words));
        }
        let (_, [servers, places, slots]) = *LIMITS.iter().find(|(known, _)| *known == name)?;
        let mut words = vec![0; table_words(servers, places, slots)];
        words[..3].copy_from_slice(&[servers, places, slots]);
        Some(self.codes_of_each_kind(&words))
    }

    fn said_of_making(&self, asked: &[u32]) -> Option<String> {
        let (&[servers, places, slots], length) = (asked.get(..3)?.try_into().ok()?, *asked.get(3)?);
        let mut buffer = vec![9; length as usize];
        let code = self.procedures.make(servers, places, slots, &mut buffer);
        Some(shown(&[code]) + &made(&buffer))
    }

    fn said_of_guarantees(&self, guarantees: u32) -> Option<String> {
        let codes = |steps: &[FiveWords]| {
            let mut table = self.fresh([2, 4, 2]);
            self.procedures.step(&mut table, [1, 0, guarantees, 0, 0]);
            let codes: Vec<u32> = steps.iter().map(|step| self.procedures.step(&mut table, *step)[0]).collect();
            shown(&codes)
        };
        let (write, read) = (codes(&AFTER_A_WRITE), codes(&AFTER_A_READ));
        Some(format!("guarantees {guarantees}, after a write:{write}, after a read:{read}"))
    }

    fn said_of_a_run_with(&self, asked: &[u32]) -> Option<String> {
        let (&[fourth, steps, room], mut answers) = (asked.try_into().ok()?, [9; 15]);
        let mut table = self.after_ten_rows();
        table[3] = fourth;
        let before = table.clone();
        let code = self.procedures.run(&mut table, RUN.get(..steps as usize)?, answers.get_mut(..room as usize)?);
        Some(format!("{}, answers{}, table{}", shown(&[code]), shown(&answers), changes(&before, &table)))
    }

    /// Lines on runs whose steps are those of other lines, or stand in `asked`.
    fn said_of_a_run(&mut self, name: &str) -> Option<String> {
        let (of, what) = name.rsplit_once(", ")?;
        match (of, what) {
            ("largest table", "made") => {
                self.table = vec![9; table_words(16, 1024, 16)];
                let code = self.procedures.make(16, 1024, 16, &mut self.table);
                Some(shown(&[code]) + &made(&self.table))
            }
            ("largest table", "what changed") => Some(changes(&self.fresh([16, 1024, 16]), &self.table)),
            ("run, a table of no words", "no steps and one") => Some(self.said_of_no_words()),
            ("ten rows" | "2 4 2" | "largest table", "run") => Some(self.run(of)),
            ("ten rows" | "2 4 2" | "largest table", "answer") if !self.answers.is_empty() => {
                Some(shown(&self.answers.remove(0)))
            }
            ("ten rows" | "2 4 2", "table") => Some(shown(&self.table)),
            ("ten rows" | "2 4 2", "the steps leave the run's table") => {
                Some(changes(&self.table_after(of), &self.table))
            }
            _ => None,
        }
    }

    /// Takes the steps of a name as one run.
    fn run(&mut self, name: &str) -> String {
        let steps = self.steps_of(name);
        if name != "largest table" {
            self.table = self.start_of(name);
        }
        let mut answers = vec![0; steps.len() * 5];
        let code = self.procedures.run(&mut self.table, &steps.concat(), &mut answers);
        self.answers = answers.chunks(5).filter_map(five).collect();
        shown(&[code])
    }

    fn said_of_no_words(&self) -> String {
        let mut answers = [9; 5];
        let none = self.procedures.run(&mut [], &[], &mut []);
        let one = self.procedures.run(&mut [], &[1, 0, 0, 0, 0], &mut answers);
        format!("{}, answers{}", shown(&[none, one]), shown(&answers))
    }

    /// The steps that the lines of a name ask for.
    fn steps_of(&self, name: &str) -> Vec<FiveWords> {
        if name == "largest table" {
            return ON_THE_LARGEST.to_vec();
        }
        let asked = |line: &str| {
            let rest = line.strip_prefix(name)?.strip_prefix(':')?;
            five(&numbers(rest.split(" ->").next()?)?)
        };
        self.text.lines().filter_map(asked).collect()
    }

    fn start_of(&self, name: &str) -> Vec<u32> {
        match NAMES.iter().find(|(known, _)| *known == name) {
            Some((_, Start::Fresh(sizes))) => self.fresh(*sizes),
            _ => Vec::new(),
        }
    }

    fn table_after(&self, name: &str) -> Vec<u32> {
        let mut table = self.start_of(name);
        for step in self.steps_of(name) {
            self.procedures.step(&mut table, step);
        }
        table
    }

    fn fresh(&self, [servers, places, slots]: [u32; 3]) -> Vec<u32> {
        let mut table = vec![0; table_words(servers, places, slots)];
        self.procedures.make(servers, places, slots, &mut table);
        table
    }

    /// The table after the ten rows, with a second slot.
    fn after_ten_rows(&self) -> Vec<u32> {
        let mut table = self.fresh([2, 4, 2]);
        for step in self.steps_of("ten rows") {
            self.procedures.step(&mut table, step);
        }
        table
    }
}

fn numbers(text: &str) -> Option<Vec<u32>> {
    text.split_whitespace().map(|field| field.parse().ok()).collect()
}

fn five(words: &[u32]) -> Option<FiveWords> {
    words.try_into().ok()
}

fn shown(words: &[u32]) -> String {
    words.iter().map(|word| format!(" {word}")).collect()
}

/// Which words are not what they were.
fn changes(before: &[u32], after: &[u32]) -> String {
    if before == after {
        return " kept".to_string();
    }
    let changed = (0..).zip(before.iter().zip(after)).filter(|(_, (old, new))| old != new);
    changed.map(|(place, (_, new)): (usize, _)| format!(" {place}={new}")).collect()
}

/// What making left in a buffer of nines.
fn made(buffer: &[u32]) -> String {
    if buffer.iter().all(|word| *word == 9) {
        return " kept".to_string();
    }
    match buffer.split_at(buffer.len().min(4)) {
        (header, rest) if rest.iter().all(|word| *word == 0) => shown(header) + " and zeros",
        _ => " NOT ZEROS".to_string(),
    }
}
