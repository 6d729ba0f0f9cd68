//! A case: a text for the desk, or a schedule in words for the stores alone, and what each judge says of it.

use crate::coverage::Coverage;
use crate::cutting::cut;
use crate::desk_text::{read, Reading};
use crate::judges::{by_the_book, by_the_desk, by_the_guarantees, Verdict};
use crate::program::Program;
use crate::schedule::Schedule;
use crate::vector_store::Procedures;

/// A case as it stands in a file.
#[derive(Clone, Debug, PartialEq, Eq)]
pub enum Case {
    /// What the desk reads: a script, or anything else.
    Text(Vec<u8>),
    /// What `Schedule` spells.
    Words(Vec<u8>),
}

/// Who says whether a case went well.
#[derive(Clone, Copy, Debug, PartialEq, Eq)]
pub enum Judge {
    Book,
    Guarantees,
    Desk,
}

impl Judge {
    pub const ALL: [Judge; 3] = [Judge::Book, Judge::Guarantees, Judge::Desk];

    pub fn name(self) -> &'static str {
        match self {
            Judge::Book => "book",
            Judge::Guarantees => "guarantees",
            Judge::Desk => "desk",
        }
    }
}

/// What is held against the judges: the procedures, right or with a slip, and the program.
#[derive(Clone, Debug)]
pub struct Bench {
    pub procedures: Procedures,
    pub program: Program,
}

impl Case {
    /// The bytes of the case's file.
    pub fn bytes(&self) -> &[u8] {
        match self {
            Case::Text(bytes) | Case::Words(bytes) => bytes,
        }
    }

    /// What its file is called after the dot.
    pub fn ending(&self) -> &'static str {
        match self {
            Case::Text(_) => "txt",
            Case::Words(_) => "words",
        }
    }

    /// The schedule of the case; a text that is no script has none.
    pub fn schedule(&self) -> Option<Schedule> {
        match self {
            Case::Text(text) => match read(text) {
                Reading::Script(script) => Some(Schedule::of_script(&script)),
                _ => None,
            },
            Case::Words(words) => Schedule::read(std::str::from_utf8(words).ok()?),
        }
    }

    /// What one judge says of the case. The stores have nothing to say of a text without a schedule, the desk nothing of words.
    pub fn judged_by(&self, judge: Judge, bench: &Bench, coverage: &mut Coverage) -> Verdict {
        match (judge, self) {
            (Judge::Desk, Case::Text(text)) => by_the_desk(bench.procedures, text, &bench.program),
            (Judge::Desk, Case::Words(_)) => Ok(()),
            (Judge::Book, _) => {
                self.schedule().map_or(Ok(()), |schedule| by_the_book(bench.procedures, &schedule, coverage))
            }
            (Judge::Guarantees, _) => {
                self.schedule().map_or(Ok(()), |schedule| by_the_guarantees(bench.procedures, &schedule))
            }
        }
    }

    /// The smallest case found of which the judge still says something.
    pub fn cut_down(&self, judge: Judge, bench: &Bench) -> Case {
        let as_case = |bytes: &[u8]| match self {
            Case::Text(_) => Case::Text(bytes.to_vec()),
            Case::Words(_) => Case::Words(bytes.to_vec()),
        };
        let smallest =
            cut(self.bytes(), |bytes| as_case(bytes).judged_by(judge, bench, &mut Coverage::default()).is_err());
        as_case(&smallest)
    }
}
