use super::{Asked, Call, Outcome, UNWRITTEN};
use crate::vector_store::{table_words, Procedures};

const RIGHT: Procedures = Procedures { slip: None };
const OPEN: [u32; 5] = [1, 0, 15, 0, 0];
const WRITE: [u32; 5] = [4, 0, 7, 50, 2];

fn fresh() -> Vec<u32> {
    Call::make(0, [2, 3, 1], vec![9; table_words(2, 3, 1)]).wanted(RIGHT).table
}

/// Every call of which a difference can be told: each kind, on a table with something in it.
fn outcomes() -> [Outcome; 3] {
    let opened = Call::step(0, fresh(), OPEN).wanted(RIGHT).table;
    [
        Call::make(0, [2, 3, 1], vec![9; table_words(2, 3, 1)]).wanted(RIGHT),
        Call::step(0, opened, WRITE).wanted(RIGHT),
        Call::run(0, fresh(), [OPEN, WRITE].concat()).wanted(RIGHT),
    ]
}

#[test]
fn the_same_outcome_is_no_difference() {
    for outcome in outcomes() {
        assert_eq!(outcome.code, 0);
        assert_eq!(outcome.compared(&outcome), Ok(()));
    }
}

#[test]
fn another_code_is_found() {
    for wanted in outcomes() {
        let outcome = Outcome { code: 8, ..wanted.clone() };
        assert_eq!(outcome.compared(&wanted), Err("returns 8, not 0".to_string()));
    }
}

#[test]
fn a_change_of_any_word_is_found_and_named() {
    for wanted in outcomes() {
        for place in 0..wanted.table.len() {
            let mut outcome = wanted.clone();
            outcome.table[place] ^= 1 << (place % 32);
            let said = outcome.compared(&wanted).unwrap_err();
            assert!(said.starts_with(&format!("the table: word {place} is ")), "{said}");
        }
        for place in 0..wanted.answers.len() {
            let mut outcome = wanted.clone();
            outcome.answers[place] ^= 1 << 31;
            let said = outcome.compared(&wanted).unwrap_err();
            assert!(said.starts_with(&format!("the answers: word {place} is ")), "{said}");
        }
    }
}

#[test]
fn a_word_too_many_or_too_few_is_found() {
    for wanted in outcomes() {
        let mut longer = wanted.clone();
        longer.answers.push(0);
        assert!(longer.compared(&wanted).is_err() && wanted.compared(&longer).is_err());
        let mut shorter = wanted.clone();
        shorter.table.pop();
        assert!(shorter.compared(&wanted).is_err() && wanted.compared(&shorter).is_err());
    }
}

#[test]
fn the_first_of_several_differences_is_named() {
    let wanted = &outcomes()[1];
    let mut outcome = wanted.clone();
    outcome.table[6] += 1;
    outcome.table[9] += 1;
    let said = outcome.compared(wanted).unwrap_err();
    assert!(said.starts_with("the table: word 6 is "), "{said}");
}

#[test]
fn a_step_wants_five_words_for_its_answer_first_of_all() {
    for words in [0, 4, 6, 10] {
        // Words that are no table, too.
        for table in [fresh(), Vec::new()] {
            let call = Call { answers: vec![UNWRITTEN; words], ..Call::step(0, table.clone(), OPEN) };
            assert_eq!(call.wanted(RIGHT), Outcome { code: 8, table, answers: vec![UNWRITTEN; words] });
        }
    }
    assert_eq!(Call::step(0, Vec::new(), OPEN).wanted(RIGHT).answers, [1, 0, 0, 0, 0]);
}

#[test]
fn a_request_is_spelled_as_the_bridge_reads_it() {
    let run = Call { number: 5, asked: Asked::Run(vec![11, 12]), table: vec![9, 8, 7], answers: Vec::new() };
    // 5 is odd, so the table stands at the lower fence; 5 / 2 is even, so the steps stand at the upper one; 5 / 9 is 0.
    assert_eq!(run.request(), [3, 0, 0, 0, 0, 0, 1, 3, 9, 8, 7, 0, 2, 11, 12, 0, 0]);
    let make = Call::make(2, [4, 5, 6], vec![9]);
    assert_eq!(make.request(), [1, 4, 5, 6, 0, 0, 0, 1, 9, 0, 0, 0, 0]);
    let step = Call::step(0, vec![9], [1, 2, 3, 4, 5]);
    assert_eq!(step.request()[..6], [2, 1, 2, 3, 4, 5]);
    assert_eq!(step.request()[6..], [0, 1, 9, 0, 0, 0, 5, UNWRITTEN, UNWRITTEN, UNWRITTEN, UNWRITTEN, UNWRITTEN]);
}

#[test]
fn calls_one_after_another_have_their_buffers_in_all_ways() {
    let stands = |number, empty| {
        let call = Call::make(number, [1, 1, 1], Vec::new());
        [0, 1, 2].map(|buffer| call.stand(buffer, empty))
    };
    for (empty, ways) in [(false, 8), (true, 27)] {
        let mut seen: Vec<[u32; 3]> = (100..100 + ways).map(|number| stands(number, empty)).collect();
        seen.sort_unstable();
        seen.dedup();
        assert_eq!(seen.len() as u64, ways);
    }
}
