//! Each guarantee, broken on purpose: the store serves sessions without guarantees, and the history is told that they chose some.

use super::History;
use crate::desk_text::{read, FiveWords, Reading};
use crate::vector_store::{table_words, Procedures};

/// What the history says of a script's steps, if every session is said to have chosen these guarantees.
fn said_of(text: &str, guarantees: u32) -> Result<(), String> {
    let script = match read(text.as_bytes()) {
        Reading::Script(script) => script,
        other => panic!("{other:?}"),
    };
    let right = Procedures::default();
    let mut table = vec![0; table_words(script.servers, script.places, script.slots)];
    assert_eq!(right.make(script.servers, script.places, script.slots, &mut table), 0);
    let mut history = History::default();
    for step in script.steps {
        let answer = right.step(&mut table, step);
        assert_eq!(answer[0], 0, "{step:?}");
        history.take_in(told(step, guarantees), answer, &table)?;
    }
    Ok(())
}

fn told(mut step: FiveWords, guarantees: u32) -> FiveWords {
    if step[0] == 1 {
        step[2] = guarantees;
    }
    step
}

/// The script breaks this guarantee and no other.
fn breaks_only(guarantee: u32, text: &str, words: &str) {
    for guarantees in 0..16 {
        let said = said_of(text, guarantees);
        assert_eq!(said.is_err(), guarantees & guarantee != 0, "{guarantees}: {said:?}");
        if let Err(said) = said {
            assert!(said.contains(words), "{said}");
        }
    }
}

#[test]
fn read_your_writes() {
    breaks_only(1, "2 4 1\no 0 0\nw 0 7 50 1\nr 0 7 2\n", "Read Your Writes");
}

#[test]
fn monotonic_reads() {
    breaks_only(2, "2 4 2\no 0 0\no 1 0\nw 1 7 50 1\nr 0 7 1\nr 0 7 2\n", "Monotonic Reads");
}

#[test]
fn writes_follow_reads() {
    breaks_only(4, "2 4 2\no 0 0\no 1 0\nw 1 7 50 1\nr 0 7 1\nw 0 7 60 2\n", "one that it follows");
}

#[test]
fn monotonic_writes() {
    breaks_only(8, "2 4 1\no 0 0\nw 0 7 50 1\nw 0 7 60 2\n", "one that it follows");
}

/// The server that took the write has all that it follows; another that receives it has not.
#[test]
fn later_moments_count() {
    let taken = "3 4 1\no 0 0\nw 0 7 50 1\nx 0 1 1\nw 0 7 60 2\n";
    assert_eq!(said_of(taken, 8), Ok(()));
    let mut history = History::default();
    let steps = [[1, 0, 8, 0, 0], [4, 0, 7, 50, 1], [5, 0, 1, 1, 0], [4, 0, 7, 60, 2]];
    let mut table = vec![0; table_words(3, 4, 1)];
    Procedures::default().make(3, 4, 1, &mut table);
    for step in steps {
        let answer = Procedures::default().step(&mut table, step);
        assert_eq!(history.take_in(step, answer, &table), Ok(()));
    }
    // Server 2 comes to hold 60 alone: its count and the first place of its log.
    let log_2 = 4 + 3 * 4 + 2 * 4 * 4;
    table[4 + 3 * 4 - 1] = 1;
    table[log_2..log_2 + 4].copy_from_slice(&[1, 2, 7, 60]);
    let said = history.take_in([5, 1, 2, 1, 0], [0, 2, 1, 0, 1], &table);
    assert!(said.unwrap_err().contains("one that it follows"));
}

/// A session ends with its closing: a new one in the same slot has read and written nothing.
#[test]
fn a_reopened_slot_is_a_new_session() {
    assert_eq!(said_of("2 4 1\no 0 0\nw 0 7 50 1\nr 0 7 1\nc 0\no 0 0\nr 0 7 2\nw 0 7 60 2\n", 15), Ok(()));
}

/// What the logs hold is looked at, whatever was chosen.
#[test]
fn logs_hold_what_was_made() {
    let mut table = vec![0; table_words(2, 4, 1)];
    let right = Procedures::default();
    right.make(2, 4, 1, &mut table);
    let mut history = History::default();
    for step in [[1, 0, 0, 0, 0], [4, 0, 7, 50, 1]] {
        let answer = right.step(&mut table, step);
        assert_eq!(history.take_in(step, answer, &table), Ok(()));
    }
    let (refused, log_0) = ([2, 0, 0, 0, 0], 4 + 2 * 3);
    let changed = |word: usize, to: u32, words: &str| {
        let mut damaged = table.clone();
        damaged[word] = to;
        let said = history.clone().take_in(refused, refused, &damaged);
        assert!(said.clone().unwrap_err().contains(words), "{said:?}");
    };
    changed(log_0 + 1, 2, "nobody made");
    changed(log_0 + 2, 8, "another item or value");
    changed(log_0 + 3, 51, "another item or value");
    changed(6, 0, "lost a write");
}
