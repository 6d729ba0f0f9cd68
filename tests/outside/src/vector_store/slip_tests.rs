//! 01, "Slips we have met": each planted slip shows in an answer, and only where it applies.

use super::tests::{answers, last_answer, made, rows, step_of, RIGHT};
use crate::vector_store::{broken_rule, FiveWords, Procedures, Slip};

#[test]
fn slips_have_names() {
    let names = "last-used-trusted clock-of-own-writes newest-first \
        read-vector-only-under-mr behind-for-a-full-log";
    assert_eq!(Slip::ALL.map(Slip::name).join(" "), names);
    for slip in Slip::ALL {
        assert_eq!(Slip::named(slip.name()), Some(slip));
    }
    assert_eq!(Slip::named("no-such-slip"), None);
}

/// What a planted slip and the right procedures answer last.
fn both_answers(slip: Slip, sizes: [u32; 3], schedule: &str) -> [FiveWords; 2] {
    let planted = Procedures { slip: Some(slip) };
    [planted, RIGHT].map(|procedures| last_answer(procedures, sizes, schedule))
}

#[test]
fn each_slip_changes_an_answer() {
    let trusted = both_answers(Slip::LastUsedTrusted, [2, 4, 1], &rows(8));
    assert_eq!(trusted, [[0, 0, 0, 2, 70], [6, 0, 0, 0, 0]]);
    let own_clock = both_answers(Slip::ClockOfOwnWrites, [2, 4, 1], &rows(6));
    assert_eq!(own_clock, [[0, 1, 1, 1, 60], [0, 1, 1, 2, 60]]);
    let few = "o 0 0, w 0 1 5 1, w 0 2 6 1, x 0 1 1, r 0 1 2";
    let newest = both_answers(Slip::NewestFirst, [2, 4, 1], few);
    assert_eq!(newest, [[1, 0, 0, 0, 0], [0, 1, 0, 1, 5]]);
    let follow = "o 0 0, o 1 4, w 0 1 5 1, r 1 1 1, w 1 2 6 2";
    let read_vector = both_answers(Slip::ReadVectorOnlyUnderMr, [2, 4, 2], follow);
    assert_eq!(read_vector, [[0, 1, 1, 1, 6], [6, 0, 0, 0, 0]]);
    let second = "o 0 0, w 0 1 2 1, w 0 1 3 1";
    let full = both_answers(Slip::BehindForAFullLog, [1, 1, 1], second);
    assert_eq!(full, [[6, 0, 0, 0, 0], [7, 0, 0, 0, 0]]);
}

#[test]
fn newest_first_covers_writes_that_are_not_there() {
    let planted = Procedures { slip: Some(Slip::NewestFirst) };
    let mut table = made([2, 4, 1]);
    let mut take = |line| planted.step_on_sound(&mut table, step_of(line));
    for line in ["o 0 0", "w 0 1 5 1", "w 0 2 6 1"] {
        take(line);
    }
    assert_eq!(take("x 0 1 1"), [0, 1, 0, 0, 1]);
    assert_eq!(take("r 0 1 2"), [0, 1, 0, 0, 0]);
    assert_eq!(take("r 0 2 2"), [0, 1, 0, 2, 6]);
    assert_eq!(take("x 0 1 9"), [0, 1, 0, 0, 0]);
    assert_eq!(broken_rule(&table), Some('c'));
}

#[test]
fn slips_change_nothing_where_they_do_not_apply() {
    let right = answers(RIGHT, [2, 4, 1], &rows(10));
    for slip in [Slip::NewestFirst, Slip::ReadVectorOnlyUnderMr, Slip::BehindForAFullLog] {
        let planted = Procedures { slip: Some(slip) };
        assert_eq!(answers(planted, [2, 4, 1], &rows(10)), right);
    }
    // A trusted server still needs a free place for a write.
    let full = both_answers(Slip::LastUsedTrusted, [1, 1, 1], "o 0 15, w 0 0 1 1, w 0 0 2 1");
    assert_eq!(full, [[7, 0, 0, 0, 0]; 2]);
}
