//! The book against the examples and the edges of 01.

use super::{table_of, Book, FiveWords};

/// The step that a line of 01's desk program names.
pub fn step_of(line: &str) -> FiveWords {
    let mut step = [0; 5];
    for (word, text) in step.iter_mut().zip(line.split(' ')) {
        let kind = ["o", "c", "r", "w", "x"].iter().position(|letter| *letter == text);
        *word = kind.map_or_else(|| text.parse().unwrap(), |place| place as u32 + 1);
    }
    step
}

/// Takes the steps of all lines, each of which must be done.
pub fn do_all(book: &mut Book, lines: &[&str]) {
    for line in lines {
        assert_eq!(book.step(step_of(line))[0], 0, "{line}");
    }
}

/// Takes the steps of all lines and compares each answer; a refusal must leave the book as it was.
fn compare(book: &mut Book, rows: &[(&str, FiveWords)]) {
    for (line, answer) in rows {
        let before = table_of(book);
        assert_eq!(book.step(step_of(line)), *answer, "{line}");
        if answer[0] != 0 {
            assert_eq!(table_of(book), before, "{line}");
        }
    }
}

fn refused(code: u32) -> FiveWords {
    [code, 0, 0, 0, 0]
}

#[test]
fn ten_rows() {
    let mut book = Book::fresh(2, 4, 1);
    let rows = [
        ("o 0 1", [0, 0, 0, 0, 0]),
        ("w 0 7 50 1", [0, 0, 0, 1, 50]),
        ("r 0 7 2", [6, 0, 0, 0, 0]),
        ("x 0 1 9", [0, 1, 0, 0, 1]),
        ("r 0 7 2", [0, 1, 0, 1, 50]),
        ("w 0 7 60 2", [0, 1, 1, 2, 60]),
        ("w 0 7 70 1", [0, 0, 0, 2, 70]),
        ("r 0 7 1", [6, 0, 0, 0, 0]),
        ("x 1 0 9", [0, 0, 1, 0, 1]),
        ("r 0 7 3", [0, 0, 1, 2, 60]),
    ];
    compare(&mut book, &rows);
    let values: Vec<u32> = book.log(0).iter().map(|write| write.value).collect();
    assert_eq!(values, [50, 70, 60]);
    let numbers: Vec<usize> = book.log(0).iter().map(|write| write.number).collect();
    assert_eq!(numbers, [0, 2, 1]);
}

#[test]
fn monotonic_reads_take_all_writes_held_as_relevant() {
    let mut book = Book::fresh(2, 4, 2);
    do_all(&mut book, &["o 0 0", "o 1 2", "w 0 1 5 1", "x 0 1 9", "w 0 2 6 1"]);
    compare(&mut book, &[("r 1 1 1", [0, 0, 0, 1, 5]), ("r 1 1 2", refused(6))]);
}

#[test]
fn full_and_behind() {
    let mut book = Book::fresh(2, 1, 2);
    do_all(&mut book, &["o 0 8", "o 1 0", "w 0 1 5 1"]);
    compare(&mut book, &[("w 0 1 6 1", refused(7))]);
    // Server 1 is free but behind, server 0 up to date but full.
    compare(&mut book, &[("w 0 1 6 3", refused(7)), ("w 0 1 6 2", refused(6))]);
    do_all(&mut book, &["w 1 1 7 2"]);
    compare(&mut book, &[("w 0 1 6 2", refused(6)), ("w 1 1 8 3", refused(7))]);
    // A full log takes no writes in an exchange, which is done all the same.
    compare(&mut book, &[("x 0 1 9", [0, 1, 0, 0, 0])]);
}

#[test]
fn out_of_range() {
    let mut book = Book::fresh(2, 4, 1);
    let lines = [
        "0",
        "6",
        "4294967295",
        "o 1 0",
        "o 0 16",
        "o 0 0 1",
        "o 0 0 0 1",
        "c 1",
        "c 0 1",
        "c 0 0 1",
        "c 0 0 0 1",
        "r 1 0 1",
        "r 0 256 1",
        "r 0 0 4",
        "r 0 0 2147483648",
        "r 0 0 1 1",
        "w 1 0 0 1",
        "w 0 256 0 1",
        "w 0 0 0 4",
        "x 2 0 1",
        "x 0 2 1",
        "x 0 1 1 1",
        "x 2 2 1",
    ];
    for open in [false, true] {
        if open {
            do_all(&mut book, &["o 0 0"]);
        }
        for line in lines {
            compare(&mut book, &[(line, refused(2))]);
        }
    }
    do_all(&mut book, &["w 0 255 4294967295 1", "x 0 1 4294967295"]);
    compare(&mut book, &[("r 0 255 2", [0, 1, 0, 1, 4294967295])]);
}

#[test]
fn the_smallest_code_wins() {
    let mut book = Book::fresh(2, 4, 1);
    compare(&mut book, &[("c 0", refused(3)), ("r 0 0 0", refused(3)), ("w 0 0 0 0", refused(3))]);
    compare(&mut book, &[("o 0 15", [0; 5]), ("o 0 15", refused(3)), ("x 0 0 9", refused(4))]);
    compare(&mut book, &[("r 0 0 0", refused(5)), ("w 0 0 0 0", refused(5))]);
}

#[test]
fn choice_starts_at_the_last_used_server_and_goes_round() {
    let mut book = Book::fresh(3, 2, 1);
    let rows = [
        ("o 0 0", [0; 5]),
        ("r 0 0 6", [0, 1, 0, 0, 0]),
        ("w 0 0 1 4", [0, 2, 2, 1, 1]),
        ("r 0 0 3", [0, 0, 0, 0, 0]),
        ("w 0 0 2 4", [0, 2, 2, 2, 2]),
        ("w 0 0 3 7", [0, 0, 0, 1, 3]),
    ];
    compare(&mut book, &rows);
}

#[test]
fn exchange_sends_the_first_in_write_order() {
    let mut book = Book::fresh(2, 3, 1);
    do_all(&mut book, &["o 0 0", "w 0 1 10 1", "w 0 2 20 1", "w 0 3 30 1", "w 0 4 40 2"]);
    compare(&mut book, &[("x 0 1 0", [0, 1, 0, 0, 0]), ("x 0 1 1", [0, 1, 0, 0, 1])]);
    let values: Vec<u32> = book.log(1).iter().map(|write| write.value).collect();
    assert_eq!(values, [10, 40]);
    compare(&mut book, &[("x 0 1 9", [0, 1, 0, 0, 1]), ("r 0 3 2", [0, 1, 0, 0, 0])]);
    compare(&mut book, &[("x 1 0 9", [0, 0, 1, 0, 0])]);
}

#[test]
fn writes_follow_reads_without_monotonic_reads() {
    let mut book = Book::fresh(2, 4, 2);
    do_all(&mut book, &["o 0 4", "o 1 0", "w 1 1 5 1", "r 0 1 1", "r 0 1 2"]);
    compare(&mut book, &[("w 0 1 6 2", refused(6)), ("w 0 1 6 3", [0, 0, 0, 2, 6])]);
}

#[test]
fn a_reopened_slot_is_a_new_session() {
    let mut book = Book::fresh(2, 4, 1);
    do_all(&mut book, &["o 0 15", "w 0 1 5 2"]);
    compare(&mut book, &[("r 0 1 1", refused(6))]);
    do_all(&mut book, &["c 0", "o 0 15"]);
    compare(&mut book, &[("r 0 1 1", [0, 0, 0, 0, 0])]);
}

#[test]
fn sizes_outside_the_limits_do_no_harm() {
    for size in [0, usize::MAX] {
        let mut book = Book::fresh(size, size, size);
        book.step([1, 0, 0, 0, 0]);
        book.step([4, 0, 0, 0, 1]);
        assert!(book.log(usize::MAX).is_empty());
    }
}
