//! 01's own examples and edges, run through the procedures.

use super::{broken_rule, table_words, FiveWords, Procedures, Slip};

pub(super) const RIGHT: Procedures = Procedures { slip: None };

const TEN_ROWS: [(&str, FiveWords); 10] = [
    ("o 0 1", [0, 0, 0, 0, 0]),
    ("w 0 7 50 1", [0, 0, 0, 1, 50]),
    ("r 0 7 2", [6, 0, 0, 0, 0]),
    ("x 0 1 9", [0, 1, 0, 0, 1]),
    ("r 0 7 2", [0, 1, 0, 1, 50]),
    ("w 0 7 60 2", [0, 1, 1, 2, 60]),
    ("w 0 7 70 1", [0, 0, 0, 2, 70]),
    ("r 0 7 1", [6, 0, 0, 0, 0]),
    ("x 1 0 9", [0, 0, 1, 0, 1]),
    ("r 0 7 3", [0, 0, 1, 2, 60]),
];

/// A step from a line of the desk program; the words it leaves out are 0.
pub(super) fn step_of(line: &str) -> FiveWords {
    let mut step = [0; 5];
    for (word, part) in step.iter_mut().zip(line.split(' ')) {
        *word = match "ocrwx".find(part) {
            Some(kind) => kind as u32 + 1,
            None => part.parse().unwrap(),
        };
    }
    step
}

pub(super) fn made([servers, places, slots]: [u32; 3]) -> Vec<u32> {
    let mut table = vec![u32::MAX; table_words(servers, places, slots)];
    assert_eq!(RIGHT.make(servers, places, slots, &mut table), 0);
    table
}

/// The answers to a schedule on a fresh table. A refusal leaves the table as it was, a right step leaves it sound.
pub(super) fn answers(procedures: Procedures, sizes: [u32; 3], schedule: &str) -> Vec<FiveWords> {
    let mut table = made(sizes);
    let take = |line: &str| {
        let before = table.clone();
        let answer = procedures.step(&mut table, step_of(line));
        assert!(answer[0] == 0 || table == before, "{line}");
        assert!(procedures.slip.is_some() || broken_rule(&table).is_none());
        answer
    };
    schedule.split(", ").map(take).collect()
}

pub(super) fn last_answer(procedures: Procedures, sizes: [u32; 3], schedule: &str) -> FiveWords {
    *answers(procedures, sizes, schedule).last().unwrap()
}

fn last_code(sizes: [u32; 3], schedule: &str) -> u32 {
    last_answer(RIGHT, sizes, schedule)[0]
}

/// The first rows of 01's table as a schedule.
pub(super) fn rows(number: usize) -> String {
    let lines: Vec<&str> = TEN_ROWS[..number].iter().map(|(line, _)| *line).collect();
    lines.join(", ")
}

#[test]
fn ten_rows() {
    let expected = TEN_ROWS.map(|(_, answer)| answer);
    assert_eq!(answers(RIGHT, [2, 4, 1], &rows(10)), expected);
}

#[test]
fn table_after_the_ten_rows() {
    let mut table = made([2, 4, 1]);
    for (line, _) in TEN_ROWS {
        RIGHT.step(&mut table, step_of(line));
    }
    let (header, servers) = ([2, 4, 1, 0], [2, 2, 3, 1, 2, 2]);
    let first_log = [0, 1, 7, 50, 0, 2, 7, 70, 1, 2, 7, 60, 0, 0, 0, 0];
    let second_log = [0, 1, 7, 50, 1, 2, 7, 60, 0, 0, 0, 0, 0, 0, 0, 0];
    let slot = [2, 1, 2, 2, 2, 2];
    assert_eq!(table, [&header[..], &servers, &first_log, &second_log, &slot].concat());
}

#[test]
fn server_that_lacks_a_write_is_behind() {
    let schedule = "o 0 0, o 1 2, w 0 1 5 1, x 0 1 9, w 0 2 6 1, r 1 1 1, r 1 1 2";
    let given = answers(RIGHT, [2, 4, 2], schedule);
    assert_eq!(given[..2], [[0; 5]; 2]);
    assert_eq!(given[2..4], [[0, 0, 0, 1, 5], [0, 1, 0, 0, 1]]);
    assert_eq!(given[4..6], [[0, 0, 0, 2, 6], [0, 0, 0, 1, 5]]);
    assert_eq!(given[6], [6, 0, 0, 0, 0]);
}

#[test]
fn edges() {
    assert_eq!(last_code([1, 1, 1], "o 0 0, w 0 1 2 1, w 0 1 3 1"), 7);
    let both_full = "o 0 8, o 1 0, w 0 0 1 1, w 1 0 9 2";
    let behind_and_full = format!("{both_full}, w 0 0 2 2");
    assert_eq!(last_code([2, 1, 2], &behind_and_full), 6);
    let one_up_to_date = format!("{both_full}, w 0 0 2 3");
    assert_eq!(last_code([2, 1, 2], &one_up_to_date), 7);
    assert_eq!(last_code([2, 4, 1], "o 0 0, r 0 0 4"), 2);
    assert_eq!(last_code([2, 4, 1], "x 0 0 9"), 4);
    let no_such_write = last_answer(RIGHT, [2, 4, 1], "o 0 0, r 0 9 2");
    assert_eq!(no_such_write, [0, 1, 0, 0, 0]);
    let to_full = last_answer(RIGHT, [2, 1, 1], "o 0 0, w 0 1 2 1, w 0 1 3 2, x 0 1 9");
    assert_eq!(to_full, [0, 1, 0, 0, 0]);
}

#[test]
fn smallest_code_wins() {
    let out_of_range = "o 1 0, o 0 16, c 1, r 1 0 0, r 0 256 0, r 0 0 4, w 1 0 0 0, w 0 256 0 0, \
        w 0 0 0 4, x 2 2 0, x 0 2 0, x 2 0 0";
    let unused_or_kind = "o 0 0 1, o 0 0 0 1, c 0 1, c 0 0 1, c 0 0 0 1, r 0 0 0 1, x 0 0 9 1, 0, 6";
    for line in out_of_range.split(", ").chain(unused_or_kind.split(", ")) {
        assert_eq!(last_code([2, 4, 1], line), 2, "{line}");
    }
    for line in "c 0, r 0 0 0, w 0 0 0 0, r 0 0 1, w 0 0 0 1".split(", ") {
        assert_eq!(last_code([2, 4, 1], line), 3, "{line}");
    }
    assert_eq!(last_code([2, 4, 1], "o 0 0, o 0 15"), 3);
    assert_eq!(last_code([2, 4, 1], "o 0 0, r 0 0 0"), 5);
    let full_and_no_reach = "o 0 0, w 0 0 0 3, w 0 0 0 3, w 0 0 0 0";
    assert_eq!(last_code([2, 1, 1], full_and_no_reach), 5);
}

#[test]
fn sixteen_servers_are_in_reach() {
    assert_eq!(last_code([16, 1, 1], "o 0 15, r 0 255 65535"), 0);
    assert_eq!(last_code([16, 1, 16], "o 15 15, w 15 255 4294967295 32768"), 0);
    assert_eq!(last_code([16, 1, 1], "o 0 15, r 0 255 65536"), 2);
}

#[test]
fn search_goes_round_from_the_last_used_server() {
    // Server 2 is full after its one write, so the search passes from N-1 to 0.
    let given = answers(RIGHT, [3, 1, 1], "o 0 0, w 0 1 5 4, w 0 1 6 7, w 0 1 7 7, w 0 1 8 7");
    assert_eq!(given[1..3], [[0, 2, 2, 1, 5], [0, 0, 0, 1, 6]]);
    assert_eq!(given[3..], [[0, 1, 1, 1, 7], [7, 0, 0, 0, 0]]);
}

#[test]
fn reopened_slot_is_a_new_session() {
    let reopened = "o 0 1, w 0 7 50 1, c 0, o 0 1, r 0 7 2";
    assert_eq!(last_answer(RIGHT, [2, 4, 1], reopened), [0, 1, 0, 0, 0]);
}

#[test]
fn exchange_takes_the_first_in_write_order() {
    let before = "o 0 0, w 0 1 5 1, w 0 2 6 1, w 0 2 7 2, x 0 1 1";
    assert_eq!(last_answer(RIGHT, [2, 3, 1], before), [0, 1, 0, 0, 1]);
    let newest = format!("{before}, r 0 2 2");
    assert_eq!(last_answer(RIGHT, [2, 3, 1], &newest), [0, 1, 1, 1, 7]);
    let rest = format!("{before}, x 0 1 4294967295, r 0 2 2");
    assert_eq!(last_answer(RIGHT, [2, 3, 1], &rest), [0, 1, 0, 2, 6]);
}

#[test]
fn making_tests_sizes_then_length_and_writes_nothing_if_refused() {
    assert_eq!(table_words(2, 4, 1), 48);
    assert_eq!(table_words(u32::MAX, u32::MAX, u32::MAX), usize::MAX);
    let mut table = vec![7; 48];
    for [servers, places, slots] in [[0, 4, 1], [17, 4, 1], [2, 0, 1], [2, 1025, 1], [2, 4, 0], [2, 4, 17]] {
        assert_eq!(RIGHT.make(servers, places, slots, &mut table), 2);
    }
    assert_eq!(RIGHT.make(2, 4, 2, &mut table), 8);
    assert_eq!(RIGHT.make(2, 4, 1, &mut table[..47]), 8);
    assert_eq!(RIGHT.make(2, 4, 1, &mut []), 8);
    assert_eq!(RIGHT.make(u32::MAX, u32::MAX, u32::MAX, &mut []), 2);
    assert_eq!(table, [7; 48]);
    assert_eq!(RIGHT.make(2, 4, 1, &mut table), 0);
    assert_eq!(table, [vec![2, 4, 1], vec![0; 45]].concat());
}

#[test]
fn unsound_table_answers_1_at_any_length() {
    let mut table = made([2, 4, 1]);
    table[4] = 1;
    for step in [step_of("o 0 0"), step_of("x 0 0 9"), [9; 5]] {
        assert_eq!(RIGHT.step(&mut table, step), [1, 0, 0, 0, 0]);
        assert_eq!(RIGHT.step(&mut [], step), [1, 0, 0, 0, 0]);
        assert_eq!(RIGHT.step(&mut [2, 4, 1], step), [1, 0, 0, 0, 0]);
    }
    assert_eq!(table[4], 1);
    assert!(table[5..].iter().all(|&word| word == 0));
}

#[test]
fn run_equals_its_steps() {
    let steps: Vec<u32> = TEN_ROWS.iter().flat_map(|(line, _)| step_of(line)).collect();
    let expected: Vec<u32> = TEN_ROWS.iter().flat_map(|(_, answer)| *answer).collect();
    let mut table = made([2, 4, 1]);
    let fresh = table.clone();
    let mut given = vec![9; 50];
    for (steps_length, answers_length) in [(50, 45), (45, 50), (49, 49), (1, 1), (0, 5), (5, 0)] {
        assert_eq!(RIGHT.run(&mut table, &steps[..steps_length], &mut given[..answers_length]), 8);
    }
    assert_eq!((&table, &given), (&fresh, &vec![9; 50]));
    assert_eq!(RIGHT.run(&mut table, &[], &mut []), 0);
    assert_eq!(RIGHT.run(&mut table, &steps, &mut given), 0);
    assert_eq!(given, expected);
    assert_eq!(RIGHT.run(&mut [], &[], &mut []), 0);
    assert_eq!(RIGHT.run(&mut [8; 48], &steps, &mut given), 0);
    assert_eq!(given, [1, 0, 0, 0, 0].repeat(10));
}

/// A small generator of numbers, so that a failing schedule comes again.
struct Numbers(u64);

impl Numbers {
    fn below(&mut self, bound: u32) -> u32 {
        self.0 ^= self.0 << 13;
        self.0 ^= self.0 >> 7;
        self.0 ^= self.0 << 17;
        ((self.0 >> 32) % u64::from(bound)) as u32
    }

    /// Mostly in range for three servers and two slots, now and then not.
    fn step(&mut self) -> FiveWords {
        let (slot, item, value) = (self.below(2), self.below(3), self.below(9));
        let mut step = match self.below(10) {
            0 => [1, slot, self.below(16), 0, 0],
            1 => [2, slot * self.below(5), 0, 0, 0],
            2..=4 => [3, slot, item, self.below(8), 0],
            5..=7 => [4, slot, item, value, self.below(8)],
            _ => [5, self.below(3), self.below(3), self.below(4), 0],
        };
        if self.below(20) == 0 {
            step[self.below(5) as usize] = self.below(u32::MAX) >> self.below(32);
        }
        step
    }
}

#[test]
fn right_steps_keep_a_table_sound() {
    let mut numbers = Numbers(1);
    let mut codes = [0; 9];
    for _ in 0..100 {
        let mut table = made([3, 1 + numbers.below(6), 2]);
        for _ in 0..60 {
            let before = table.clone();
            let step = numbers.step();
            let answer = RIGHT.step(&mut table, step);
            assert_eq!(broken_rule(&table), None, "{step:?}");
            assert!(answer[0] == 0 || table == before, "{step:?}");
            assert!(answer[0] == 0 || answer[1..] == [0; 4], "{step:?}");
            codes[answer[0] as usize] += 1;
        }
    }
    for code in [0, 2, 3, 4, 5, 6, 7] {
        assert!(codes[code] > 0, "no step answered {code}");
    }
}

#[test]
fn nothing_panics_on_damaged_words() {
    let mut numbers = Numbers(2);
    let procedures = [None].into_iter().chain(Slip::ALL.map(Some)).map(|slip| Procedures { slip });
    for procedures in procedures {
        for round in 0..200 {
            let mut table = made([3, 1 + numbers.below(4), 2]);
            for _ in 0..40 {
                procedures.step_on_sound(&mut table, numbers.step());
                if round % 2 == 1 {
                    // Past the header: with a broken one every step would answer 1.
                    let word = 4 + numbers.below(table.len() as u32 - 4) as usize;
                    table[word] = numbers.below(u32::MAX) >> numbers.below(32);
                }
                procedures.step(&mut table, numbers.step());
            }
        }
    }
}
