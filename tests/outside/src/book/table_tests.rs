//! The two ways between book and table against 01's layout and its rules a to f.

use std::collections::BTreeSet;

use super::tests::do_all;
use super::{book_of, table_of, Book, Write};

const STEPS: [&str; 6] = ["o 0 1", "w 0 7 50 1", "x 0 1 9", "r 0 7 2", "w 0 8 60 2", "w 0 9 70 1"];

/// The table after STEPS with sizes 2 4 2, by 01's layout.
fn small_table() -> Vec<u32> {
    let mut table = vec![2, 4, 2, 0];
    table.extend([2, 0, 2]);
    table.extend([1, 2, 2]);
    table.extend([0, 1, 7, 50, 0, 2, 9, 70, 0, 0, 0, 0, 0, 0, 0, 0]);
    table.extend([0, 1, 7, 50, 1, 2, 8, 60, 0, 0, 0, 0, 0, 0, 0, 0]);
    table.extend([2, 1, 1, 0, 2, 2]);
    table.extend([0, 0, 0, 0, 0, 0]);
    table
}

/// The small table with some of its words changed.
fn damaged(changes: &[(usize, u32)]) -> Vec<u32> {
    let mut table = small_table();
    for (place, word) in changes {
        table[*place] = *word;
    }
    table
}

fn sound(changes: &[(usize, u32)]) -> bool {
    book_of(&damaged(changes)).is_some()
}

/// A set of writes without the numbers, which a table does not show.
fn words_of(writes: &BTreeSet<Write>) -> Vec<[u32; 4]> {
    writes.iter().map(|write| [write.origin, write.clock, write.item, write.value]).collect()
}

#[test]
fn a_fresh_table_is_its_header_and_zeros() {
    let table = table_of(&Book::fresh(2, 4, 1));
    assert_eq!(table.len(), 48);
    assert_eq!(table[..4], [2, 4, 1, 0]);
    assert!(table[4..].iter().all(|word| *word == 0));
    for (servers, places, slots) in [(1, 1, 1), (16, 1024, 16), (3, 5, 2)] {
        let table = table_of(&Book::fresh(servers, places, slots));
        let length = 4 + servers * (servers + 1) + 4 * servers * places + slots * (2 * servers + 2);
        assert_eq!(table.len(), length);
        assert!(book_of(&table).is_some());
    }
}

#[test]
fn the_words_of_a_small_book() {
    let mut book = Book::fresh(2, 4, 2);
    do_all(&mut book, &STEPS);
    assert_eq!(table_of(&book), small_table());
}

#[test]
fn a_table_shows_the_sets_of_its_book() {
    let mut book = Book::fresh(3, 6, 3);
    let lines = [
        "o 0 15",
        "o 2 6",
        "w 0 1 10 1",
        "x 0 1 9",
        "w 0 2 20 2",
        "r 2 1 2",
        "w 2 3 30 2",
        "x 1 2 2",
        "w 0 4 40 7",
        "x 1 0 9",
        "r 0 1 7",
        "w 0 5 50 1",
    ];
    for line in lines {
        do_all(&mut book, &[line]);
        let table = table_of(&book);
        let again = book_of(&table).unwrap();
        assert_eq!(table_of(&again), table);
        assert_eq!(again.made, book.made);
        for (held, held_again) in book.servers.iter().zip(&again.servers) {
            assert_eq!(words_of(held), words_of(held_again));
        }
        for (slot, slot_again) in book.slots.iter().zip(&again.slots) {
            assert_eq!(slot.is_some(), slot_again.is_some());
            if let (Some(session), Some(session_again)) = (slot, slot_again) {
                assert_eq!(words_of(&session.read_set), words_of(&session_again.read_set));
                // A vector does not tell the session's own writes from others of the same origin before them.
                let own = words_of(&session.write_set);
                let own_again = words_of(&session_again.write_set);
                assert!(own.iter().all(|write| own_again.contains(write)));
            }
        }
    }
}

#[test]
fn rule_a() {
    let table = small_table();
    for length in 0..table.len() {
        assert!(book_of(&table[..length]).is_none());
    }
    assert!(book_of(&[table, vec![0]].concat()).is_none());
    assert!(!sound(&[(3, 1)]));
    for place in 0..3 {
        for word in [0, 1, 3, 17, 1025, u32::MAX] {
            assert!(!sound(&[(place, word)]));
        }
    }
    for sizes in [[0, 1, 1], [1, 0, 1], [1, 1, 0], [17, 1, 1], [1, 1025, 1], [1, 1, 17]] {
        let [servers, places, slots] = sizes;
        let length = 4 + servers * (servers + 1) + 4 * servers * places + slots * (2 * servers + 2);
        let mut table = vec![0; length];
        for (word, size) in table.iter_mut().zip(sizes) {
            *word = size as u32;
        }
        assert!(book_of(&table).is_none());
    }
}

#[test]
fn rule_b() {
    for count in [0, 1, 3, 4, 5, u32::MAX] {
        assert!(!sound(&[(6, count)]));
    }
    for place in (18..26).chain(34..42) {
        assert!(!sound(&[(place, 1)]));
    }
}

#[test]
fn rule_c() {
    // The second place of server 1 changes its origin, clock or item; vectors and session follow where they can.
    for origin in [2, u32::MAX] {
        assert!(!sound(&[(30, origin), (8, 0), (47, 0)]));
    }
    for clock in [0, 1, 2, 3, u32::MAX] {
        let fits = clock == 1 || clock == 2;
        assert_eq!(sound(&[(31, clock), (8, clock), (47, 0)]), fits);
    }
    assert!(!sound(&[(32, 256)]));
    // All clocks of server 0 are one more, so that none is 1.
    assert!(!sound(&[(11, 2), (15, 3), (4, 3), (27, 2), (7, 2)]));
    // The two writes of server 1 change places.
    let table = small_table();
    let swapped = [&table[..26], &table[30..34], &table[26..30], &table[34..]].concat();
    assert!(book_of(&swapped).is_none());
    // Server 1 has its own write twice, or two writes of the same clock and origin.
    for value in [60, 61] {
        assert!(!sound(&[(9, 3), (34, 1), (35, 2), (36, 8), (37, value)]));
    }
}

#[test]
fn rule_d() {
    for place in [4, 5, 7, 8] {
        for word in [0, 1, 2, 3, u32::MAX] {
            assert_eq!(sound(&[(place, word)]), small_table()[place] == word);
        }
    }
}

#[test]
fn rule_e() {
    // Server 1 has the first write of server 0 with another item or another value.
    assert!(!sound(&[(28, 6)]));
    assert!(!sound(&[(29, 51)]));
    let server_1_has_both = [(7, 2), (8, 0), (30, 0), (32, 9), (33, 70), (47, 0)];
    assert!(sound(&server_1_has_both));
    // Server 1 has the second write of server 0, but the first is its own.
    assert!(!sound(&[&server_1_has_both[..], &[(8, 1), (26, 1)]].concat()));
    // Server 1 has a write of server 0 that server 0 lacks.
    let server_0_has_one = [(4, 1), (6, 1), (15, 0), (16, 0), (17, 0), (46, 1)];
    assert!(sound(&server_0_has_one));
    assert!(!sound(&[&server_1_has_both[..], &server_0_has_one[..]].concat()));
}

#[test]
fn rule_f() {
    for (place, most) in [(42, 16), (43, 2), (44, 2), (45, 2), (46, 2), (47, 2)] {
        for word in [0, 1, 2, 3, 16, 17, u32::MAX] {
            let closed_but_not_zero = place == 42 && word == 0;
            assert_eq!(sound(&[(place, word)]), word <= most && !closed_but_not_zero);
        }
    }
    for place in 49..54 {
        assert!(!sound(&[(place, 1)]));
    }
    assert!(sound(&[(48, 1), (49, 2), (50, 2), (53, 1)]));
}

#[test]
fn harmless_damage_stays_sound() {
    // Item and value of the writes that only their home holds.
    for changes in [[(16, 0), (17, 0)], [(32, 255), (33, u32::MAX)]] {
        assert_eq!(table_of(&book_of(&damaged(&changes)).unwrap()), damaged(&changes));
    }
    // The write of clock 1 changes its value on both servers.
    assert!(sound(&[(13, 51), (29, 51)]));
}

#[test]
fn a_component_between_two_clocks_is_sound() {
    let mut book = Book::fresh(2, 4, 1);
    do_all(&mut book, &["o 0 0", "w 0 1 5 1", "x 0 1 9", "w 0 1 6 2", "x 1 0 9", "w 0 1 7 1"]);
    let mut table = table_of(&book);
    // Server 0 has own writes of clocks 1 and 3.
    let read_vector = table.len() - 4;
    for (component, shown) in [(0, 0), (1, 1), (2, 1), (3, 3)] {
        table[read_vector] = component;
        assert_eq!(table_of(&book_of(&table).unwrap())[read_vector], shown);
    }
    table[read_vector] = 4;
    assert!(book_of(&table).is_none());
}

#[test]
fn any_slice_is_judged() {
    for word in [0, 1, 2, 3, 15, 16, 17, 1024, u32::MAX] {
        for length in 0..100 {
            book_of(&vec![word; length]);
        }
        for place in 0..small_table().len() {
            sound(&[(place, word)]);
        }
    }
}
