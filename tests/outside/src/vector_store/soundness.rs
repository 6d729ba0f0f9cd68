//! 01, "A sound table": the rules a to f, one function each.

use super::layout::{Layout, GREATEST_GUARANTEES, GREATEST_ITEM};

/// The first of 01's rules a to f that the table breaks, as its letter; `None` if it is sound.
pub fn broken_rule(table: &[u32]) -> Option<char> {
    let layout = match Layout::of(table) {
        Some(layout) => layout,
        None => return Some('a'),
    };
    let servers = || 0..layout.servers;
    if !servers().all(|server| count_fits(layout, table, server)) {
        Some('b')
    } else if !servers().all(|server| log_ascends(layout, table, server)) {
        Some('c')
    } else if !servers().all(|server| vector_tells_log(layout, table, server)) {
        Some('d')
    } else if !servers().all(|server| log_agrees_with_origins(layout, table, server)) {
        Some('e')
    } else if !(0..layout.slots).all(|slot| slot_fits(layout, table, slot)) {
        Some('f')
    } else {
        None
    }
}

/// Rule b.
fn count_fits(layout: Layout, table: &[u32], server: usize) -> bool {
    table[layout.count(server)] as usize <= layout.places
        && layout.past_count(table, server).iter().all(|&word| word == 0)
}

/// Rule c.
fn log_ascends(layout: Layout, table: &[u32], server: usize) -> bool {
    let mut before = None;
    for write in layout.held(table, server) {
        if write.origin as usize >= layout.servers || write.item > GREATEST_ITEM {
            return false;
        }
        let follows = match before {
            None => write.clock == 1,
            Some((clock, origin)) if write.clock == clock => write.origin > origin,
            Some((clock, _)) => Some(write.clock) == u32::checked_add(clock, 1),
        };
        if !follows {
            return false;
        }
        before = Some(write.order());
    }
    true
}

/// Rule d.
fn vector_tells_log(layout: Layout, table: &[u32], server: usize) -> bool {
    let vector = &table[layout.vector(server)];
    (0..layout.servers).all(|origin| {
        let of_origin = layout.held(table, server).filter(|write| write.origin as usize == origin);
        vector[origin] == of_origin.map(|write| write.clock).max().unwrap_or(0)
    })
}

/// Rule e. Both logs ascend by rule c, so equal entries stand in equal order.
fn log_agrees_with_origins(layout: Layout, table: &[u32], server: usize) -> bool {
    let vector = &table[layout.vector(server)];
    (0..layout.servers).all(|origin| {
        let held = layout.held(table, server).filter(|write| write.origin as usize == origin);
        let covered =
            layout.held(table, origin).filter(|write| write.origin as usize == origin && write.clock <= vector[origin]);
        held.eq(covered)
    })
}

/// Rule f.
fn slot_fits(layout: Layout, table: &[u32], slot: usize) -> bool {
    let guarantees = table[layout.guarantees(slot)];
    if guarantees == 0 {
        return table[layout.slot(slot)].iter().all(|&word| word == 0);
    }
    let read_vector = &table[layout.read_vector(slot)];
    let write_vector = &table[layout.write_vector(slot)];
    guarantees <= GREATEST_GUARANTEES + 1
        && table[layout.last_used(slot)] as usize <= layout.servers
        && (0..layout.servers).all(|server| {
            let own_clock = table[layout.vector(server)][server];
            read_vector[server] <= own_clock && write_vector[server] <= own_clock
        })
}

#[cfg(test)]
mod tests {
    use super::broken_rule;
    use crate::vector_store::Procedures;

    // The layout of N=2, L=4, P=1, counted by hand from 01.
    const VECTOR_0: usize = 4;
    const COUNT_0: usize = 6;
    const VECTOR_1: usize = 7;
    const COUNT_1: usize = 9;
    const LOG_0: usize = 10;
    const LOG_1: usize = 26;
    const SLOT: usize = 42;
    const ORIGIN: usize = 0;
    const CLOCK: usize = 1;
    const ITEM: usize = 2;
    const VALUE: usize = 3;

    /// The table after the ten rows of 01: log 0 holds 50, 70, 60 and log 1 holds 50, 60.
    fn sound_table() -> Vec<u32> {
        let mut table = vec![2, 4, 1, 0];
        table.extend([2, 2, 3, 1, 2, 2]);
        table.extend([0, 1, 7, 50, 0, 2, 7, 70, 1, 2, 7, 60, 0, 0, 0, 0]);
        table.extend([0, 1, 7, 50, 1, 2, 7, 60, 0, 0, 0, 0, 0, 0, 0, 0]);
        table.extend([2, 1, 2, 2, 2, 2]);
        table
    }

    /// The rule that the sound table breaks once these words are put into it.
    fn broken_by(damages: &[(usize, u32)]) -> Option<char> {
        let mut table = sound_table();
        for &(word, damage) in damages {
            table[word] = damage;
        }
        broken_rule(&table)
    }

    #[test]
    fn sound_tables_break_no_rule() {
        assert_eq!(broken_rule(&sound_table()), None);
        let mut fresh = vec![9; 48];
        assert_eq!(Procedures::default().make(2, 4, 1, &mut fresh), 0);
        assert_eq!(broken_rule(&fresh), None);
    }

    #[test]
    fn rule_a_is_about_length_and_header() {
        for (word, damage) in [(0, 0), (0, 1), (0, 17), (0, u32::MAX), (1, 0), (1, 5), (1, 1025)] {
            assert_eq!(broken_by(&[(word, damage)]), Some('a'));
        }
        for (word, damage) in [(1, u32::MAX), (2, 0), (2, 17), (2, 2), (2, u32::MAX), (3, 1)] {
            assert_eq!(broken_by(&[(word, damage)]), Some('a'));
        }
        let table = sound_table();
        for length in 0..48 {
            assert_eq!(broken_rule(&table[..length]), Some('a'));
        }
        assert_eq!(broken_rule(&[table, vec![0]].concat()), Some('a'));
        // Lengths that fit sizes out of limits.
        for (sizes, length) in [([17, 1, 1], 414), ([1, 1025, 1], 4110), ([1, 1, 17], 78), ([0, 0, 0], 4)] {
            let mut table = vec![0; length];
            table[..3].copy_from_slice(&sizes);
            assert_eq!(crate::vector_store::table_words(sizes[0], sizes[1], sizes[2]), length);
            assert_eq!(broken_rule(&table), Some('a'));
        }
    }

    #[test]
    fn rule_b_is_about_counts_and_places_past_them() {
        for (word, damage) in [(COUNT_0, 5), (COUNT_1, u32::MAX), (COUNT_0, 2), (COUNT_1, 0)] {
            assert_eq!(broken_by(&[(word, damage)]), Some('b'));
        }
        for word in (LOG_0 + 12..LOG_0 + 16).chain(LOG_1 + 8..LOG_1 + 16) {
            assert_eq!(broken_by(&[(word, 1)]), Some('b'));
        }
    }

    #[test]
    fn rule_c_is_about_the_entries_of_a_log() {
        // Counted, a place of zeros is an entry whose clock goes back.
        assert_eq!(broken_by(&[(COUNT_1, 3)]), Some('c'));
        let second = LOG_0 + 4;
        let third = LOG_0 + 8;
        for (word, damage) in [(LOG_0 + ORIGIN, 2), (third + ORIGIN, u32::MAX), (second + ITEM, 256)] {
            assert_eq!(broken_by(&[(word, damage)]), Some('c'));
        }
        for (word, damage) in [(LOG_0 + CLOCK, 0), (LOG_0 + CLOCK, 2), (second + CLOCK, 1), (second + CLOCK, 3)] {
            assert_eq!(broken_by(&[(word, damage)]), Some('c'));
        }
        for (word, damage) in [(third + ORIGIN, 0), (third + CLOCK, 1), (third + CLOCK, 4), (third + CLOCK, 0)] {
            assert_eq!(broken_by(&[(word, damage)]), Some('c'));
        }
    }

    #[test]
    fn rule_d_is_about_the_vectors_of_servers() {
        for word in [VECTOR_0, VECTOR_0 + 1, VECTOR_1, VECTOR_1 + 1] {
            for damage in [0, 3, u32::MAX] {
                assert_eq!(broken_by(&[(word, damage)]), Some('d'));
            }
        }
        assert_eq!(broken_by(&[(LOG_0 + 8 + CLOCK, 3)]), Some('d'));
    }

    #[test]
    fn rule_e_is_about_equal_entries_in_two_logs() {
        for word in [LOG_0 + ITEM, LOG_0 + VALUE, LOG_1 + ITEM, LOG_1 + VALUE] {
            assert_eq!(broken_by(&[(word, 8)]), Some('e'));
        }
        for word in [LOG_0 + 8 + ITEM, LOG_0 + 8 + VALUE, LOG_1 + 4 + ITEM, LOG_1 + 4 + VALUE] {
            assert_eq!(broken_by(&[(word, 8)]), Some('e'));
        }
        // Only server 0 holds 70, so there is nothing to compare it with.
        assert_eq!(broken_by(&[(LOG_0 + 4 + ITEM, 8), (LOG_0 + 4 + VALUE, 8)]), None);
        // Server 1's vector covers a write that isn't in log 0.
        let beyond = [(LOG_1 + 4 + ORIGIN, 0), (VECTOR_1, 2), (VECTOR_1 + 1, 0)];
        assert_eq!(broken_by(&beyond), Some('e'));
        // Log 0 holds a write of origin 1 that log 1 itself has not.
        let unknown = [(LOG_0 + 4 + CLOCK, 1), (LOG_0 + 4 + ORIGIN, 1), (VECTOR_0, 1)];
        assert_eq!(broken_by(&unknown), Some('e'));
    }

    #[test]
    fn rule_f_is_about_slots() {
        for (word, damage) in [(SLOT, 0), (SLOT, 17), (SLOT, u32::MAX), (SLOT + 1, 3), (SLOT + 1, u32::MAX)] {
            assert_eq!(broken_by(&[(word, damage)]), Some('f'));
        }
        for word in SLOT + 2..SLOT + 6 {
            assert_eq!(broken_by(&[(word, 3)]), Some('f'));
            assert_eq!(broken_by(&[(word, 1)]), None);
        }
        assert_eq!(broken_by(&[(SLOT, 1), (SLOT + 1, 0)]), None);
        assert_eq!(broken_by(&[(SLOT, 16), (SLOT + 1, 2)]), None);
        let closed: Vec<_> = (SLOT..SLOT + 6).map(|word| (word, 0)).collect();
        assert_eq!(broken_by(&closed), None);
        for word in SLOT + 1..SLOT + 6 {
            let damages = [&closed[..], &[(word, 1)]].concat();
            assert_eq!(broken_by(&damages), Some('f'));
        }
    }

    #[test]
    fn the_first_broken_rule_is_named() {
        assert_eq!(broken_by(&[(SLOT, 17), (LOG_0 + VALUE, 8)]), Some('e'));
        assert_eq!(broken_by(&[(SLOT, 17), (LOG_0 + VALUE, 8), (VECTOR_0, 3)]), Some('d'));
        assert_eq!(broken_by(&[(VECTOR_0, 3), (LOG_1 + ITEM, 256)]), Some('c'));
        assert_eq!(broken_by(&[(LOG_0 + ITEM, 256), (COUNT_1, 5)]), Some('b'));
        assert_eq!(broken_by(&[(COUNT_1, 5), (3, 1)]), Some('a'));
    }
}
