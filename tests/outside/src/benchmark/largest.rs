//! The largest table, its logs full or half full, and the calls that are timed on it.

use crate::client::call::Call;
use crate::client::tables::{all_exchanges, fresh_table, LARGEST};
use crate::vector_store::{FiveWords, Procedures};

const SERVERS: u32 = LARGEST[0];
const ALL: u32 = (1 << SERVERS) - 1;

const READ: FiveWords = [3, 5, 7, ALL, 0];
const WRITE: FiveWords = [4, 5, 7, 99, ALL];
const EXCHANGE: FiveWords = [5, 0, 1, u32::MAX, 0];

/// What is timed: its name, the call, and the code and last word of its (first) answer, by which it is known to be what its name says.
pub struct Timed {
    pub name: &'static str,
    pub call: Call,
    pub answer: (u32, u32),
}

/// All that is timed.
pub fn all_timed() -> Vec<Timed> {
    let full = table_with_writes(1024);
    let mut half = table_with_writes(512);
    // One write that server 0 holds and server 1 lacks.
    Procedures::default().step(&mut half, [4, 0, 7, 77, 1]);
    let mixed: Vec<u32> = (0..512).flat_map(|number| [READ, WRITE, EXCHANGE][number % 3]).collect();
    let step = |table: &[u32], step| Call::step(0, table.to_vec(), step);
    vec![
        Timed { name: "full logs: a read", call: step(&full, READ), answer: (0, value_of_last(1024)) },
        Timed { name: "full logs: a refused write", call: step(&full, WRITE), answer: (7, 0) },
        Timed { name: "full logs: an exchange of nothing", call: step(&full, EXCHANGE), answer: (0, 0) },
        Timed {
            name: "full logs: a run of 512 such steps",
            call: Call::run(0, full, mixed),
            answer: (0, value_of_last(1024)),
        },
        Timed { name: "half full: a write", call: step(&half, WRITE), answer: (0, 99) },
        Timed { name: "half full: an exchange of one write", call: step(&half, EXCHANGE), answer: (0, 1) },
    ]
}

/// Every slot has a session with all guarantees, which wrote at the server of its number and read all that there is. Every log
/// holds all writes, of all servers.
fn table_with_writes(writes: u32) -> Vec<u32> {
    let mut steps: Vec<FiveWords> = (0..LARGEST[2]).map(|slot| [1, slot, 15, 0, 0]).collect();
    for write in 0..writes {
        let server = write % SERVERS;
        steps.push([4, server, item(write), write, 1 << server]);
        // Now and then all servers come to hold the same.
        if write % 128 == 127 {
            steps.extend(all_exchanges(SERVERS));
        }
    }
    steps.extend((0..LARGEST[2]).map(|slot| [3, slot, 7, 1 << slot, 0]));
    let mut table = fresh_table(LARGEST);
    for step in steps {
        Procedures::default().step_on_sound(&mut table, step);
    }
    table
}

fn item(write: u32) -> u32 {
    write % 13
}

/// The value of the last of so many writes on the item that is read.
fn value_of_last(writes: u32) -> u32 {
    (0..writes).rev().find(|write| item(*write) == READ[2]).unwrap_or(0)
}

#[cfg(test)]
mod tests {
    use super::*;
    use crate::vector_store::broken_rule;

    #[test]
    fn tables_are_sound_and_as_full_as_their_names_say() {
        for writes in [512, 1024] {
            let table = table_with_writes(writes);
            assert_eq!(broken_rule(&table), None);
            for server in 0..16 {
                assert_eq!(table[4 + server * 17 + 16], writes);
            }
            // Each slot is open, and neither of its vectors is 0.
            for slot in table[4 + 16 * 17 + 4 * 16 * 1024..].chunks(34) {
                assert_eq!(slot[0], 16);
                assert!(slot[2..18].iter().all(|component| *component > 0));
                assert!(slot[18..].iter().any(|component| *component > 0));
            }
        }
    }

    #[test]
    fn calls_do_what_their_names_say() {
        for timed in all_timed() {
            let outcome = timed.call.wanted(Procedures::default());
            assert_eq!((outcome.answers[0], outcome.answers[4]), timed.answer, "{}", timed.name);
        }
    }
}
