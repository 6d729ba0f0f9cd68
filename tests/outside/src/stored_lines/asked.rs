//! What the stored lines ask, where they do not tell it themselves.

use crate::vector_store::FiveWords;

/// On what table the steps of a name are taken.
#[derive(Clone, Copy)]
pub enum Start {
    Fresh([u32; 3]),
    AfterTenRows,
    /// Where the name before it left off.
    GoesOn,
    /// The same, with the fourth word of the header set to 1.
    GoesOnUnsound,
}

/// The names whose lines are steps, in the order of the lines.
pub const NAMES: [(&str, Start); 22] = [
    ("ten rows", Start::Fresh([2, 4, 1])),
    ("2 4 2", Start::Fresh([2, 4, 2])),
    ("one place", Start::Fresh([2, 1, 2])),
    ("behind and full", Start::Fresh([2, 1, 2])),
    ("full or behind", Start::Fresh([2, 1, 2])),
    ("reopened slot", Start::Fresh([2, 4, 2])),
    ("ends of ranges", Start::Fresh([2, 4, 2])),
    ("search", Start::Fresh([3, 2, 2])),
    ("search, all full", Start::GoesOn),
    ("exchange, before", Start::Fresh([2, 4, 2])),
    ("exchange, room", Start::GoesOn),
    ("exchange, before", Start::Fresh([2, 2, 2])),
    ("exchange, no room", Start::GoesOn),
    ("exchange, most 2", Start::Fresh([2, 4, 2])),
    ("open", Start::AfterTenRows),
    ("close", Start::GoesOn),
    ("read", Start::AfterTenRows),
    ("write", Start::AfterTenRows),
    ("exchange", Start::AfterTenRows),
    ("no kind", Start::GoesOn),
    ("unsound, before", Start::AfterTenRows),
    ("unsound", Start::GoesOnUnsound),
];

/// A step of each kind, tried on each damaged table.
pub const EACH_KIND: [FiveWords; 5] =
    [[1, 1, 0, 0, 0], [2, 1, 0, 0, 0], [3, 0, 7, 3, 0], [4, 0, 7, 80, 3], [5, 0, 1, 9, 0]];

/// What a session that has opened does in the lines on guarantees.
pub const AFTER_A_WRITE: [FiveWords; 3] = [[4, 0, 7, 50, 1], [3, 0, 7, 2, 0], [4, 0, 7, 60, 2]];
pub const AFTER_A_READ: [FiveWords; 5] =
    [[1, 1, 0, 0, 0], [4, 1, 7, 50, 1], [3, 0, 7, 1, 0], [3, 0, 7, 2, 0], [4, 0, 7, 60, 2]];

/// The steps of the lines on runs, after the ten rows.
pub const RUN: [u32; 15] = [3, 0, 7, 3, 0, 3, 0, 7, 2, 0, 5, 0, 1, 9, 0];

/// The steps on the largest table.
#[rustfmt::skip]
pub const ON_THE_LARGEST: [FiveWords; 9] = [
    [1, 15, 15, 0, 0], [1, 16, 15, 0, 0], [4, 15, 255, u32::MAX, 32768], [4, 15, 255, u32::MAX, 65536], [3, 15, 255, 65535, 0],
    [3, 15, 255, 32767, 0], [5, 15, 0, u32::MAX, 0], [5, 15, 16, u32::MAX, 0], [3, 15, 255, 1, 0],
];

/// Words of another length than the table's: its first words, or a header and zeros of the length that the header asks for.
pub const LENGTHS: [(&str, usize); 6] = [
    ("a, no words", 0),
    ("a, 1 word", 1),
    ("a, 3 words", 3),
    ("a, 4 words", 4),
    ("a, one word less", 53),
    ("a, one word more", 55),
];
pub const LIMITS: [(&str, [u32; 3]); 6] = [
    ("a, N 0, length as it asks", [0, 1, 1]),
    ("a, N 17, length as it asks", [17, 1, 1]),
    ("a, L 0, length as it asks", [1, 0, 1]),
    ("a, L 1025, length as it asks", [1, 1025, 1]),
    ("a, P 0, length as it asks", [1, 1, 0]),
    ("a, P 17, length as it asks", [1, 1, 17]),
];
