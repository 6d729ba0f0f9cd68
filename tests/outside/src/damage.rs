//! Damaged texts: one byte of a good script changed at a time, random damage, and texts at the edges of the desk's limits.

use crate::desk_text::spell;
use crate::making::script_of_case;
use crate::random::Random;

/// 01's ten rows.
const TEN_ROWS: &[u8] =
    b"2 4 1\no 0 1\nw 0 7 50 1\nr 0 7 2\nx 0 1 9\nr 0 7 2\nw 0 7 60 2\nw 0 7 70 1\nr 0 7 1\nx 1 0 9\nr 0 7 3\n";

/// Bytes that a text is full of, and bytes that no text has.
const BYTES: [u8; 8] = *b"\n 05w-\0\xff";

/// The ten rows up to each byte, and with each byte in turn removed, doubled, replaced, or with another one put before it.
pub fn byte_by_byte() -> Vec<Vec<u8>> {
    let mut texts = Vec::new();
    for place in 0..TEN_ROWS.len() {
        let (before, behind) = TEN_ROWS.split_at(place);
        let (first, rest) = behind.split_at(1);
        texts.push(before.to_vec());
        texts.push([before, rest].concat());
        texts.push([before, first, behind].concat());
        for byte in BYTES {
            texts.push([before, &[byte], behind].concat());
            texts.push([before, &[byte], rest].concat());
        }
    }
    texts
}

/// A random script with some bytes damaged.
pub fn damaged_text(random: &mut Random, case: u64) -> Vec<u8> {
    let mut script = script_of_case(random, case);
    let keep = random.between(1, 40) as usize;
    script.steps.truncate(keep);
    let mut text = spell(&script).unwrap_or_default();
    for _ in 0..random.between(1, 3) {
        let place = random.below(text.len() as u32 + 1) as usize;
        let byte = if random.chance(70) { random.one_of(&BYTES) } else { random.any() as u8 };
        match random.below(4) {
            0 => text.insert(place, byte),
            1 => text.truncate(place),
            _ if place == text.len() => text.push(byte),
            2 => text[place] = byte,
            _ => drop(text.remove(place)),
        }
    }
    text
}

/// A text near the limits of bytes and lines, good but for one line now and then.
pub fn text_at_the_limits(random: &mut Random) -> Vec<u8> {
    let mut text = b"3 2 2\no 0 15\n".to_vec();
    let lines = random.between(511, 516) as usize;
    let length =
        if random.chance(60) { random.between(16_381, 16_387) } else { random.between(6_000, 16_000) } as usize;
    let bad = if random.chance(40) { random.between(509, 517) as usize } else { 0 };
    for line in 3..=lines {
        let from = text.len();
        text.extend(line_of_length((length - from) / (lines - line + 1)));
        if line == bad {
            text[from] = b'q';
        }
    }
    if random.chance(10) {
        text.pop();
    }
    text
}

/// A write's line of this many bytes, which are 10 to 46. Its numbers are ones only.
fn line_of_length(length: usize) -> Vec<u8> {
    let digits = length.clamp(10, 46) - 6;
    let number = |which: usize| "1".repeat((digits + which) / 4);
    format!("w {} {} {} {}\n", number(0), number(1), number(2), number(3)).into_bytes()
}
