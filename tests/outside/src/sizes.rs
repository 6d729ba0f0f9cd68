//! Tables of sizes at and just beyond the limits, in buffers that fit and that don't: making them, and judging what lies in them.

use crate::book::book_of;
use crate::judges::Verdict;
use crate::vector_store::{broken_rule, table_words, Procedures};

const SERVERS: [u32; 5] = [0, 1, 2, 16, 17];
const PLACES: [u32; 5] = [0, 1, 3, 1024, 1025];
const SLOTS: [u32; 5] = [0, 1, 2, 16, 17];

/// All sizes of these lists, each with a fitting length, a shorter and a longer one.
pub fn all_sizes() -> Vec<([u32; 3], usize)> {
    let mut sizes = Vec::new();
    for servers in SERVERS {
        for places in PLACES {
            for slots in SLOTS {
                let fitting = table_words(servers, places, slots);
                sizes.extend([fitting, fitting - 1, fitting + 1].map(|length| ([servers, places, slots], length)));
            }
        }
    }
    sizes
}

/// Making answers by 01's limits, and writes nothing if refused; a header and zeros are sound exactly if making would have made them.
pub fn judge_sizes(procedures: Procedures, [servers, places, slots]: [u32; 3], length: usize) -> Verdict {
    let within = (1..=16).contains(&servers) && (1..=1024).contains(&places) && (1..=16).contains(&slots);
    let wanted = match (within, length == table_words(servers, places, slots)) {
        (false, _) => 2,
        (true, false) => 8,
        (true, true) => 0,
    };
    let mut fresh = vec![0; length];
    // A table of no server and no slot is only its header, and a shorter one not even that.
    for (word, size) in fresh.iter_mut().zip([servers, places, slots]) {
        *word = size;
    }
    let mut buffer = vec![9; length];
    let code = procedures.make(servers, places, slots, &mut buffer);
    let left = if wanted == 0 { fresh.clone() } else { vec![9; length] };
    if code != wanted || buffer != left {
        return Err(format!(
            "making {servers} {places} {slots} in {length} words answers {code}, not {wanted}, or leaves other words"
        ));
    }
    let sound = [broken_rule(&fresh).is_none(), book_of(&fresh).is_some()];
    if sound != [wanted == 0; 2] {
        return Err(format!(
            "a header {servers} {places} {slots} and zeros, {length} words, are sound by rules, by sets: {sound:?}"
        ));
    }
    Ok(())
}
