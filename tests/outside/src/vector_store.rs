//! The vector procedures of 01, "Steps" (002, section 5 and Figure 1), on a table of 32-bit words.
//! The table's words are the whole store: every procedure reads and changes them where they stand.

mod layout;
mod slip;
mod soundness;

use layout::{sizes_in_range, Layout, Write, GREATEST_GUARANTEES, GREATEST_ITEM};

pub use layout::table_words;
pub use slip::Slip;
pub use soundness::broken_rule;

/// Five words: a step (kind and four arguments) or an answer (code, server, origin, clock, value).
pub type FiveWords = [u32; 5];

/// What a step comes to: the answer's server, origin, clock and value, or the code of its refusal.
type Outcome = Result<[u32; 4], u32>;

// 01, "Guarantee bits".
const RYW: u32 = 1;
const MR: u32 = 2;
const WFR: u32 = 4;
const MW: u32 = 8;

// 01, "Answer codes".
const DONE: u32 = 0;
const UNSOUND: u32 = 1;
const OUT_OF_RANGE: u32 = 2;
const SLOT_OPEN_OR_CLOSED: u32 = 3;
const TO_ITSELF: u32 = 4;
const REACH_EMPTY: u32 = 5;
const BEHIND: u32 = 6;
const FULL: u32 = 7;
const LENGTH: u32 = 8;

/// What a session wants of a server.
#[derive(Clone, Copy, PartialEq, Eq)]
enum Access {
    Read,
    Write,
}

/// The procedures, right or with one slip planted.
#[derive(Clone, Copy, Debug, Default)]
pub struct Procedures {
    /// The slip that is planted, if any.
    pub slip: Option<Slip>,
}

impl Procedures {
    /// Makes a fresh table in a buffer of exactly its length; answers 0, 2 or 8, and writes nothing if refused.
    pub fn make(self, servers: u32, places: u32, slots: u32, table: &mut [u32]) -> u32 {
        if !sizes_in_range(servers, places, slots) {
            return OUT_OF_RANGE;
        }
        if table.len() != table_words(servers, places, slots) {
            return LENGTH;
        }
        table.fill(0);
        table[..3].copy_from_slice(&[servers, places, slots]);
        DONE
    }

    /// Takes one step on any words: code 1 unless they are a sound table.
    pub fn step(self, table: &mut [u32], step: FiveWords) -> FiveWords {
        if broken_rule(table).is_some() {
            return refusal(UNSOUND);
        }
        self.step_on_sound(table, step)
    }

    /// Takes a list of steps one after another and writes their answers; answers 0, or 8 for lengths that don't fit.
    pub fn run(self, table: &mut [u32], steps: &[u32], answers: &mut [u32]) -> u32 {
        if steps.len() != answers.len() || steps.len() % 5 != 0 {
            return LENGTH;
        }
        for (step, answer) in steps.chunks_exact(5).zip(answers.chunks_exact_mut(5)) {
            let step = [step[0], step[1], step[2], step[3], step[4]];
            answer.copy_from_slice(&self.step(table, step));
        }
        DONE
    }

    /// Takes one step on a table that the caller vouches for.
    /// On words that break rule a it answers 1; on other unsound ones the answer means nothing, but there is one.
    pub fn step_on_sound(self, table: &mut [u32], step: FiveWords) -> FiveWords {
        let layout = match Layout::of(table) {
            Some(layout) => layout,
            None => return refusal(UNSOUND),
        };
        // The zeros are the unused words; any other number there, or any other kind, is out of range.
        let outcome = match step {
            [1, slot, guarantees, 0, 0] => open(layout, table, slot, guarantees),
            [2, slot, 0, 0, 0] => close(layout, table, slot),
            [3, slot, item, reach, 0] => self.read(layout, table, slot, item, reach),
            [4, slot, item, value, reach] => self.write(layout, table, slot, item, value, reach),
            [5, from, to, most, 0] => self.exchange(layout, table, from, to, most),
            _ => Err(OUT_OF_RANGE),
        };
        match outcome {
            Ok([server, origin, clock, value]) => [DONE, server, origin, clock, value],
            Err(code) => refusal(code),
        }
    }

    /// 01, "Read".
    fn read(self, layout: Layout, table: &mut [u32], slot: u32, item: u32, reach: u32) -> Outcome {
        let slot = slot_for_access(layout, table, slot, item, reach)?;
        let server = self.choose(layout, table, slot, reach, Access::Read)?;
        let last = layout.held(table, server).filter(|write| write.item == item).last();
        if self.slip != Some(Slip::ReadVectorOnlyUnderMr) || chosen(layout, table, slot) & MR != 0 {
            for (component, held) in layout.read_vector(slot).zip(layout.vector(server)) {
                table[component] = table[component].max(table[held]);
            }
        }
        table[layout.last_used(slot)] = server as u32 + 1;
        match last {
            Some(write) => Ok([server as u32, write.origin, write.clock, write.value]),
            None => Ok([server as u32, 0, 0, 0]),
        }
    }

    /// 01, "Write".
    fn write(self, layout: Layout, table: &mut [u32], slot: u32, item: u32, value: u32, reach: u32) -> Outcome {
        let slot = slot_for_access(layout, table, slot, item, reach)?;
        let server = self.choose(layout, table, slot, reach, Access::Write)?;
        let clock = self.next_clock(layout, table, server);
        let end = layout.places_in_use(table, server);
        let origin = server as u32;
        let write = Write { origin, clock, item, value };
        layout.put(table, server, end, write);
        table[layout.vector(server)][server] = clock;
        table[layout.write_vector(slot)][server] = clock;
        table[layout.last_used(slot)] = server as u32 + 1;
        Ok([server as u32, origin, clock, value])
    }

    /// The clock of a server's next write (C1). On a sound table no clock passes L, so nothing saturates.
    fn next_clock(self, layout: Layout, table: &[u32], server: usize) -> u32 {
        let vector = &table[layout.vector(server)];
        let known = if self.slip == Some(Slip::ClockOfOwnWrites) {
            vector[server]
        } else {
            vector.iter().copied().max().unwrap_or(0)
        };
        known.saturating_add(1)
    }

    /// 01, "Choice": the first reachable server that passes, or code 6 or 7.
    fn choose(self, layout: Layout, table: &[u32], slot: usize, reach: u32, access: Access) -> Result<usize, u32> {
        let last_used = (table[layout.last_used(slot)] as usize).checked_sub(1);
        let start = last_used.unwrap_or(0) % layout.servers;
        let mut code = BEHIND;
        for distance in 0..layout.servers {
            let server = (start + distance) % layout.servers;
            let trusted = self.slip == Some(Slip::LastUsedTrusted) && last_used == Some(server);
            let reachable = reach & (1 << server) != 0;
            if !reachable || !(trusted || up_to_date(layout, table, slot, server, access)) {
                continue;
            }
            if access == Access::Read || layout.free_places(table, server) > 0 {
                return Ok(server);
            }
            code = FULL;
        }
        if self.slip == Some(Slip::BehindForAFullLog) {
            code = BEHIND;
        }
        Err(code)
    }

    /// 01, "Exchange".
    fn exchange(self, layout: Layout, table: &mut [u32], from: u32, to: u32, most: u32) -> Outcome {
        let (from_server, to_server) = (from as usize, to as usize);
        if from_server >= layout.servers || to_server >= layout.servers {
            return Err(OUT_OF_RANGE);
        }
        if from == to {
            return Err(TO_ITSELF);
        }
        let lacking: Vec<Write> =
            layout.held(table, from_server).filter(|write| lacks(layout, table, to_server, *write)).collect();
        let free = layout.free_places(table, to_server);
        let going = lacking.len().min(most as usize).min(free);
        let first = if self.slip == Some(Slip::NewestFirst) { lacking.len() - going } else { 0 };
        for write in &lacking[first..first + going] {
            receive(layout, table, to_server, *write);
        }
        Ok([to, from, 0, going as u32])
    }
}

/// A refused step answers its code and four zeros.
fn refusal(code: u32) -> FiveWords {
    [code, 0, 0, 0, 0]
}

/// 01, "Open".
fn open(layout: Layout, table: &mut [u32], slot: u32, guarantees: u32) -> Outcome {
    let slot = slot_in_range(layout, slot)?;
    if guarantees > GREATEST_GUARANTEES {
        return Err(OUT_OF_RANGE);
    }
    if is_open(layout, table, slot) {
        return Err(SLOT_OPEN_OR_CLOSED);
    }
    table[layout.slot(slot)].fill(0);
    table[layout.guarantees(slot)] = guarantees + 1;
    Ok([0; 4])
}

/// 01, "Close".
fn close(layout: Layout, table: &mut [u32], slot: u32) -> Outcome {
    let slot = slot_in_range(layout, slot)?;
    if !is_open(layout, table, slot) {
        return Err(SLOT_OPEN_OR_CLOSED);
    }
    table[layout.slot(slot)].fill(0);
    Ok([0; 4])
}

/// The checks that a read and a write share, in the order of their codes: 2, 3, 5.
fn slot_for_access(layout: Layout, table: &[u32], slot: u32, item: u32, reach: u32) -> Result<usize, u32> {
    let slot = slot_in_range(layout, slot)?;
    if item > GREATEST_ITEM || reach >> layout.servers != 0 {
        return Err(OUT_OF_RANGE);
    }
    if !is_open(layout, table, slot) {
        return Err(SLOT_OPEN_OR_CLOSED);
    }
    if reach == 0 {
        return Err(REACH_EMPTY);
    }
    Ok(slot)
}

fn slot_in_range(layout: Layout, slot: u32) -> Result<usize, u32> {
    if slot as usize >= layout.slots {
        return Err(OUT_OF_RANGE);
    }
    Ok(slot as usize)
}

fn is_open(layout: Layout, table: &[u32], slot: usize) -> bool {
    table[layout.guarantees(slot)] != 0
}

/// The guarantees that an open slot's session chose.
fn chosen(layout: Layout, table: &[u32], slot: usize) -> u32 {
    table[layout.guarantees(slot)].saturating_sub(1)
}

/// 01, "Up to date".
fn up_to_date(layout: Layout, table: &[u32], slot: usize, server: usize, access: Access) -> bool {
    let (for_read_vector, for_write_vector) = match access {
        Access::Read => (MR, RYW),
        Access::Write => (WFR, MW),
    };
    let chosen = chosen(layout, table, slot);
    let vector = &table[layout.vector(server)];
    (chosen & for_read_vector == 0 || dominates(vector, &table[layout.read_vector(slot)]))
        && (chosen & for_write_vector == 0 || dominates(vector, &table[layout.write_vector(slot)]))
}

/// At least as great in all components.
fn dominates(vector: &[u32], other: &[u32]) -> bool {
    vector.iter().zip(other).all(|(component, other)| component >= other)
}

/// A server's vector says which writes it holds (002, section 5): those up to its component at their origin.
fn lacks(layout: Layout, table: &[u32], server: usize, write: Write) -> bool {
    match table[layout.vector(server)].get(write.origin as usize) {
        Some(&component) => write.clock > component,
        None => false,
    }
}

/// A write that a server lacks goes to its place in order, and the server's vector follows.
fn receive(layout: Layout, table: &mut [u32], server: usize, write: Write) {
    let place = layout.held(table, server).take_while(|held| held.order() < write.order()).count();
    layout.put(table, server, place, write);
    let component = &mut table[layout.vector(server)][write.origin as usize];
    *component = write.clock.max(*component);
}

#[cfg(test)]
mod slip_tests;
#[cfg(test)]
mod tests;
