//! The plain book: 01's store told with whole sets of writes, as in 002, section 4.
//!
//! A server is the set of the writes it holds; a session keeps its read-set and its write-set. "Up to date" is
//! inclusion of sets and an exchange is a difference of sets. No vector stands anywhere in this file.

mod table;

use std::collections::BTreeSet;

pub use table::{book_of, table_of};

/// 01, "Numbers": the most servers of a book.
pub const MOST_SERVERS: usize = 16;
/// 01, "Numbers": the most places of a log.
pub const MOST_PLACES: usize = 1024;
/// 01, "Numbers": the most session slots of a book.
pub const MOST_SLOTS: usize = 16;
/// 01, "Numbers": items are all numbers below this one.
pub const ITEMS: usize = 256;
/// 01, "Numbers": sums of guarantee bits are all numbers below this one.
pub const GUARANTEE_SUMS: usize = 16;

const READ_YOUR_WRITES: u32 = 1;
const MONOTONIC_READS: u32 = 2;
const WRITES_FOLLOW_READS: u32 = 4;
const MONOTONIC_WRITES: u32 = 8;

/// Five words: a step (kind and four arguments) or an answer (code, server, origin, clock, value).
pub type FiveWords = [u32; 5];

/// One write, told apart from every other by its number in the order of making.
/// Writes are ordered by their fields from the top, so a set of writes stands in write order: clock, then origin.
#[derive(Clone, Copy, Debug, PartialEq, Eq, PartialOrd, Ord, Hash)]
pub struct Write {
    /// 1 plus the greatest clock that the origin held when the write was made.
    pub clock: u32,
    /// The server at which the write was made.
    pub origin: u32,
    /// How many writes had been made before this one.
    pub number: usize,
    /// The item written.
    pub item: u32,
    /// The value written.
    pub value: u32,
}

/// An open session with the two sets of 002, section 4, kept whichever guarantees were chosen.
#[derive(Clone, Debug)]
pub struct Session {
    /// The sum of the chosen guarantee bits.
    pub guarantees: u32,
    /// The server of the session's last read or write that was done, if there was one.
    pub last_used: Option<usize>,
    /// All writes that a server held when it served a read of the session.
    pub read_set: BTreeSet<Write>,
    /// The writes that the session made.
    pub write_set: BTreeSet<Write>,
}

/// The whole store: what each server holds and what each slot knows.
#[derive(Clone, Debug)]
pub struct Book {
    /// How many writes a server has room for.
    pub places: usize,
    /// The set of writes that each server holds.
    pub servers: Vec<BTreeSet<Write>>,
    /// The session of each slot; none in a closed slot.
    pub slots: Vec<Option<Session>>,
    /// How many writes have been made; the number of the next one.
    pub made: usize,
}

/// 01, "Answer codes": why a book refuses a step. Refusal 1 is missing, for a book is never unsound.
#[derive(Clone, Copy)]
enum Refusal {
    OutOfRange = 2,
    SlotOpenOrClosed = 3,
    ToItself = 4,
    ReachIsZero = 5,
    Behind = 6,
    Full = 7,
}

impl Session {
    fn new(guarantees: u32) -> Session {
        Session { guarantees, last_used: None, read_set: BTreeSet::new(), write_set: BTreeSet::new() }
    }

    fn chose(&self, guarantee: u32) -> bool {
        self.guarantees & guarantee != 0
    }

    /// 01, "Up to date", for a read.
    fn may_read_from(&self, held: &BTreeSet<Write>) -> bool {
        (!self.chose(MONOTONIC_READS) || self.read_set.is_subset(held))
            && (!self.chose(READ_YOUR_WRITES) || self.write_set.is_subset(held))
    }

    /// 01, "Up to date", for a write.
    fn may_write_to(&self, held: &BTreeSet<Write>) -> bool {
        (!self.chose(WRITES_FOLLOW_READS) || self.read_set.is_subset(held))
            && (!self.chose(MONOTONIC_WRITES) || self.write_set.is_subset(held))
    }

    /// 01, "Choice": the reachable servers that are up to date, in the order of the search. Never an empty list.
    fn search(
        &self,
        servers: &[BTreeSet<Write>],
        reach: &BTreeSet<usize>,
        up_to_date: fn(&Session, &BTreeSet<Write>) -> bool,
    ) -> Result<Vec<usize>, Refusal> {
        if reach.is_empty() {
            return Err(Refusal::ReachIsZero);
        }
        let start = self.last_used.unwrap_or(0);
        let found: Vec<usize> = (start..servers.len())
            .chain(0..start)
            .filter(|server| reach.contains(server) && up_to_date(self, &servers[*server]))
            .collect();
        if found.is_empty() {
            return Err(Refusal::Behind);
        }
        Ok(found)
    }
}

impl Book {
    /// A book without writes and with all slots closed. Sizes outside 01's limits are taken as the nearest limit.
    pub fn fresh(servers: usize, places: usize, slots: usize) -> Book {
        Book {
            places: places.clamp(1, MOST_PLACES),
            servers: vec![BTreeSet::new(); servers.clamp(1, MOST_SERVERS)],
            slots: vec![None; slots.clamp(1, MOST_SLOTS)],
            made: 0,
        }
    }

    /// Takes one step and gives its answer. A refused step leaves the book as it was.
    pub fn step(&mut self, step: FiveWords) -> FiveWords {
        // A zero in a pattern is an unused word of 01's table of steps.
        let outcome = match step {
            [1, slot, guarantees, 0, 0] => self.open(slot, guarantees),
            [2, slot, 0, 0, 0] => self.close(slot),
            [3, slot, item, reach, 0] => self.read(slot, item, reach),
            [4, slot, item, value, reach] => self.write(slot, item, value, reach),
            [5, from, to, most, 0] => self.exchange(from, to, most),
            _ => Err(Refusal::OutOfRange),
        };
        outcome.unwrap_or_else(|refusal| [refusal as u32, 0, 0, 0, 0])
    }

    /// The server's writes in write order; no writes if there is no such server.
    pub fn log(&self, server: usize) -> Vec<Write> {
        self.servers.get(server).into_iter().flatten().copied().collect()
    }

    fn open(&mut self, slot: u32, guarantees: u32) -> Result<FiveWords, Refusal> {
        let slot = below(slot, self.slots.len())?;
        below(guarantees, GUARANTEE_SUMS)?;
        if self.slots[slot].is_some() {
            return Err(Refusal::SlotOpenOrClosed);
        }
        self.slots[slot] = Some(Session::new(guarantees));
        Ok([0; 5])
    }

    fn close(&mut self, slot: u32) -> Result<FiveWords, Refusal> {
        let slot = below(slot, self.slots.len())?;
        self.slots[slot].take().ok_or(Refusal::SlotOpenOrClosed)?;
        Ok([0; 5])
    }

    fn read(&mut self, slot: u32, item: u32, reach: u32) -> Result<FiveWords, Refusal> {
        let slot = below(slot, self.slots.len())?;
        below(item, ITEMS)?;
        let reach = self.servers_in(reach)?;
        let session = self.slots[slot].as_mut().ok_or(Refusal::SlotOpenOrClosed)?;
        let server = session.search(&self.servers, &reach, Session::may_read_from)?[0];
        let held = &self.servers[server];
        // 01, "Read": all writes held are taken as relevant.
        session.read_set.extend(held);
        session.last_used = Some(server);
        let last = held.iter().filter(|write| write.item == item).max();
        Ok(last.map_or([0, server as u32, 0, 0, 0], |write| [0, server as u32, write.origin, write.clock, write.value]))
    }

    fn write(&mut self, slot: u32, item: u32, value: u32, reach: u32) -> Result<FiveWords, Refusal> {
        let slot = below(slot, self.slots.len())?;
        below(item, ITEMS)?;
        let reach = self.servers_in(reach)?;
        let session = self.slots[slot].as_mut().ok_or(Refusal::SlotOpenOrClosed)?;
        let server = session
            .search(&self.servers, &reach, Session::may_write_to)?
            .into_iter()
            .find(|server| self.servers[*server].len() < self.places)
            .ok_or(Refusal::Full)?;
        let held = &mut self.servers[server];
        let greatest_clock = held.iter().map(|write| write.clock).max().unwrap_or(0);
        let write = Write { clock: greatest_clock + 1, origin: server as u32, number: self.made, item, value };
        self.made += 1;
        held.insert(write);
        session.write_set.insert(write);
        session.last_used = Some(server);
        Ok([0, write.origin, write.origin, write.clock, value])
    }

    fn exchange(&mut self, from: u32, to: u32, most: u32) -> Result<FiveWords, Refusal> {
        let from_server = below(from, self.servers.len())?;
        let to_server = below(to, self.servers.len())?;
        if from_server == to_server {
            return Err(Refusal::ToItself);
        }
        let free_places = self.places.saturating_sub(self.servers[to_server].len());
        // A difference of sets stands in the order of the sets, which is write order.
        let sent: Vec<Write> = self.servers[from_server]
            .difference(&self.servers[to_server])
            .copied()
            .take(free_places.min(most as usize))
            .collect();
        self.servers[to_server].extend(&sent);
        Ok([0, to, from, 0, sent.len() as u32])
    }

    /// 01, "Steps": the servers that reach names; a bit at or above N is out of range.
    fn servers_in(&self, reach: u32) -> Result<BTreeSet<usize>, Refusal> {
        (0..u32::BITS).filter(|bit| reach >> bit & 1 == 1).map(|bit| below(bit, self.servers.len())).collect()
    }
}

fn below(number: u32, end: usize) -> Result<usize, Refusal> {
    let number = number as usize;
    if number < end {
        Ok(number)
    } else {
        Err(Refusal::OutOfRange)
    }
}

#[cfg(test)]
mod table_tests;
#[cfg(test)]
mod tests;
