//! The four guarantees, tested over the whole history of a schedule (002, section 3).
//!
//! The history is what was asked and answered, and what the servers' logs hold in the table's words. It looks at no vector,
//! no session's words and no rule of choice. A read is taken to depend on all that its server held.

use crate::desk_text::FiveWords;
use std::collections::HashMap;

/// A set of writes, each told by its number in the order of making.
#[derive(Clone, Debug, Default, PartialEq, Eq)]
struct Writes {
    bits: Vec<u64>,
}

impl Writes {
    fn add(&mut self, number: usize) {
        let word = number / 64;
        if self.bits.len() <= word {
            self.bits.resize(word + 1, 0);
        }
        self.bits[word] |= 1 << (number % 64);
    }

    fn add_all(&mut self, others: &Writes) {
        if self.bits.len() < others.bits.len() {
            self.bits.resize(others.bits.len(), 0);
        }
        for (mine, other) in self.bits.iter_mut().zip(&others.bits) {
            *mine |= other;
        }
    }

    fn within(&self, others: &Writes) -> bool {
        let theirs = others.bits.iter().chain(std::iter::repeat(&0));
        self.bits.iter().zip(theirs).all(|(mine, other)| mine & !other == 0)
    }
}

/// A session, from its opening to its closing.
#[derive(Clone, Debug, Default)]
struct Session {
    guarantees: u32,
    wrote: Writes,
    read: Writes,
}

impl Session {
    fn chose(&self, guarantee: u32) -> bool {
        self.guarantees & guarantee != 0
    }
}

const READ_YOUR_WRITES: u32 = 1;
const MONOTONIC_READS: u32 = 2;
const WRITES_FOLLOW_READS: u32 = 4;
const MONOTONIC_WRITES: u32 = 8;

/// A write as it was made.
#[derive(Clone, Debug)]
struct Made {
    item: u32,
    value: u32,
    /// What each server that holds it must hold in front of it.
    follows: Writes,
}

/// What has happened so far.
#[derive(Clone, Debug, Default)]
pub struct History {
    made: Vec<Made>,
    /// The number of the write that a server gave a clock.
    numbers: HashMap<(u32, u32), usize>,
    sessions: HashMap<u32, Session>,
    /// What each server held after the last step.
    held: Vec<Writes>,
}

impl History {
    /// Takes in one step, its answer and the table after it; Err says what broke.
    pub fn take_in(&mut self, step: FiveWords, answer: FiveWords, table: &[u32]) -> Result<(), String> {
        if answer[0] == 0 {
            match step[0] {
                1 => {
                    let session = Session { guarantees: step[2], ..Session::default() };
                    self.sessions.insert(step[1], session);
                }
                2 => {
                    self.sessions.remove(&step[1]);
                }
                3 => self.take_in_read(step, answer)?,
                4 => self.take_in_write(step, answer)?,
                _ => (),
            }
        }
        self.look_at_servers(table)
    }

    /// A read alters no log, so what its server held is what it held after the step before.
    fn take_in_read(&mut self, step: FiveWords, answer: FiveWords) -> Result<(), String> {
        let held = self.held.get(answer[1] as usize).cloned().unwrap_or_default();
        let session = self.sessions.get_mut(&step[1]).ok_or("a read without a session")?;
        if session.chose(READ_YOUR_WRITES) && !session.wrote.within(&held) {
            return Err("Read Your Writes is broken".to_string());
        }
        if session.chose(MONOTONIC_READS) && !session.read.within(&held) {
            return Err("Monotonic Reads is broken".to_string());
        }
        session.read.add_all(&held);
        Ok(())
    }

    fn take_in_write(&mut self, step: FiveWords, answer: FiveWords) -> Result<(), String> {
        let number = self.made.len();
        let [_, server, origin, clock, _] = answer;
        if server != origin {
            return Err("a write has another origin than its server".to_string());
        }
        if self.numbers.insert((origin, clock), number).is_some() {
            return Err(format!("server {origin} gives the clock {clock} twice"));
        }
        let session = self.sessions.get_mut(&step[1]).ok_or("a write without a session")?;
        let mut follows = Writes::default();
        if session.chose(WRITES_FOLLOW_READS) {
            follows.add_all(&session.read);
        }
        if session.chose(MONOTONIC_WRITES) {
            follows.add_all(&session.wrote);
        }
        session.wrote.add(number);
        self.made.push(Made { item: step[2], value: step[3], follows });
        Ok(())
    }

    /// Each log holds writes that were made and none that was lost, and each behind all that it follows: Writes Follow
    /// Reads and Monotonic Writes want these present and earlier in the write order.
    fn look_at_servers(&mut self, table: &[u32]) -> Result<(), String> {
        let mut now = Vec::new();
        for (server, log) in logs(table).iter().enumerate() {
            let mut held = Writes::default();
            for &[origin, clock, item, value] in log {
                let number = *self.numbers.get(&(origin, clock)).ok_or("a log holds a write that nobody made")?;
                let made = &self.made[number];
                if (made.item, made.value) != (item, value) {
                    return Err(format!("server {server} holds a write with another item or value"));
                }
                if !made.follows.within(&held) {
                    return Err(format!("server {server} holds a write without, or in front of, one that it follows"));
                }
                held.add(number);
            }
            if !self.held.get(server).map_or(true, |before| before.within(&held)) {
                return Err(format!("server {server} lost a write"));
            }
            now.push(held);
        }
        self.check_last_made(&now)?;
        self.held = now;
        Ok(())
    }

    /// The write made last is where its answer says.
    fn check_last_made(&self, now: &[Writes]) -> Result<(), String> {
        let last = match self.made.len().checked_sub(1) {
            Some(last) => last,
            None => return Ok(()),
        };
        let mut wanted = Writes::default();
        wanted.add(last);
        let stored = self.numbers.iter().any(|(&(origin, _), &number)| {
            number == last && now.get(origin as usize).map_or(false, |held| wanted.within(held))
        });
        if stored {
            Ok(())
        } else {
            Err("the write made last is not at its server".to_string())
        }
    }
}

/// The writes that each server stores, in their places: origin, clock, item, value.
fn logs(table: &[u32]) -> Vec<Vec<[u32; 4]>> {
    let (servers, places) = (table[0] as usize, table[1] as usize);
    let first_log = 4 + servers * (servers + 1);
    let stored = |server: usize| {
        let count = table[4 + server * (servers + 1) + servers] as usize;
        let log = &table[first_log + 4 * places * server..][..4 * places];
        log.chunks(4).take(count).map(|place| [place[0], place[1], place[2], place[3]]).collect()
    };
    (0..servers).map(stored).collect()
}

#[cfg(test)]
mod tests;
