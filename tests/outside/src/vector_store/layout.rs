//! 01, "Numbers": the limits of a table, and where each of its words stands.

use std::ops::Range;

/// N is at most this, and at least 1.
pub const MOST_SERVERS: u32 = 16;
/// L is at most this, and at least 1.
pub const MOST_PLACES: u32 = 1024;
/// P is at most this, and at least 1.
pub const MOST_SLOTS: u32 = 16;
/// Items are 0 to this.
pub const GREATEST_ITEM: u32 = 255;
/// Guarantees are 0 to this, the sum of all four bits.
pub const GREATEST_GUARANTEES: u32 = 15;

const HEADER_WORDS: usize = 4;
const PLACE_WORDS: usize = 4;

/// How many words a table of these sizes has.
/// Sizes far beyond the limits may pass a `usize`: the answer is then `usize::MAX`, which no table has.
pub fn table_words(servers: u32, places: u32, slots: u32) -> usize {
    let (servers, places, slots) = (u128::from(servers), u128::from(places), u128::from(slots));
    let words = 4 + servers * (servers + 1) + 4 * servers * places + slots * (2 * servers + 2);
    usize::try_from(words).unwrap_or(usize::MAX)
}

/// Whether N, L and P are within their limits.
pub fn sizes_in_range(servers: u32, places: u32, slots: u32) -> bool {
    (1..=MOST_SERVERS).contains(&servers) && (1..=MOST_PLACES).contains(&places) && (1..=MOST_SLOTS).contains(&slots)
}

/// One write, as the four words of a place give it.
#[derive(Clone, Copy, Debug, PartialEq, Eq)]
pub struct Write {
    /// The server that took the write from a session.
    pub origin: u32,
    /// The clock that its origin gave it, at least 1.
    pub clock: u32,
    /// The item written.
    pub item: u32,
    /// The value written.
    pub value: u32,
}

impl Write {
    /// What write order goes by: the clock, then the origin.
    pub fn order(self) -> (u32, u32) {
        (self.clock, self.origin)
    }

    fn of_words(words: &[u32]) -> Write {
        Write { origin: words[0], clock: words[1], item: words[2], value: words[3] }
    }

    fn words(self) -> [u32; PLACE_WORDS] {
        [self.origin, self.clock, self.item, self.value]
    }
}

/// The sizes of a table, and from them the position of every part of it.
#[derive(Clone, Copy, Debug)]
pub struct Layout {
    /// N.
    pub servers: usize,
    /// L.
    pub places: usize,
    /// P.
    pub slots: usize,
}

impl Layout {
    /// The layout that the header gives; `None` if header or length break rule a.
    pub fn of(table: &[u32]) -> Option<Layout> {
        let (servers, places, slots) = match *table {
            [servers, places, slots, 0, ..] => (servers, places, slots),
            _ => return None,
        };
        if !sizes_in_range(servers, places, slots) || table.len() != table_words(servers, places, slots) {
            return None;
        }
        Some(Layout { servers: servers as usize, places: places as usize, slots: slots as usize })
    }

    /// The words of a server's vector.
    pub fn vector(self, server: usize) -> Range<usize> {
        let start = HEADER_WORDS + server * (self.servers + 1);
        start..start + self.servers
    }

    /// The word that counts a server's writes.
    pub fn count(self, server: usize) -> usize {
        self.vector(server).end
    }

    /// Where a place of a server's log begins; for place L, where that log ends.
    fn place(self, server: usize, place: usize) -> usize {
        HEADER_WORDS + self.servers * (self.servers + 1) + (server * self.places + place) * PLACE_WORDS
    }

    /// The words of a slot.
    pub fn slot(self, slot: usize) -> Range<usize> {
        let length = 2 * self.servers + 2;
        let start = self.place(self.servers, 0) + slot * length;
        start..start + length
    }

    /// The word with a slot's chosen guarantees plus 1.
    pub fn guarantees(self, slot: usize) -> usize {
        self.slot(slot).start
    }

    /// The word with a slot's last-used server plus 1.
    pub fn last_used(self, slot: usize) -> usize {
        self.slot(slot).start + 1
    }

    /// The words of a slot's read-vector.
    pub fn read_vector(self, slot: usize) -> Range<usize> {
        let start = self.slot(slot).start + 2;
        start..start + self.servers
    }

    /// The words of a slot's write-vector.
    pub fn write_vector(self, slot: usize) -> Range<usize> {
        let start = self.read_vector(slot).end;
        start..start + self.servers
    }

    /// How many places of a server's log are in use: its count, and never more than there are places.
    pub fn places_in_use(self, table: &[u32], server: usize) -> usize {
        (table[self.count(server)] as usize).min(self.places)
    }

    /// How many places of a server's log are free.
    pub fn free_places(self, table: &[u32], server: usize) -> usize {
        self.places - self.places_in_use(table, server)
    }

    /// The writes that a server holds, in the order of its log.
    pub fn held(self, table: &[u32], server: usize) -> impl Iterator<Item = Write> + '_ {
        let end = self.place(server, self.places_in_use(table, server));
        table[self.place(server, 0)..end].chunks_exact(PLACE_WORDS).map(Write::of_words)
    }

    /// The words of the places past a server's count.
    pub fn past_count(self, table: &[u32], server: usize) -> &[u32] {
        let start = self.place(server, self.places_in_use(table, server));
        &table[start..self.place(server, self.places)]
    }

    /// Puts a write at a place in use or at the first free one, moves the later ones up by one place and counts it.
    /// With no free place, or beyond the first free one, it does nothing.
    pub fn put(self, table: &mut [u32], server: usize, place: usize, write: Write) {
        let in_use = self.places_in_use(table, server);
        if in_use == self.places || place > in_use {
            return;
        }
        let start = self.place(server, place);
        table.copy_within(start..self.place(server, in_use), start + PLACE_WORDS);
        table[start..start + PLACE_WORDS].copy_from_slice(&write.words());
        table[self.count(server)] = in_use as u32 + 1;
    }
}
