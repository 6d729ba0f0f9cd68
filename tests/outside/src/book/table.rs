//! The two ways between a plain book and 01's table of words.
//!
//! A book is written out as words by 01's layout, and a table is judged by reading it as sets of writes.

use std::collections::{BTreeMap, BTreeSet};

use super::{Book, Session, Write, GUARANTEE_SUMS, ITEMS, MOST_PLACES, MOST_SERVERS, MOST_SLOTS};

/// The words of a table before its vectors: N, L, P, 0.
const HEADER: usize = 4;
/// The words of a place: origin, clock, item, value.
const PLACE: usize = 4;
/// The words of a slot before its vectors: guarantees plus 1 and last-used plus 1.
const SLOT_HEAD: usize = 2;

/// The words of the table that shows this book: header, vectors and counts, logs, slots by 01's layout.
/// Vectors are read off the sets here and nowhere else.
pub fn table_of(book: &Book) -> Vec<u32> {
    let servers = book.servers.len();
    let mut table = vec![servers as u32, book.places as u32, book.slots.len() as u32, 0];
    for held in &book.servers {
        table.extend(vector_of(held, servers));
        table.push(held.len() as u32);
    }
    for server in 0..servers {
        let end = table.len() + PLACE * book.places;
        for write in book.log(server) {
            table.extend([write.origin, write.clock, write.item, write.value]);
        }
        table.resize(end, 0);
    }
    for slot in &book.slots {
        table.extend(words_of_slot(slot.as_ref(), servers));
    }
    table
}

fn words_of_slot(slot: Option<&Session>, servers: usize) -> Vec<u32> {
    let session = match slot {
        None => return vec![0; SLOT_HEAD + 2 * servers],
        Some(session) => session,
    };
    let last_used = session.last_used.map_or(0, |server| server as u32 + 1);
    let mut words = vec![session.guarantees + 1, last_used];
    words.extend(vector_of(&session.read_set, servers));
    words.extend(vector_of(&session.write_set, servers));
    words
}

/// 002, section 5: the greatest clock of each origin in a set of writes, or 0.
fn vector_of(writes: &BTreeSet<Write>, servers: usize) -> Vec<u32> {
    let mut vector = vec![0; servers];
    for write in writes {
        if let Some(component) = vector.get_mut(write.origin as usize) {
            *component = write.clock.max(*component);
        }
    }
    vector
}

/// The book that a table of words shows, or None exactly if the table is not sound by 01's rules a to f.
/// The book steps as the table does if `table_of` gives the table back; see `set_of` for the tables where it does not.
pub fn book_of(table: &[u32]) -> Option<Book> {
    let parts = parts_of(table)?;
    let servers = servers_of(&parts)?;
    let own: Vec<BTreeSet<Write>> = (0..).zip(&servers).map(|(origin, home)| writes_of(home, origin)).collect();
    if !servers.iter().all(|held| holds_first_of(held, &own)) {
        return None;
    }
    let slots = parts
        .slots
        .chunks(SLOT_HEAD + 2 * parts.servers)
        .map(|words| slot_of(words, &own))
        .collect::<Result<Vec<Option<Session>>, NotSound>>()
        .ok()?;
    let made = own.iter().map(BTreeSet::len).sum();
    let book = Book { places: parts.places, servers, slots, made };
    if is_given_back(&parts, &book, table) {
        Some(book)
    } else {
        None
    }
}

/// A slot broke rule f.
struct NotSound;

/// A table cut by 01's layout.
struct Parts<'table> {
    servers: usize,
    places: usize,
    vectors_and_counts: &'table [u32],
    logs: &'table [u32],
    slots: &'table [u32],
}

/// Rule a.
fn parts_of(table: &[u32]) -> Option<Parts<'_>> {
    let (servers, places, slots, rest) = match table {
        [servers, places, slots, 0, rest @ ..] => (*servers as usize, *places as usize, *slots as usize, rest),
        _ => return None,
    };
    let in_range = (1..=MOST_SERVERS).contains(&servers)
        && (1..=MOST_PLACES).contains(&places)
        && (1..=MOST_SLOTS).contains(&slots);
    if !in_range {
        return None;
    }
    let vector_words = servers * (servers + 1);
    let log_words = PLACE * servers * places;
    if table.len() != HEADER + vector_words + log_words + slots * (SLOT_HEAD + 2 * servers) {
        return None;
    }
    let (vectors_and_counts, rest) = rest.split_at(vector_words);
    let (logs, slots) = rest.split_at(log_words);
    Some(Parts { servers, places, vectors_and_counts, logs, slots })
}

/// The set of writes of each server, if every log passes `is_log`. Four equal words on two servers are one write.
/// A table does not show the order of making, so the numbers only tell the writes apart.
fn servers_of(parts: &Parts<'_>) -> Option<Vec<BTreeSet<Write>>> {
    let mut numbers: BTreeMap<[u32; PLACE], usize> = BTreeMap::new();
    let counts = parts.vectors_and_counts.chunks(parts.servers + 1).map(|words| words[parts.servers] as usize);
    let logs = parts.logs.chunks(PLACE * parts.places);
    let mut servers = Vec::new();
    for (log, count) in logs.zip(counts) {
        let mut held = BTreeSet::new();
        for place in log.chunks(PLACE).take(count) {
            let [origin, clock, item, value] = [place[0], place[1], place[2], place[3]];
            let next = numbers.len();
            let number = *numbers.entry([origin, clock, item, value]).or_insert(next);
            held.insert(Write { clock, origin, number, item, value });
        }
        if !is_log(&held, count, parts.servers) {
            return None;
        }
        servers.push(held);
    }
    Some(servers)
}

/// What rules b and c ask of the writes of one log as a set. The order of the places and the zeros after them are
/// left to `is_given_back`.
fn is_log(held: &BTreeSet<Write>, count: usize, servers: usize) -> bool {
    let in_range = held.iter().all(|write| (write.origin as usize) < servers && (write.item as usize) < ITEMS);
    // "Ascend strictly": no two of the counted places share clock and origin. A count above L fails here too.
    let names: BTreeSet<(u32, u32)> = held.iter().map(|write| (write.clock, write.origin)).collect();
    // "The first clock is 1; each later clock equals the one before it or is one more": together 1, 2, 3 and so on.
    let clocks: BTreeSet<u32> = held.iter().map(|write| write.clock).collect();
    in_range && names.len() == count && clocks.into_iter().zip(1..).all(|(clock, expected)| clock == expected)
}

/// Rule e for one server, where `own` has each server's own writes: the writes of an origin that the server holds are
/// that origin's own writes up to the greatest clock that it holds.
fn holds_first_of(held: &BTreeSet<Write>, own: &[BTreeSet<Write>]) -> bool {
    (0..).zip(own).all(|(origin, own)| {
        let here = writes_of(held, origin);
        here == up_to(own, greatest_clock(&here))
    })
}

/// The session that a slot shows, or none for a closed slot; whether a closed slot is all zero is left to
/// `is_given_back`.
fn slot_of(words: &[u32], own: &[BTreeSet<Write>]) -> Result<Option<Session>, NotSound> {
    let guarantees = match words[0].checked_sub(1) {
        None => return Ok(None),
        Some(guarantees) => guarantees,
    };
    let last_used_plus_one = words[1] as usize;
    if guarantees as usize >= GUARANTEE_SUMS || last_used_plus_one > own.len() {
        return Err(NotSound);
    }
    let (read_vector, write_vector) = words[SLOT_HEAD..].split_at(own.len());
    Ok(Some(Session {
        guarantees,
        last_used: last_used_plus_one.checked_sub(1),
        read_set: set_of(read_vector, own)?,
        write_set: set_of(write_vector, own)?,
    }))
}

/// The set that a session's vector stands for: each origin's own writes with clocks up to the component.
/// Rule f bounds a component and asks no more of it, so it may lie between two clocks of its origin, though no steps
/// lead there. The set then ends at the smaller clock, where 01's dominance would ask a server for the greater.
fn set_of(vector: &[u32], own: &[BTreeSet<Write>]) -> Result<BTreeSet<Write>, NotSound> {
    let components = vector.iter().copied().zip(own);
    if components.clone().any(|(component, own)| component > greatest_clock(own)) {
        return Err(NotSound);
    }
    Ok(components.flat_map(|(component, own)| up_to(own, component)).collect())
}

/// Whether the book shows the very words of the table: this decides rule d, the zeros of rules b and f, and that the
/// places of a log are in write order. The vectors of an open slot are left out, since rule f, which `set_of` has
/// asked, allows components that the sets do not give back; the table is judged exactly as by rules a to f.
fn is_given_back(parts: &Parts<'_>, book: &Book, table: &[u32]) -> bool {
    let shown = table_of(book);
    let (shown, shown_slots) = shown.split_at(table.len() - parts.slots.len());
    let width = SLOT_HEAD + 2 * parts.servers;
    let mut slots = book.slots.iter().zip(shown_slots.chunks(width).zip(parts.slots.chunks(width)));
    table.starts_with(shown)
        && slots.all(|(slot, (shown, given))| {
            let compared = if slot.is_some() { SLOT_HEAD } else { width };
            shown[..compared] == given[..compared]
        })
}

fn writes_of(held: &BTreeSet<Write>, origin: u32) -> BTreeSet<Write> {
    held.iter().filter(|write| write.origin == origin).copied().collect()
}

fn up_to(writes: &BTreeSet<Write>, clock: u32) -> BTreeSet<Write> {
    writes.iter().filter(|write| write.clock <= clock).copied().collect()
}

fn greatest_clock(writes: &BTreeSet<Write>) -> u32 {
    writes.iter().map(|write| write.clock).max().unwrap_or(0)
}
