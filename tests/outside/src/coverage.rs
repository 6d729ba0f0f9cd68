//! What the cases of a run came upon, by name and number, and what a whole run must have come upon.

use crate::book::Book;
use crate::desk_text::{FiveWords, Reading, Script};
use std::collections::BTreeMap;

/// How often each thing was seen.
#[derive(Clone, Debug, Default)]
pub struct Coverage {
    seen: BTreeMap<String, u64>,
}

impl Coverage {
    pub fn note(&mut self, name: &str) {
        match self.seen.get_mut(name) {
            Some(times) => *times += 1,
            None => {
                self.seen.insert(name.to_string(), 1);
            }
        }
    }

    pub fn add_all(&mut self, other: Coverage) {
        for (name, times) in other.seen {
            *self.seen.entry(name).or_insert(0) += times;
        }
    }

    /// The same, each name behind the name of its group of cases.
    pub fn of_group(self, group: &str) -> Coverage {
        Coverage { seen: self.seen.into_iter().map(|(name, times)| (format!("{group}: {name}"), times)).collect() }
    }

    pub fn times(&self, name: &str) -> u64 {
        self.seen.get(name).copied().unwrap_or(0)
    }

    /// How often each thing was seen, without the sizes.
    pub fn listed(&self) -> String {
        let sizes = ["servers", "places", "slots"];
        let told = self.seen.iter().filter(|(name, _)| !sizes.iter().any(|size| name.starts_with(size)));
        told.map(|(name, times)| format!("{name}: {times}")).collect::<Vec<_>>().join(", ")
    }

    /// The sizes of a script that the desk answered.
    pub fn note_script(&mut self, script: &Script) {
        self.note("all");
        self.note(&format!("servers {}", script.servers));
        self.note(&format!("places {}", script.places));
        self.note(&format!("slots {}", script.slots));
        *self.seen.entry("steps".to_string()).or_insert(0) += script.steps.len() as u64;
    }

    /// What a damaged text turned out to be.
    pub fn note_reading(&mut self, reading: &Reading) {
        self.note(match reading {
            Reading::Script(_) => "good all the same",
            Reading::BadLine(1) => "bad line 1",
            Reading::BadLine(_) => "bad line behind the first",
            Reading::TooLong => "too long",
        });
    }

    /// Which rule a damaged table breaks first.
    pub fn note_rule(&mut self, rule: Option<char>) {
        match rule {
            Some(rule) => self.note(&format!("rule {rule} broken")),
            None => self.note("sound all the same"),
        }
    }

    /// Takes a step of the book and notes what it came upon.
    pub fn watch(&mut self, book: &mut Book, step: FiveWords) -> FiveWords {
        let lacking = lacking(book, step);
        let free = free_places(book, step[2]);
        let start = start_of(book, step[1]);
        let answer = book.step(step);
        self.note(&format!("kind {} code {}", step[0].min(6), answer[0]));
        match (step[0], answer[0]) {
            (1, 0) => self.note(&format!("guarantees {}", step[2])),
            (3, 0 | 5 | 6) => self.watch_choice(step[3], start, answer),
            (4, 0 | 5 | 6 | 7) => self.watch_choice(step[4], start, answer),
            (5, 0) => self.watch_exchange(lacking, step[3], free, answer[4]),
            _ => (),
        }
        if step[0] == 3 && answer[0] == 0 {
            self.note(if answer[3] == 0 { "read: no write on the item" } else { "read: a write on the item" });
        }
        answer
    }

    fn watch_choice(&mut self, reach: u32, start: Option<usize>, answer: FiveWords) {
        self.note(match reach.count_ones() {
            0 => "reach: none",
            1 => "reach: one",
            _ => "reach: several",
        });
        let start = match start {
            Some(start) if answer[0] == 0 => start as u32,
            _ => return,
        };
        if answer[1] == start {
            self.note("search: the server used last");
        } else {
            self.note(if answer[1] > start { "search: a later server" } else { "search: past the last server" });
            if reach & (1 << start) != 0 {
                self.note("search: the server used last is reachable and does not pass");
            }
        }
    }

    fn watch_exchange(&mut self, lacking: u64, most: u32, free: u64, went: u32) {
        if u64::from(went) < lacking {
            self.note(if u64::from(most) <= free { "exchange: cut by most" } else { "exchange: cut by room" });
        }
        if free == 0 {
            self.note("exchange: to a full log");
        }
        if went == 0 {
            self.note("exchange: nothing went");
        } else if went > 1 {
            self.note("exchange: several writes went");
        }
    }

    /// The numbers that tell how much was tried.
    pub fn summary(&self) -> String {
        let codes: Vec<String> = (0..8).map(|code| format!("{code}: {}", self.of_code(code))).collect();
        let scripts = self.times(&format!("{SCRIPTS}: all"));
        let steps = self.times(&format!("{SCRIPTS}: steps"));
        format!("{scripts} scripts, {steps} steps in them; answers by code: {}", codes.join(", "))
    }

    fn of_code(&self, code: u32) -> u64 {
        (1..=5).map(|kind| self.times(&format!("{SCRIPTS}: kind {kind} code {code}"))).sum()
    }

    /// What a whole run must have come upon, by group, and how often.
    pub fn wanted() -> Vec<(String, u64)> {
        let scripts = wanted_of_scripts().into_iter().map(|(name, times)| (format!("{SCRIPTS}: {name}"), times));
        let words = WORDS_WANTED.iter().map(|name| (format!("{WORDS}: {name}"), 100));
        let of_texts = |group: &'static str, names: &'static [&str]| {
            names.iter().map(move |name| (format!("{group}: {name}"), 10))
        };
        let byte_by_byte = of_texts(BYTE_BY_BYTE, &TEXTS_WANTED[..3]);
        let at_random = of_texts(AT_RANDOM, &TEXTS_WANTED[..3]);
        let at_the_limits = of_texts(AT_THE_LIMITS, &TEXTS_WANTED[1..]);
        scripts.chain(words).chain(byte_by_byte).chain(at_random).chain(at_the_limits).collect()
    }
}

/// The groups of cases.
pub const SCRIPTS: &str = "scripts";
pub const WORDS: &str = "schedules in words";
pub const BYTE_BY_BYTE: &str = "texts damaged byte by byte";
pub const AT_RANDOM: &str = "texts damaged at random";
pub const AT_THE_LIMITS: &str = "texts at the limits";

fn wanted_of_scripts() -> Vec<(String, u64)> {
    let mut wanted = vec![("all".to_string(), 3_000), ("steps".to_string(), 200_000)];
    let mut want = |name: String, times: u64| wanted.push((name, times));
    (1..=16).for_each(|servers| want(format!("servers {servers}"), 100));
    (1..=128).for_each(|places| want(format!("places {places}"), 5));
    (1..=16).for_each(|slots| want(format!("slots {slots}"), 100));
    (0..=15).for_each(|guarantees| want(format!("guarantees {guarantees}"), 500));
    for (kind, codes) in KINDS_AND_CODES {
        codes.iter().for_each(|code| want(format!("kind {kind} code {code}"), 100));
    }
    CHOICES_WANTED.iter().for_each(|name| want(name.to_string(), 100));
    wanted
}

/// The codes that steps of each kind can answer on a sound table.
pub const KINDS_AND_CODES: [(u32, &[u32]); 5] =
    [(1, &[0, 2, 3]), (2, &[0, 2, 3]), (3, &[0, 2, 3, 5, 6]), (4, &[0, 2, 3, 5, 6, 7]), (5, &[0, 2, 4])];

const CHOICES_WANTED: [&str; 14] = [
    "reach: none",
    "reach: one",
    "reach: several",
    "search: the server used last",
    "search: a later server",
    "search: past the last server",
    "search: the server used last is reachable and does not pass",
    "read: no write on the item",
    "read: a write on the item",
    "exchange: cut by most",
    "exchange: cut by room",
    "exchange: to a full log",
    "exchange: nothing went",
    "exchange: several writes went",
];

const WORDS_WANTED: [&str; 10] = [
    "kind 0 code 2",
    "kind 6 code 2",
    "rule a broken",
    "rule b broken",
    "rule c broken",
    "rule d broken",
    "rule e broken",
    "rule f broken",
    "sound all the same",
    "both stores went on from a changed table",
];

const TEXTS_WANTED: [&str; 4] = ["bad line 1", "good all the same", "bad line behind the first", "too long"];

fn lacking(book: &Book, step: FiveWords) -> u64 {
    match (book.servers.get(step[1] as usize), book.servers.get(step[2] as usize)) {
        (Some(from), Some(to)) => from.difference(to).count() as u64,
        _ => 0,
    }
}

fn free_places(book: &Book, server: u32) -> u64 {
    book.servers.get(server as usize).map_or(0, |held| (book.places - held.len()) as u64)
}

/// The server that the slot's session used last.
fn start_of(book: &Book, slot: u32) -> Option<usize> {
    book.slots.get(slot as usize)?.as_ref()?.last_used
}
