//! Random schedules: of all sizes and moods, mostly proper, with some numbers out of range.

use crate::desk_text::{spell, FiveWords, Script};
use crate::random::Random;
use crate::schedule::{Event, Schedule};

const MOST_BYTES: usize = 16_384;
const MOST_STEPS: u32 = 512;
/// How many arguments each kind has, by their numbers from 1.
const ARGUMENTS: [u32; 5] = [2, 1, 3, 4, 3];

/// What the steps of one schedule are like. Numbers are shares: of the five kinds, and out of a hundred.
struct Mood {
    /// How often each kind comes, by their numbers from 1.
    kinds: [u32; 5],
    /// Reach is a single server; of the rest, half are all servers.
    one_reachable: u32,
    /// "most" is 0, 1 or 2.
    small_most: u32,
    out_of_range: u32,
}

#[rustfmt::skip]
const MOODS: [Mood; 8] = [
    // A day like others.
    Mood { kinds: [6, 3, 35, 30, 26], one_reachable: 45, small_most: 40, out_of_range: 3 },
    // Logs fill.
    Mood { kinds: [4, 1, 15, 65, 15], one_reachable: 40, small_most: 30, out_of_range: 1 },
    // Servers copy a little at a time.
    Mood { kinds: [4, 1, 30, 25, 40], one_reachable: 60, small_most: 90, out_of_range: 1 },
    // Each agent sees one server at a time.
    Mood { kinds: [4, 1, 40, 35, 20], one_reachable: 95, small_most: 30, out_of_range: 1 },
    // Everything is reachable, mostly.
    Mood { kinds: [4, 1, 45, 35, 15], one_reachable: 10, small_most: 20, out_of_range: 1 },
    // Agents come and go.
    Mood { kinds: [25, 20, 20, 20, 15], one_reachable: 45, small_most: 40, out_of_range: 3 },
    // Servers copy in full.
    Mood { kinds: [4, 1, 30, 30, 35], one_reachable: 70, small_most: 5, out_of_range: 1 },
    // A bad day: the desk sends nonsense.
    Mood { kinds: [15, 10, 30, 25, 20], one_reachable: 30, small_most: 40, out_of_range: 45 },
];

/// The script of a case. Cases one after another go through all sizes that a desk takes.
pub fn script_of_case(random: &mut Random, case: u64) -> Script {
    let case = case as u32;
    let servers = 1 + case % 16;
    // Small logs fill soon; the others take every size in turn.
    let places = if case % 2 == 0 { 1 + random.below(8) } else { 1 + (case / 2) % 128 };
    let slots = 1 + (case / 16) % 16;
    let count = steps_of_case(random);
    let mut script = Script { servers, places, slots, steps: steps(random, [servers, places, slots], count) };
    while spell(&script).map_or(0, |text| text.len()) > MOST_BYTES {
        script.steps.pop();
    }
    script
}

fn steps_of_case(random: &mut Random) -> u32 {
    match random.below(40) {
        0 => MOST_STEPS,
        1 => random.between(200, MOST_STEPS),
        2 | 3 => random.below(6),
        _ => random.between(20, 110),
    }
}

/// The schedule in words of a case: larger logs than a desk takes, unknown kinds, used unused words, damaged tables.
pub fn schedule_of_case(random: &mut Random, case: u64) -> Schedule {
    let case = case as u32;
    let servers = 1 + case % 16;
    let places = match random.below(8) {
        0 => random.between(129, 1024),
        1 => random.between(9, 128),
        _ => random.between(1, 8),
    };
    let slots = random.one_of(&[1, 2, 3, 16]);
    let count = random.between(5, 60);
    let mut events = Vec::new();
    for step in steps(random, [servers, places, slots], count) {
        while random.chance(30) {
            events.push(change(random, servers, places, slots));
        }
        let step = if random.chance(4) { disturbed(random, step) } else { step };
        events.push(Event::Step(step));
    }
    Schedule { servers, places, slots, events }
}

/// A change of one word of a table, in its header, its vectors and counts, the first places of its logs, its slots, or anywhere.
fn change(random: &mut Random, servers: u32, places: u32, slots: u32) -> Event {
    let counts = servers * (servers + 1);
    let (logs, slot) = (4 * servers * places, 2 * servers + 2);
    let words = 4 + counts + logs + slots * slot;
    let place = match random.below(10) {
        0 => random.below(5),
        1 | 2 => 4 + random.below(counts),
        3 | 4 => 4 + counts + 4 * places * random.below(servers) + random.below(4 * places.min(6)),
        5 | 6 => 4 + counts + logs + slot * random.below(slots) + random.below(slot),
        // Guarantees and last-used.
        7 => 4 + counts + logs + slot * random.below(slots) + random.below(2),
        _ => random.below(words),
    };
    match random.below(7) {
        0 => Event::Becomes(place, 0),
        1 | 2 => Event::Grows(place, 1),
        3 | 4 => Event::Grows(place, u32::MAX),
        // At the edges of servers, guarantees and last-used.
        5 => Event::Becomes(place, random.one_of(&[servers - 1, servers, servers + 1, 15, 16, 17])),
        _ => Event::Becomes(place, number(random)),
    }
}

/// The step with some word replaced, or of no kind that there is.
pub fn disturbed(random: &mut Random, mut step: FiveWords) -> FiveWords {
    if random.chance(30) {
        step[0] = random.one_of(&[0, 6, 7, u32::MAX]);
    } else {
        step[random.below(5) as usize] = number(random);
    }
    step
}

/// Any number, those at the edges often.
pub fn number(random: &mut Random) -> u32 {
    match random.below(4) {
        0 => random.below(20),
        1 => random.one_of(&[15, 16, 17, 255, 256, 65_535, 65_536, u32::MAX - 1, u32::MAX]),
        2 => 1 << random.below(32),
        _ => random.any() as u32,
    }
}

/// Steps for a table of these sizes.
pub fn steps(random: &mut Random, [servers, _, slots]: [u32; 3], count: u32) -> Vec<FiveWords> {
    let mood = &MOODS[random.below(MOODS.len() as u32) as usize];
    let items = [random.below(256), random.one_of(&[0, 255]), random.below(256)];
    let mut maker = Maker { random, mood, servers, items, open: vec![false; slots as usize] };
    (0..count).map(|made| maker.step(made)).collect()
}

struct Maker<'a> {
    random: &'a mut Random,
    mood: &'a Mood,
    servers: u32,
    items: [u32; 3],
    /// Which slots are open, as far as the steps' own words tell.
    open: Vec<bool>,
}

impl Maker<'_> {
    /// The next step. The first ones open slots, since little happens on closed ones.
    fn step(&mut self, made: u32) -> FiveWords {
        let kind = if made < self.open.len().min(4) as u32 { 1 } else { self.kind() };
        let mut step = match kind {
            1 => self.opening(),
            2 => [2, self.slot(true), 0, 0, 0],
            3 => [3, self.slot(true), self.item(), self.reach(), 0],
            4 => [4, self.slot(true), self.item(), self.value(), self.reach()],
            _ => self.exchange(),
        };
        if self.random.chance(self.mood.out_of_range) {
            let argument = self.random.between(1, ARGUMENTS[step[0] as usize - 1]) as usize;
            step[argument] = number(self.random);
        }
        self.follow(step);
        step
    }

    fn kind(&mut self) -> u32 {
        let mut share = self.random.below(self.mood.kinds.iter().sum());
        for (kind, shares) in (1..).zip(self.mood.kinds) {
            if share < shares {
                return kind;
            }
            share -= shares;
        }
        5
    }

    fn opening(&mut self) -> FiveWords {
        [1, self.slot(false), self.random.below(16), 0, 0]
    }

    fn exchange(&mut self) -> FiveWords {
        let from = self.random.below(self.servers);
        // Rarely to itself, unless there is no other.
        let to = if self.random.chance(97) && self.servers > 1 {
            (from + self.random.between(1, self.servers - 1)) % self.servers
        } else {
            from
        };
        [5, from, to, self.most(), 0]
    }

    /// A slot that is open, or closed, as wanted; any one now and then, or if there is none such.
    fn slot(&mut self, open: bool) -> u32 {
        let slots = self.open.len() as u32;
        let first = self.random.below(slots);
        if self.random.chance(5) {
            return first;
        }
        let fits = |slot: &u32| self.open[*slot as usize] == open;
        (first..slots).chain(0..first).find(fits).unwrap_or(first)
    }

    fn item(&mut self) -> u32 {
        if self.random.chance(90) {
            return self.random.one_of(&self.items);
        }
        self.random.below(256)
    }

    fn value(&mut self) -> u32 {
        match self.random.below(4) {
            0 => number(self.random),
            _ => self.random.below(1000),
        }
    }

    fn reach(&mut self) -> u32 {
        if self.random.chance(3) {
            return 0;
        }
        let all = (1 << self.servers) - 1;
        if self.random.chance(self.mood.one_reachable) {
            return 1 << self.random.below(self.servers);
        }
        if self.random.chance(50) {
            return all;
        }
        self.random.any() as u32 & all
    }

    fn most(&mut self) -> u32 {
        if self.random.chance(self.mood.small_most) {
            return self.random.below(3);
        }
        self.random.one_of(&[3, 9, 128, u32::MAX])
    }

    fn follow(&mut self, step: FiveWords) {
        if let Some(open) = self.open.get_mut(step[1] as usize) {
            match step[0] {
                1 if step[2] < 16 => *open = true,
                2 => *open = false,
                _ => (),
            }
        }
    }
}
