//! A schedule in words: it can say what a desk's text can't, such as an unknown kind, a used unused word or a damaged table.

use crate::desk_text::{FiveWords, Script};

/// The sizes of the table, and what happens to it.
#[derive(Clone, Debug, PartialEq, Eq)]
pub struct Schedule {
    pub servers: u32,
    pub places: u32,
    pub slots: u32,
    pub events: Vec<Event>,
}

/// Changes stand before the step that meets them. They are made in a copy of the table, and the step is tried on that copy first.
#[derive(Clone, Copy, Debug, PartialEq, Eq)]
pub enum Event {
    Step(FiveWords),
    /// The word at this place of the table becomes that number.
    Becomes(u32, u32),
    /// The word at this place of the table grows by that number, and passes from the greatest to 0.
    Grows(u32, u32),
}

impl Schedule {
    /// The steps of a script, in words.
    pub fn of_script(script: &Script) -> Schedule {
        Schedule {
            servers: script.servers,
            places: script.places,
            slots: script.slots,
            events: script.steps.iter().copied().map(Event::Step).collect(),
        }
    }

    /// Its steps alone.
    pub fn steps(&self) -> impl Iterator<Item = FiveWords> + '_ {
        self.events.iter().filter_map(|event| match event {
            Event::Step(step) => Some(*step),
            _ => None,
        })
    }

    /// As text: the sizes, then a step's five words or a change (`= place word`, `+ place word`) to a line.
    pub fn spell(&self) -> String {
        let mut text = format!("{} {} {}\n", self.servers, self.places, self.slots);
        for event in &self.events {
            text.push_str(&match event {
                Event::Step([kind, a, b, c, d]) => format!("{kind} {a} {b} {c} {d}\n"),
                Event::Becomes(place, word) => format!("= {place} {word}\n"),
                Event::Grows(place, word) => format!("+ {place} {word}\n"),
            });
        }
        text
    }

    /// The schedule of such a text; None if it is none.
    pub fn read(text: &str) -> Option<Schedule> {
        let mut lines = text.lines();
        let sizes = numbers(lines.next()?)?;
        let events = lines.map(read_event).collect::<Option<Vec<Event>>>()?;
        match sizes[..] {
            [servers @ 1..=16, places @ 1..=1024, slots @ 1..=16] => Some(Schedule { servers, places, slots, events }),
            _ => None,
        }
    }
}

fn read_event(line: &str) -> Option<Event> {
    if let Some(change) = line.strip_prefix("= ") {
        return match numbers(change)?[..] {
            [place, word] => Some(Event::Becomes(place, word)),
            _ => None,
        };
    }
    if let Some(change) = line.strip_prefix("+ ") {
        return match numbers(change)?[..] {
            [place, word] => Some(Event::Grows(place, word)),
            _ => None,
        };
    }
    match numbers(line)?[..] {
        [kind, a, b, c, d] => Some(Event::Step([kind, a, b, c, d])),
        _ => None,
    }
}

fn numbers(text: &str) -> Option<Vec<u32>> {
    text.split(' ').map(|field| field.parse().ok()).collect()
}

#[cfg(test)]
mod tests {
    use super::*;

    #[test]
    fn reads_what_it_spells() {
        let text = "2 4 1\n1 0 15 0 0\n= 5 0\n+ 6 4294967295\n9 8 7 6 5\n";
        let schedule = Schedule::read(text).unwrap();
        assert_eq!(schedule.events.len(), 4);
        assert_eq!(schedule.steps().count(), 2);
        assert_eq!(schedule.spell(), text);
    }

    #[test]
    fn refuses_what_is_no_schedule() {
        for text in
            ["", "2 4\n", "0 4 1\n", "2 1025 1\n", "2 4 1 1\n", "2 4 1\n1 2 3 4\n", "2 4 1\n= 5\n", "2 4 1\no 0 1\n"]
        {
            assert_eq!(Schedule::read(text), None, "{text:?}");
        }
    }
}
