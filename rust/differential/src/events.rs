//! A session's events, and counts of those that were met.

use crate::checker::Refusal;
use std::collections::BTreeMap;
use std::fmt;

/// What is asked of a session.
#[derive(Clone, Copy, Debug, PartialEq, Eq, PartialOrd, Ord)]
pub enum Event {
    /// A beginning.
    Begin,
    /// An instant's call.
    Instant,
    /// A trial.
    Trial,
    /// A commit.
    Commit,
}

impl Event {
    /// Those that are not beginnings.
    pub const CALLS: [Event; 3] = [Event::Instant, Event::Trial, Event::Commit];
}

/// An event as it was met.
#[derive(Clone, Copy, Debug, PartialEq, Eq, PartialOrd, Ord)]
pub struct Met {
    /// The event.
    pub event: Event,
    /// Whether a trial was held before it.
    pub held: bool,
    /// The refusal's number; 0 where it was answered.
    pub number: u8,
}

/// How often each was met.
#[derive(Clone, Debug, Default)]
pub struct Events {
    /// All of them.
    pub met: BTreeMap<Met, u64>,
    /// Calls on spoiled records, by the way and by the refusal's number.
    pub spoiled: BTreeMap<(&'static str, u8), u64>,
    /// Answered instants and trials where an operand needed now is not lower
    /// than its record.
    pub reordered: u64,
    /// All that are not beginnings.
    pub calls: u64,
}

/// The refusal's number; 0 where it is answered.
fn number(answer: Result<(), Refusal>) -> u8 {
    answer.map_or_else(|refusal| refusal.number, |()| 0)
}

impl Events {
    /// Counts an event, with a trial held before it or not.
    pub fn count(&mut self, event: Event, held: bool, answer: Result<(), Refusal>) {
        let number = number(answer);
        let met = Met {
            event,
            held,
            number,
        };
        *self.met.entry(met).or_default() += 1;
        self.calls += u64::from(event != Event::Begin);
    }

    /// Counts a call on a record that was spoiled in this way.
    pub fn way(&mut self, name: &'static str, answer: Result<(), Refusal>) {
        *self.spoiled.entry((name, number(answer))).or_default() += 1;
    }

    /// How often an event was met with these numbers, with a trial held before
    /// it or not.
    pub fn of(&self, event: Event, held: bool, numbers: &[u8]) -> u64 {
        let is_own = |met: &&Met| met.event == event && met.held == held;
        let own = self.met.keys().filter(is_own);
        let own = own.filter(|met| numbers.contains(&met.number));
        own.map(|met| self.met[met]).sum()
    }

    /// The numbers of an event, with a trial held before it or not.
    pub fn numbers(&self, event: Event, held: bool) -> Vec<u8> {
        let is_own = |met: &&Met| met.event == event && met.held == held;
        let own = self.met.keys().filter(is_own);
        own.map(|met| met.number).collect()
    }

    /// How many calls on records spoiled in this way there were.
    pub fn of_way(&self, name: &str) -> u64 {
        let own = self.spoiled.iter().filter(|((way, _), _)| *way == name);
        own.map(|(_, count)| count).sum()
    }
}

impl fmt::Display for Events {
    fn fmt(&self, f: &mut fmt::Formatter<'_>) -> fmt::Result {
        write!(f, "{} calls", self.calls)?;
        write!(f, " ({} answered on a reordered node)", self.reordered)?;
        for (met, count) in &self.met {
            let trial = if met.held { " with a trial held" } else { "" };
            let number = match met.number {
                0 => "answered".into(),
                number => number.to_string(),
            };
            write!(f, ", {:?}{trial} {number}: {count}", met.event)?;
        }
        write!(f, "; spoiled records {:?}", self.spoiled)
    }
}
