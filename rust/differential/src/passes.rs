//! Passes: lists of a session's events, right and wrong, with values near the
//! limits of 64 bits. Beginnings, also on other nodes and on files that are
//! refused, trials, commits and instant's calls stand in any mix.

use crate::checker::{Checker, Record, Refusal};
use crate::compare::{self, Origin};
use crate::damage::{damage, Layout};
use crate::events::{Event, Events};
use crate::misrecords;
use crate::nodes::{self, Taste};
use crate::random::Random;
use crate::reorder::{is_reordered, looped};
use reference::build::{NodeFile, BOOL};

/// How int inputs are drawn in a pass.
#[derive(Clone, Copy, Debug)]
enum Style {
    Small,
    Spread,
    Edges,
}

/// A node being run.
#[derive(Clone, Debug)]
pub struct Run {
    /// The node.
    pub node: NodeFile,
    reordered: bool,
    style: Style,
}

impl Run {
    /// A node with a way to draw its inputs.
    pub fn drawn(random: &mut Random) -> Self {
        let mut taste = Taste::any(random);
        taste.ints = random.of([5, 8, 9]);
        taste.inputs = 10;
        taste.size = taste.size.max(random.within(1, 24));
        taste.reordered = random.once_in(2);
        let mut node = nodes::node(random, taste);
        node.note = nodes::note(random, 1_040);
        Run::of(random, node)
    }

    /// This node, with a way to draw its inputs.
    pub fn of(random: &mut Random, node: NodeFile) -> Self {
        Run {
            reordered: is_reordered(&node.records),
            node,
            style: random.of([Style::Small, Style::Spread, Style::Spread, Style::Edges]),
        }
    }

    /// An int input.
    fn number(&self, random: &mut Random) -> i64 {
        let near = random.within(0, 4) as i64 - 2;
        match self.style {
            Style::Small => random.within(0, 10) as i64 - 5,
            Style::Spread => random.spread(),
            Style::Edges => match random.below(6) {
                0 => i64::MAX - near.abs(),
                1 => i64::MIN + near.abs(),
                2 => (1 << 62) + near,
                3 => -(1 << 62) + near,
                _ => near,
            },
        }
    }

    /// One number an input, right in type.
    pub fn inputs(&self, random: &mut Random) -> Vec<i64> {
        let inputs = self
            .node
            .records
            .iter()
            .filter(|record| record.operator == 0);
        let types: Vec<u8> = inputs.map(|record| record.type_byte).collect();
        let drawn = types.into_iter().map(|kind| match kind {
            BOOL => i64::from(random.byte() & 1),
            _ => self.number(random),
        });
        drawn.collect()
    }

    /// Inputs and a slice, once in eight one of them wrong.
    pub fn call(&self, random: &mut Random) -> (Vec<i64>, Vec<i64>) {
        let mut inputs = self.inputs(random);
        let n = self.node.records.len();
        let mut room = n;
        match random.below(32) {
            0 => drop(inputs.pop()),
            1 => inputs.push(0),
            2 => room = random.of([0, n - 1, n + 1, 64, 65]),
            3 => inputs
                .iter_mut()
                .for_each(|input| *input = random.of([0, 1, 2, -1])),
            4 | 5 => inputs.iter_mut().for_each(|input| *input = random.spread()),
            _ => {}
        }
        let filling = random.spread();
        (inputs, vec![filling; room])
    }
}

/// A pass: what is compared, and the node that is run.
struct Pass<'a> {
    checkers: &'a [&'a dyn Checker],
    origin: Origin,
    run: Run,
}

/// Runs a pass of a beginning and `calls` events more, each compared.
pub fn pass(
    checkers: &[&dyn Checker],
    origin: Origin,
    random: &mut Random,
    calls: usize,
    events: &mut Events,
) {
    let run = Run::drawn(random);
    let mut pass = Pass {
        checkers,
        origin,
        run,
    };
    let mut record = Record::new();
    pass.begin_right(&mut record, events);
    for _ in 0..calls {
        match random.below(32) {
            0 | 1 => pass.begin(random, &mut record, events),
            2 | 3 => pass.on_spoiled(random, &record, events),
            drawn => {
                let event = match drawn {
                    4..=16 => Event::Trial,
                    17..=23 => Event::Commit,
                    _ => Event::Instant,
                };
                let _ = pass.call(random, &mut record, event, events);
            }
        }
    }
}

impl Pass<'_> {
    /// A beginning on the node, on another one, or on a file that is damaged or
    /// has a loop. A refused one leaves the session to go on.
    fn begin(&mut self, random: &mut Random, record: &mut Record, events: &mut Events) {
        let file = self.run.node.bytes();
        let (wrong, number) = match random.below(4) {
            0 => return self.begin_right(record, events),
            1 => {
                self.run = Run::drawn(random);
                return self.begin_right(record, events);
            }
            2 => {
                let mut wrong = file.clone();
                damage(random, Layout::of_node(&file), &mut wrong);
                (wrong, None)
            }
            _ => match looped(random, &self.run.node) {
                Some(wrong) => (wrong.node.bytes(), Some(23)),
                None => return,
            },
        };
        let answer = self.begun(record, &wrong, events);
        let refused = answer.err().map(|refusal| refusal.number);
        assert!(number.is_none() || refused == number, "{:?}", self.origin);
        if answer.is_ok() {
            self.begin_right(record, events);
        }
    }

    /// A beginning on the node.
    fn begin_right(&self, record: &mut Record, events: &mut Events) {
        let (file, origin) = (self.run.node.bytes(), self.origin);
        let answer = self.begun(record, &file, events);
        assert_eq!(answer, Ok(()), "{origin:?}: a right node is refused");
    }

    /// A beginning on some file.
    fn begun(&self, record: &mut Record, file: &[u8], events: &mut Events) -> Result<(), Refusal> {
        let held = record.held;
        let answer = compare::begin(self.checkers, self.origin, record, file);
        events.count(Event::Begin, held, answer);
        answer
    }

    /// An instant's call, a trial or a commit.
    fn call(
        &self,
        random: &mut Random,
        record: &mut Record,
        event: Event,
        events: &mut Events,
    ) -> Result<(), Refusal> {
        let (held, (inputs, mut values)) = (record.held, self.run.call(random));
        let (checkers, origin) = (self.checkers, self.origin);
        let answer = match event {
            Event::Instant => compare::instant(checkers, origin, record, &inputs, &mut values),
            Event::Trial => compare::trial(checkers, origin, record, &inputs, &mut values),
            _ => compare::commit(checkers, origin, record),
        };
        let filled = event != Event::Commit && answer.is_ok();
        events.reordered += u64::from(filled && self.run.reordered);
        events.count(event, held, answer);
        answer
    }

    /// A call on a spoiled copy of the record, and at times some more on what
    /// it leaves.
    fn on_spoiled(&self, random: &mut Random, record: &Record, events: &mut Events) {
        let way = random.of(misrecords::WAYS);
        let mut lent = way.spoiled(random, &self.run.node, record);
        let event = random.of(Event::CALLS);
        let answer = self.call(random, &mut lent, event, events);
        let (name, origin) = (way.name, self.origin);
        assert!(way.expected.is(answer), "{origin:?}: {name}: {answer:?}");
        events.way(name, answer);
        for _ in 0..random.below(3) {
            let event = random.of(Event::CALLS);
            let _ = self.call(random, &mut lent, event, events);
        }
    }
}
