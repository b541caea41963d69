//! Trials and commits beside a session of instant's calls alone, on the
//! committed inputs: by each checker for itself, the same answers, values and
//! records.

use differential::checker::{Checker, Record, Refusal};
use differential::checkers::ON_SESSIONS;
use differential::compare::hex;
use differential::events::{Event, Events};
use differential::passes::Run;
use differential::random::Random;

/// How many nodes are run.
const NODES: u64 = 2_000;
/// How many events each has.
const EVENTS: usize = 24;

/// A session, and one on the committed inputs alone.
struct Beside<'a> {
    by: &'a dyn Checker,
    session: Record,
    committed: Record,
    /// What the second would be after the held trial's inputs.
    tried: Option<Record>,
}

impl<'a> Beside<'a> {
    fn begun(by: &'a dyn Checker, file: &[u8]) -> Self {
        let mut session = Record::new();
        by.begin(&mut session, file).expect("a right node");
        Beside {
            by,
            committed: session.clone(),
            session,
            tried: None,
        }
    }

    /// A beginning; the file is the node's, or is refused.
    fn begin(&mut self, file: &[u8]) -> Result<(), Refusal> {
        self.by.begin(&mut self.session, file)?;
        let _ = self.by.begin(&mut self.committed, file);
        self.tried = None;
        Ok(())
    }

    /// A trial or an instant's call: answer and values are those of an
    /// instant's call after the committed inputs.
    fn fill(&mut self, event: Event, inputs: &[i64], values: &[i64]) -> Result<(), Refusal> {
        let (mut values, mut expected) = (values.to_vec(), values.to_vec());
        let mut next = self.committed.clone();
        let said = self.by.instant(&mut next, inputs, &mut expected);
        let answer = match event {
            Event::Trial => self.by.trial(&mut self.session, inputs, &mut values),
            _ => self.by.instant(&mut self.session, inputs, &mut values),
        };
        assert_eq!((answer, values), (said, expected), "{event:?}");
        match event {
            _ if answer.is_err() => {}
            Event::Trial => self.tried = Some(next),
            _ => (self.committed, self.tried) = (next, None),
        }
        answer
    }

    /// A commit: what was tried last, or 35.
    fn commit(&mut self) -> Result<(), Refusal> {
        let answer = self.by.commit(&mut self.session);
        match self.tried.take() {
            Some(next) => {
                assert_eq!(answer, Ok(()));
                self.committed = next;
            }
            None => assert_eq!(answer, Err(Refusal::file(35))),
        }
        answer
    }

    /// The first record is the second but for the held trial.
    fn is_same(&self) -> bool {
        let mut expected = self.committed.clone();
        if let Some(next) = &self.tried {
            (expected.held, expected.trial) = (true, next.last);
        }
        self.session == expected
    }

    /// Some event.
    fn event(&mut self, random: &mut Random, run: &Run, events: &mut Events) {
        let event = match random.below(24) {
            0 => Event::Begin,
            1..=7 => Event::Instant,
            8..=16 => Event::Trial,
            _ => Event::Commit,
        };
        let held = self.tried.is_some();
        let (inputs, values) = run.call(random);
        let file = run.node.bytes();
        let answer = match event {
            Event::Begin => self.begin(&file[..file.len() - random.of([0, 1])]),
            Event::Commit => self.commit(),
            _ => self.fill(event, &inputs, &values),
        };
        events.count(event, held, answer);
    }
}

#[test]
fn on_the_committed_inputs() {
    let mut events = Events::default();
    for case in 0..NODES {
        for by in ON_SESSIONS {
            let mut random = Random::of_case(23, case);
            let run = Run::drawn(&mut random);
            let mut beside = Beside::begun(*by, &run.node.bytes());
            for _ in 0..EVENTS {
                beside.event(&mut random, &run, &mut events);
                let file = || hex(&run.node.bytes());
                assert!(beside.is_same(), "case {case}, {}: {}", by.name(), file());
            }
        }
    }
    println!("on the committed inputs: {events}");
    let often = NODES * ON_SESSIONS.len() as u64 / 20;
    for held in [false, true] {
        for event in [Event::Instant, Event::Trial] {
            assert_eq!(events.numbers(event, held), [0, 31, 32, 33, 34]);
            let each = events.numbers(event, held);
            let least = each.iter().map(|number| events.of(event, held, &[*number]));
            assert!(least.min() >= Some(often), "{event:?}: {events}");
        }
        assert!(events.of(Event::Begin, held, &[0]) >= often, "{events}");
        assert!(events.of(Event::Begin, held, &[2]) >= often, "{events}");
    }
    assert!(events.of(Event::Commit, true, &[0]) >= often, "{events}");
    assert!(events.of(Event::Commit, false, &[35]) >= often, "{events}");
}
