//! Look-ups: all give the same answers on right histories and on spoiled ones,
//! and a session shows the same values on each instant that it reaches.
//!
//! `DIFFERENTIAL_LOOK_UPS` and `DIFFERENTIAL_SEED` make a longer or another run;
//! with `--nocapture` the counts are shown.

use differential::by_reference::Reference;
use differential::checker::{Checker, Place, Refusal};
use differential::checkers::CHECKERS;
use differential::compare::{self, hex, Origin};
use differential::damage::{damage, Layout};
use differential::evaluator::look_up::{look_up, LookedUp};
use differential::histories::{Pass, Question, MOST};
use differential::mishistories::WAYS;
use differential::random::Random;
use differential::reorder::{is_reordered, looped};
use differential::tally::Tally;
use std::collections::BTreeMap;
use std::fmt;
use std::time::Instant;

/// How many look-ups of a right history there are.
const RIGHT: usize = 12;
/// About how many look-ups of all kinds a case has.
const A_CASE: u64 = 19;
/// How many passes are held against sessions.
const PASSES: u64 = 2_000;

/// A number given in the environment, or else this one.
fn wanted(name: &str, default: u64) -> u64 {
    let given = std::env::var(name).ok();
    given.and_then(|text| text.parse().ok()).unwrap_or(default)
}

/// What was met.
#[derive(Default)]
struct Met {
    tally: Tally,
    ways: BTreeMap<&'static str, u64>,
    /// Values and refusals with 34 by the operator of the wanted stream.
    operators: BTreeMap<u8, [u64; 2]>,
    /// Values at instants that a session does not reach, and refusals there.
    unreached: [u64; 2],
    /// Nodes with a record before one that it needs now.
    reordered: u64,
    /// The most streams that were visited, each at one instant.
    most: usize,
}

impl Met {
    /// Compares all on a look-up, asks for the answer that is worked out here, and
    /// counts it.
    fn question(&mut self, origin: Origin, question: &Question) -> LookedUp {
        let Question {
            stream, instant, ..
        } = *question;
        let said = compare::look_up(CHECKERS, origin, question.history(), (stream, instant));
        let expected = look_up(&Reference, question.history(), stream, instant);
        let file = || hex(&question.file);
        assert_eq!(
            said,
            expected.answer,
            "{origin:?}: {question:?}\n{}",
            file()
        );
        self.tally.answer(said.map(|_| ()));
        expected
    }

    /// Look-ups in a right history, many of what reads the stream that a session
    /// stops at: a value or 34.
    fn right(&mut self, origin: Origin, random: &mut Random, pass: &Pass) {
        let (shown, refusal) = pass.shown(&Reference);
        self.reordered += u64::from(is_reordered(&pass.run.node.records));
        for _ in 0..RIGHT {
            let (stream, instant) = match refusal.map(|refusal| refusal.place) {
                Some(Place::Record(named)) if random.once_in(2) => {
                    pass.reader(random, named, shown.len())
                }
                _ => pass.wanted(random),
            };
            let question = pass.question(stream, instant);
            let LookedUp { answer, visited } = self.question(origin, &question);
            assert!([0, 34].contains(&number(answer)), "{origin:?}: {answer:?}");
            let is_outside = usize::from(answer.is_err());
            let operator = pass.run.node.records[stream].operator;
            self.operators.entry(operator).or_default()[is_outside] += 1;
            self.unreached[is_outside] += u64::from(instant >= shown.len());
            self.most = self.most.max(visited);
        }
    }

    /// Spoiled look-ups, each refused by its way's number.
    fn spoiled(&mut self, origin: Origin, random: &mut Random, pass: &Pass) {
        let (stream, instant) = pass.wanted(random);
        let right = pass.question(stream, instant);
        for _ in 0..WAYS.len() / 2 {
            let way = &WAYS[random.below(WAYS.len())];
            let Some(question) = way.spoiled(random, pass, &right) else {
                continue;
            };
            let number = number(self.question(origin, &question).answer);
            assert_eq!(number, way.number, "{origin:?}: {}", way.name);
            *self.ways.entry(way.name).or_default() += 1;
        }
    }

    /// A look-up with a damaged node, and one with operands that lead back to their
    /// record.
    fn damaged(&mut self, origin: Origin, random: &mut Random, pass: &Pass) {
        let (stream, instant) = pass.wanted(random);
        let mut question = pass.question(stream, instant);
        let right = question.file.clone();
        damage(random, Layout::of_node(&right), &mut question.file);
        self.question(origin, &question);
        if let Some(wrong) = looped(random, &pass.run.node) {
            question.file = wrong.node.bytes();
            let number = number(self.question(origin, &question).answer);
            assert_eq!(number, 23, "{origin:?}");
        }
    }

    /// How often one of the node's own refusals was met.
    fn own(&self) -> u64 {
        let own = (1..=8).chain([23]);
        own.map(|number| self.tally.of(number)).sum()
    }
}

impl fmt::Display for Met {
    fn fmt(&self, f: &mut fmt::Formatter<'_>) -> fmt::Result {
        let [values, outside] = self.unreached;
        write!(f, "{}; {:?}", self.tally, self.ways)?;
        write!(f, "; values and 34 by operator {:?}", self.operators)?;
        write!(f, "; where a session stops {values} values, {outside} 34")?;
        write!(f, "; {} nodes reordered", self.reordered)?;
        write!(f, "; at most {} visited", self.most)
    }
}

/// The refusal's number; 0 where there is a value.
fn number(answer: Result<i64, Refusal>) -> u8 {
    answer.map_or_else(|refusal| refusal.number, |_| 0)
}

#[test]
fn look_ups() {
    let all = wanted("DIFFERENTIAL_LOOK_UPS", 160_000);
    let (since, seed) = (Instant::now(), wanted("DIFFERENTIAL_SEED", 1));
    let mut met = Met::default();
    for case in 0..all / A_CASE {
        let origin = Origin { seed, case };
        let mut random = Random::of_case(seed ^ 27, case);
        let pass = Pass::drawn(&mut random);
        met.right(origin, &mut random, &pass);
        met.spoiled(origin, &mut random, &pass);
        met.damaged(origin, &mut random, &pass);
    }
    let seconds = since.elapsed().as_secs_f64();
    println!("look-ups, seed {seed}, {seconds:.1} s: {met}");
    assert!(met.tally.total >= all / 3 * 2, "{met}");
    enough(&met, all);
}

/// Each answer, each way and each operator was met often enough, and some values
/// where a session stops.
fn enough(met: &Met, all: u64) {
    let tally = &met.tally;
    assert!(tally.of(0) >= all / 3, "{tally}");
    for number in [31, 33, 34, 65] {
        assert!(tally.of(number) >= all / 30, "{number}: {tally}");
    }
    assert!(met.own() >= all / 20, "{tally}");
    for number in 1..=8 {
        assert!(tally.of(number) >= all / 20_000, "{number}: {tally}");
    }
    for way in &WAYS {
        let often = met.ways.get(way.name);
        assert!(often >= Some(&(all / 400)), "{}: {often:?}", way.name);
    }
    for operator in 0..=15 {
        let [values, outside] = met.operators[&operator];
        assert!(values >= all / 400, "{operator}: {met}");
        let is_leaf = operator <= 1;
        assert!(is_leaf || outside >= all / 10_000, "{operator}: {met}");
    }
    let [values, outside] = met.unreached;
    assert!(values >= all / 40 && outside >= all / 40, "{met}");
    assert!(met.reordered >= all / 100, "{met}");
    assert_eq!(met.most, MOST * 64, "{met}");
}

/// What was met beside sessions.
#[derive(Debug, Default)]
struct Beside {
    instants: u64,
    values: u64,
    stopped: u64,
    /// Values at the instant where a session stops.
    given: u64,
}

impl Beside {
    /// By one checker: every value of every instant that a session reaches, and 34
    /// for the stream that it names where it stops.
    fn pass(&mut self, by: &dyn Checker, pass: &Pass) {
        let question = pass.question(0, 0);
        let look_up = |stream, instant| by.look_up(question.history(), stream, instant);
        let looked_up = |instant| (0..pass.streams()).map(move |own| look_up(own, instant));
        let (shown, refusal) = pass.shown(by);
        for (instant, values) in shown.iter().enumerate() {
            let own: Vec<_> = looked_up(instant).collect();
            let expected: Vec<_> = values.iter().copied().map(Ok).collect();
            assert_eq!(own, expected, "{}: {instant} of {question:?}", by.name());
            self.values += values.len() as u64;
        }
        self.instants += shown.len() as u64;
        let Some(refusal) = refusal else { return };
        let Place::Record(named) = refusal.place else {
            panic!("{refusal}");
        };
        let own: Vec<_> = looked_up(shown.len()).collect();
        assert_eq!(own[named], Err(refusal), "{}: {question:?}", by.name());
        self.given += own.iter().filter(|answer| answer.is_ok()).count() as u64;
        self.stopped += 1;
    }
}

/// By each checker for itself.
#[test]
fn beside_sessions() {
    let since = Instant::now();
    let mut beside = Beside::default();
    for case in 0..PASSES {
        for by in CHECKERS {
            let mut random = Random::of_case(28, case);
            beside.pass(*by, &Pass::drawn(&mut random));
        }
    }
    let seconds = since.elapsed().as_secs_f64();
    println!("beside sessions, {seconds:.1} s: {beside:?}");
    let often = PASSES * CHECKERS.len() as u64;
    assert!(beside.instants >= 4 * often, "{beside:?}");
    assert!(beside.stopped >= often / 8, "{beside:?}");
    assert!(beside.given >= often, "{beside:?}");
}
