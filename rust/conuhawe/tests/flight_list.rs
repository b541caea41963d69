//! Passes of a million instants on listed nodes, that of `examples/flight-list`
//! and one whose levels rise and fall: inputs anywhere in their ranges, and no
//! instant is refused, whatever was only tried.

mod common;

use common::flight_list;
use conuhawe::{ranges, Session};
use reference::build::random::Random;
use reference::build::{NodeFile, Record, BOOL, INT};
use reference::node::{self, Equation, Node, Type};

/// How many instants a pass has.
const INSTANTS: usize = 1_000_000;
/// The most instants that an input is drawn in the same way.
const LONGEST: usize = 3_000;

/// How an input is drawn for some instants.
#[derive(Clone, Copy)]
enum Way {
    Least,
    Greatest,
    EitherEnd,
    Anywhere,
}

const WAYS: [Way; 4] = [Way::Least, Way::Greatest, Way::EitherEnd, Way::Anywhere];

/// An input's ends, 0 and 1 for a bool, and how it is drawn.
struct Input {
    ends: [i64; 2],
    way: Way,
    /// How many instants more in this way.
    left: usize,
}

impl Input {
    fn new(ends: [i64; 2]) -> Self {
        Input {
            ends,
            way: Way::Least,
            left: 0,
        }
    }

    fn drawn(&mut self, random: &mut Random) -> i64 {
        if self.left == 0 {
            self.way = WAYS[random.below(WAYS.len())];
            self.left = 1 + random.below(LONGEST);
        }
        self.left -= 1;
        let [least, greatest] = self.ends;
        match self.way {
            Way::Least => least,
            Way::Greatest => greatest,
            Way::EitherEnd => self.ends[random.below(2)],
            Way::Anywhere => {
                let size = usize::try_from(greatest - least).unwrap() + 1;
                least + i64::try_from(random.below(size)).unwrap()
            }
        }
    }
}

/// The inputs of a node, in record order.
fn inputs(node: &Node, ends: &[[i64; 2]]) -> Vec<Input> {
    let streams = node.inputs().iter().copied().map(usize::from);
    let drawn = streams.map(|i| match node.types()[i] {
        Type::Bool => [0, 1],
        Type::Int => ends[i],
    });
    drawn.map(Input::new).collect()
}

/// An int stream that rests on its past.
struct Counter {
    stream: usize,
    ends: [i64; 2],
    before: Option<i64>,
    /// How often it came to the least and to the greatest number of its range.
    came: [usize; 2],
}

impl Counter {
    fn meet(&mut self, values: &[i64]) {
        let value = values[self.stream];
        if self.before.replace(value) != Some(value) {
            for (end, came) in self.ends.iter().zip(&mut self.came) {
                *came += usize::from(value == *end);
            }
        }
    }
}

/// The counters of a node that have more than one number.
fn counters(node: &Node, ends: &[[i64; 2]]) -> Vec<Counter> {
    let is_counter = |i: &usize| {
        let rests = matches!(node.equations()[*i], Equation::ArrowPre { .. });
        rests && ends[*i][0] < ends[*i][1]
    };
    let streams = (0..node.count()).filter(is_counter);
    let counters = streams.map(|stream| Counter {
        stream,
        ends: ends[stream],
        before: None,
        came: [0; 2],
    });
    counters.collect()
}

/// Every int value is in its range.
fn are_inside(node: &Node, ends: &[[i64; 2]], values: &[i64]) -> bool {
    let is_inside = |i: usize| (ends[i][0]..=ends[i][1]).contains(&values[i]);
    (0..node.count()).all(|i| node.types()[i] == Type::Bool || is_inside(i))
}

/// A trial far outside the ranges, on either side by turns, which is not
/// committed. Gives whether it is answered, and so held.
fn try_outside(session: &mut Session, node: &Node, far: i64) -> bool {
    let streams = node.inputs().iter().copied().map(usize::from);
    let given = streams.enumerate().map(|(nth, i)| match node.types()[i] {
        Type::Bool => 1,
        Type::Int => [far, -far][nth % 2],
    });
    let given: Vec<i64> = given.collect();
    session.trial(&given, &mut vec![0; node.count()]).is_ok()
}

/// An instant's call, or a trial and its commit.
fn instant(session: &mut Session, given: &[i64], values: &mut [i64], tried: bool) {
    let answer = match tried {
        true => session.trial(given, values).and_then(|()| session.commit()),
        false => session.instant(given, values),
    };
    assert_eq!(answer, Ok(()), "{given:?}");
}

/// Runs a pass on a listed node: every instant is answered, and every int
/// value is in its range. Gives the counters.
fn pass(file: &[u8], table: &[i64]) -> Vec<Counter> {
    assert_eq!(ranges(file, table), Ok(()));
    let node = node::read(file).unwrap();
    let (ends, _) = table.as_chunks();
    let (mut inputs, mut counters) = (inputs(&node, ends), counters(&node, ends));
    let mut random = Random::new(81);
    let mut session = Session::begin(file).unwrap();
    let mut values = vec![0; node.count()];
    let mut held = 0;
    for t in 0..INSTANTS {
        if t % 16 == 0 {
            let far = [i64::MAX, 5_000_000_000][random.below(2)];
            held += usize::from(try_outside(&mut session, &node, far));
        }
        let given: Vec<i64> = inputs.iter_mut().map(|i| i.drawn(&mut random)).collect();
        instant(&mut session, &given, &mut values, t % 3 == 0);
        assert!(are_inside(&node, ends, &values), "instant {t}: {values:?}");
        counters
            .iter_mut()
            .for_each(|counter| counter.meet(&values));
    }
    assert!(held >= INSTANTS / 40, "{held}");
    counters
}

/// Whether a counter came to both ends so often.
fn came(counter: &Counter, often: usize) -> bool {
    counter.came.iter().all(|came| *came >= often)
}

/// Both counters come to both ends again and again, so that no narrower range
/// would do.
#[test]
fn the_flight_list() {
    let (file, table) = flight_list();
    let counters = pass(&file, &table);
    assert_eq!(counters.len(), 2);
    assert!(counters.iter().all(|counter| came(counter, 100)));
}

/// A level that is moved by an input and held from 0 to 1,000, and one that is
/// moved by up to 3,000,000,000 and held at 1,000,000,000 on both sides: their
/// difference is at the limit.
fn levels() -> NodeFile {
    let large = 1_000_000_000;
    let records = vec![
        Record::constant(BOOL, 1),
        Record::input(BOOL),
        Record::input(INT),
        Record::input(INT),
        Record::constant(INT, 0),
        Record::constant(INT, 1_000),
        Record::constant(INT, -large),
        Record::constant(INT, large),
        Record::arrow_pre(INT, 4, 11),
        Record::sum(8, 2),
        Record::lesser(9, 5),
        Record::greater(10, 4),
        Record::multiple(large, 3),
        Record::choice(INT, 1, 12, 2),
        Record::arrow_pre(INT, 6, 17),
        Record::difference(14, 13),
        Record::greater(15, 6),
        Record::lesser(16, 7),
    ];
    NodeFile::new(records, 0)
}

/// Its ranges.
fn ends_of_levels() -> [[i64; 2]; 18] {
    let large = |least, greatest| [least, greatest].map(|n: i64| 1_000_000_000 * n);
    [
        [0, 0],
        [0, 0],
        [-9, 7],
        [-3, 3],
        [0, 0],
        [1_000, 1_000],
        large(-1, -1),
        large(1, 1),
        [0, 1_000],
        [-9, 1_007],
        [-9, 1_000],
        [0, 1_000],
        large(-3, 3),
        large(-3, 3),
        large(-1, 1),
        large(-4, 4),
        large(-1, 4),
        large(-1, 1),
    ]
}

/// Both levels come to both ends, again and again.
#[test]
fn levels_that_rise_and_fall() {
    let counters = pass(&levels().bytes(), ends_of_levels().as_flattened());
    assert_eq!(counters.len(), 2);
    assert!(counters.iter().all(|counter| came(counter, 100)));
}
