//! Look-ups of the last stream at the last instant, and one that is refused.

use super::{measure, CHECKERS};
use differential::by_reference::Reference;
use differential::checker::{Checker, History};
use differential::deep::{self, LAST};
use differential::evaluator::look_up;
use differential::histories::MOST;
use differential::largest;
use differential::random::Random;
use reference::build::NodeFile;
use std::hint::black_box;

/// How many streams, each at one instant, are visited at least in a mixed node.
const VISITED: usize = 200;
/// How many instants the refused history has.
const MANY: usize = 10_000;

/// A node file and a history of it, with the same inputs at each instant.
struct Wanted {
    file: Vec<u8>,
    instants: usize,
    inputs: Vec<i64>,
}

impl Wanted {
    /// So many instants, with 1 for each input.
    fn new(node: &NodeFile, instants: usize) -> Self {
        let given = node.records.iter().filter(|record| record.operator == 0);
        Wanted {
            file: node.bytes(),
            instants,
            inputs: vec![1; instants * given.count()],
        }
    }

    fn history(&self) -> History<'_> {
        History {
            node: &self.file,
            instants: self.instants,
            inputs: &self.inputs,
        }
    }

    /// The refusal's number; 0 where there is a value.
    fn number(&self, by: &dyn Checker) -> u8 {
        let (history, instant) = black_box((self.history(), self.instants - 1));
        let answer = by.look_up(history, LAST.into(), instant);
        black_box(answer).map_or_else(|refusal| refusal.number, |_| 0)
    }

    /// How many streams, each at one instant, are visited.
    fn visited(&self) -> usize {
        let last = self.instants - 1;
        look_up::look_up(&Reference, self.history(), LAST.into(), last).visited
    }

    /// Measured by what is visited, or by the inputs where nothing is.
    fn measured(&self, what: &str, number: u8) {
        let is_own = |by: &&dyn Checker| self.number(*by) == number;
        assert!(CHECKERS.iter().all(is_own), "{what}");
        let (per, of) = match self.visited() {
            0 => (self.inputs.len(), "inputs"),
            visited => (visited, "visited"),
        };
        let what = format!("look-up: {what}, {per} {of}");
        measure(&what, per, &|checker| {
            self.number(checker);
        });
    }
}

/// A node of 64 streams, of all operators, whose last stream visits many.
fn mixed(random: &mut Random) -> NodeFile {
    loop {
        let node = largest::node(random, 5, true);
        let wanted = Wanted::new(&node, MOST);
        if wanted.number(&Reference) == 0 && wanted.visited() >= VISITED {
            return node;
        }
    }
}

/// 62 doublings at one instant; a chain through 16 instants, at each of which all
/// 64 streams are visited; a mixed node of 64 streams; and a history that is too
/// long, whose bools are looked at first.
pub fn look_ups(random: &mut Random) {
    Wanted::new(&deep::doublings(), 1).measured("62 doublings", 0);
    Wanted::new(&deep::chain(), MOST).measured("a chain", 0);
    Wanted::new(&mixed(random), MOST).measured("a mixed node", 0);
    Wanted::new(&deep::chain(), MANY).measured("65", 65);
}
