//! Short passes of a node, and look-ups in them.

use crate::by_reference::Reference;
use crate::checker::{Checker, History, Record, Refusal};
use crate::deep;
use crate::passes::Run;
use crate::random::Random;
use reference::build::{NodeFile, Record as Equation, BOOL, INT};

/// The most instants of a history that is answered.
pub const MOST: usize = 16;

/// A look-up: a node file, a history of it, and what is wanted.
#[derive(Clone, Debug)]
pub struct Question {
    /// The node file.
    pub file: Vec<u8>,
    /// The count of instants.
    pub instants: usize,
    /// All their inputs in turn.
    pub inputs: Vec<i64>,
    /// The wanted stream.
    pub stream: usize,
    /// The wanted instant.
    pub instant: usize,
}

impl Question {
    /// The history.
    pub fn history(&self) -> History<'_> {
        History {
            node: &self.file,
            instants: self.instants,
            inputs: &self.inputs,
        }
    }
}

/// A node with the inputs of some instants, right in count and type.
#[derive(Clone, Debug)]
pub struct Pass {
    /// The node.
    pub run: Run,
    /// The inputs of each instant.
    pub inputs: Vec<Vec<i64>>,
}

impl Pass {
    /// A pass of 1 to 16 instants, as often as not one at which a session stops if
    /// such a one is drawn soon.
    pub fn drawn(random: &mut Random) -> Self {
        let mut pass = Pass::any(random);
        let tried = random.of([0, 8]);
        for _ in 0..tried {
            if pass.shown(&Reference).1.is_some() {
                break;
            }
            pass = Pass::any(random);
        }
        pass
    }

    /// A pass, at times on a node that is followed far down or has no inputs.
    fn any(random: &mut Random) -> Self {
        let node = match random.below(16) {
            0 => Some(random.of([deep::doublings, deep::chain])()),
            1 => Some(deep::drawn(random)),
            2 | 3 => Some(without_inputs(random)),
            _ => None,
        };
        let run = match node {
            Some(node) => Run::of(random, node),
            None => Run::drawn(random),
        };
        let some = random.within(1, MOST);
        let instants = random.of([1, some, MOST, MOST]);
        Pass::of(random, run, instants)
    }

    /// So many instants of a node.
    pub fn of(random: &mut Random, run: Run, instants: usize) -> Self {
        let inputs = (0..instants).map(|_| run.inputs(random)).collect();
        Pass { run, inputs }
    }

    /// How many streams the node has.
    pub fn streams(&self) -> usize {
        self.run.node.records.len()
    }

    /// How many inputs an instant has.
    pub fn each(&self) -> usize {
        self.inputs[0].len()
    }

    /// A look-up in it.
    pub fn question(&self, stream: usize, instant: usize) -> Question {
        Question {
            file: self.run.node.bytes(),
            instants: self.inputs.len(),
            inputs: self.inputs.concat(),
            stream,
            instant,
        }
    }

    /// A stream at an instant: the last of them as often as others.
    pub fn wanted(&self, random: &mut Random) -> (usize, usize) {
        let mut some = |last: usize| {
            let any = random.within(0, last);
            random.of([any, last])
        };
        (some(self.streams() - 1), some(self.inputs.len() - 1))
    }

    /// A stream that reads this one, or reads one that does, taken or not; at this
    /// instant or the next.
    pub fn reader(&self, random: &mut Random, stream: usize, instant: usize) -> (usize, usize) {
        let last = self.inputs.len() - 1;
        let mut reader = stream;
        for _ in 0..random.within(0, 4) {
            // Few read ints and are bools: else these are rare.
            let bools = random.pick(&self.readers(reader, &[BOOL]));
            let any = random.pick(&self.readers(reader, &[BOOL, INT]));
            reader = bools.or(any).unwrap_or(reader);
        }
        (reader, random.within(instant, last.min(instant + 1)))
    }

    /// The streams of these types that read this one.
    fn readers(&self, stream: usize, types: &[u8]) -> Vec<usize> {
        let records = self.run.node.records.iter().enumerate();
        let own = records.filter(|(_, own)| types.contains(&own.type_byte));
        let readers = own.filter(|(_, own)| own.operands().contains(&(stream as u16)));
        readers.map(|(own, _)| own).collect()
    }

    /// What a session shows of it: the values of each instant that it answers, and
    /// the refusal that it stops at.
    pub fn shown(&self, by: &dyn Checker) -> (Vec<Vec<i64>>, Option<Refusal>) {
        let mut record = Record::new();
        let mut shown = Vec::new();
        by.begin(&mut record, &self.run.node.bytes())
            .expect("a right node");
        for inputs in &self.inputs {
            let mut values = vec![0; self.streams()];
            match by.instant(&mut record, inputs, &mut values) {
                Ok(()) => shown.push(values),
                Err(refusal) => return (shown, Some(refusal)),
            }
        }
        (shown, None)
    }
}

/// A node with constants for its inputs.
fn without_inputs(random: &mut Random) -> NodeFile {
    let mut node = Run::drawn(random).node;
    let given = node.records.iter_mut();
    for record in given.filter(|record| record.operator == 0) {
        *record = Equation::constant(record.type_byte, random.of([0, 1]));
    }
    node
}
