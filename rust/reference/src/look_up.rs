//! One value of a short history: refusals 65 and 34.
//!
//! 02: "From a history of up to 16 instants, an engine that follows the
//! equations down from the wanted stream and instant gives it, or 34."

use crate::answer::{Place, Refusal};
use crate::history::History;
use crate::node::{self, Equation, Node, MAX_STREAMS};

/// 02: "a history of up to 16 instants".
const MAX_INSTANTS: usize = 16;

/// One entry for each stream at each instant.
type Table<T> = [[T; MAX_STREAMS]; MAX_INSTANTS];

/// The value of a stream at an instant, or the first refusal: the node's own,
/// 31, 33, 65, 34.
pub fn look_up(
    file: &[u8],
    instants: usize,
    inputs: &[i64],
    stream: usize,
    instant: usize,
) -> Result<i64, Refusal> {
    let node = node::read(file)?;
    History::new(&node, instants, inputs)?.look_up(stream, instant)
}

impl History<'_> {
    /// The value of a stream at an instant. 02: "65, history over 16 instants,
    /// or stream or instant out of it, after 33 (of the earliest instant)". And:
    /// "It gives 34, with the wanted record, just where a value so visited
    /// leaves the range".
    pub fn look_up(&self, stream: usize, instant: usize) -> Result<i64, Refusal> {
        self.check_inputs()?;
        let is_short = self.instants() <= MAX_INSTANTS;
        if !is_short || stream >= self.node().count() || instant >= self.instants() {
            return Err(Refusal::file(65));
        }
        let value = Engine::new(self).work_out(stream, instant);
        value.ok_or(Refusal::new(34, Place::Record(stream)))
    }
}

/// What a look-up has worked out so far: each stream at each instant at most
/// once.
struct Engine<'a> {
    equations: &'a [Equation],
    inputs: &'a [i64],
    /// How many inputs an instant has.
    input_count: usize,
    /// The position of each input stream among an instant's inputs.
    positions: [usize; MAX_STREAMS],
    values: Table<i64>,
    is_known: Table<bool>,
}

impl<'a> Engine<'a> {
    fn new(history: &History<'a>) -> Self {
        let node = history.node();
        Engine {
            equations: node.equations(),
            inputs: history.inputs(),
            input_count: node.inputs().len(),
            positions: positions(node),
            values: [[0; MAX_STREAMS]; MAX_INSTANTS],
            is_known: [[false; MAX_STREAMS]; MAX_INSTANTS],
        }
    }

    /// The value of a visited stream; nothing where it, or one visited on the
    /// way down from it, leaves the range.
    #[inline]
    fn visit(&mut self, stream: u8, instant: usize) -> Option<i64> {
        let own = usize::from(stream);
        if self.is_known[instant][own] {
            return Some(self.values[instant][own]);
        }
        self.work_out(own, instant)
    }

    /// 02: "It visits the condition and taken branch of an “if”, the operand
    /// chosen by 12 and 13, and all operands of others."
    ///
    /// No chain of operands needed now returns to its start (23), so it is at
    /// most 64 calls deep an instant. Not inlined: a known value then costs no
    /// call, and a call little of the stack.
    #[inline(never)]
    fn work_out(&mut self, own: usize, now: usize) -> Option<i64> {
        let value = match self.equations[own] {
            Equation::Input => self.inputs[self.input_count * now + self.positions[own]],
            Equation::Constant { k } => i64::from(k),
            Equation::Not { a } => self.visit(a, now)? ^ 1,
            Equation::And { a, b } => self.visit(a, now)? & self.visit(b, now)?,
            Equation::Or { a, b } => self.visit(a, now)? | self.visit(b, now)?,
            Equation::Same { a, b } | Equation::Equal { a, b } => {
                i64::from(self.visit(a, now)? == self.visit(b, now)?)
            }
            Equation::Sum { a, b } => self.visit(a, now)?.checked_add(self.visit(b, now)?)?,
            Equation::Difference { a, b } => {
                self.visit(a, now)?.checked_sub(self.visit(b, now)?)?
            }
            Equation::Multiple { k, a } => self.visit(a, now)?.checked_mul(i64::from(k))?,
            Equation::AtMost { a, b } => i64::from(self.visit(a, now)? <= self.visit(b, now)?),
            Equation::Choice { a, b, c } => {
                let taken = if self.visit(c, now)? == 1 { a } else { b };
                self.visit(taken, now)?
            }
            Equation::Arrow { a, .. } | Equation::ArrowPre { a, .. } if now == 0 => {
                self.visit(a, now)?
            }
            Equation::Arrow { b, .. } => self.visit(b, now)?,
            Equation::ArrowPre { b, .. } => self.visit(b, now - 1)?,
            Equation::Lesser { a, b } => self.visit(a, now)?.min(self.visit(b, now)?),
            Equation::Greater { a, b } => self.visit(a, now)?.max(self.visit(b, now)?),
        };
        self.values[now][own] = value;
        self.is_known[now][own] = true;
        Some(value)
    }
}

/// The position of each input stream among the inputs of an instant; that of
/// any other stream is 0 and is not asked for.
fn positions(node: &Node) -> [usize; MAX_STREAMS] {
    let mut positions = [0; MAX_STREAMS];
    for (position, stream) in node.inputs().iter().enumerate() {
        positions[usize::from(*stream)] = position;
    }
    positions
}
