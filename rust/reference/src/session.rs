//! A session: a node run instant by instant, with trials, refusals 30 to 35.

use crate::answer::{Place, Refusal};
use crate::node::{self, Equation, Node, Type, MAX_BODY, MAX_STREAMS};
use crate::wide;

/// One value for each of 64 streams, of which a node uses the first n.
type Values = [i64; MAX_STREAMS];

/// The session record. 01: "The caller lends the session record, and an
/// answered instant moves that very record on."
///
/// The fields are open, so a caller may lend anything: an instant's call, a
/// trial and a commit check their record anew each time.
#[derive(Clone, Debug, PartialEq, Eq)]
pub struct Record {
    /// The length of the node file held; over 1,040 no node is held.
    pub length: usize,
    /// The node file without its note, zeros after it.
    pub bytes: [u8; MAX_BODY],
    /// Whether an instant was committed, by an instant's call too: the session
    /// is past instant 0.
    pub answered: bool,
    /// The values of the last committed instant; zeros before instant 0.
    pub last: Values,
    /// Whether a trial is held.
    pub held: bool,
    /// The values of the held trial; zeros where none is held.
    pub trial: Values,
}

impl Record {
    /// A record that holds no node.
    pub const fn new() -> Self {
        Record {
            length: 0,
            bytes: [0; MAX_BODY],
            answered: false,
            last: [0; MAX_STREAMS],
            held: false,
            trial: [0; MAX_STREAMS],
        }
    }

    /// The node held; nothing is the first half of refusal 30: "record holds
    /// no node passing 1 to 8". 02 has 23 "part of 30's condition".
    fn node(&self) -> Option<Node<'_>> {
        node::read(self.bytes.get(..self.length)?).ok()
    }

    /// The values one instant before, if there is such an instant. A held trial
    /// is none.
    fn before(&self) -> Option<&Values> {
        self.answered.then_some(&self.last)
    }

    /// Moves on to an instant with these values, and holds no trial.
    fn advance(&mut self, now: &Values) {
        self.last = *now;
        self.answered = true;
        self.trial = [0; MAX_STREAMS];
        self.held = false;
    }
}

impl Default for Record {
    fn default() -> Self {
        Record::new()
    }
}

/// 01: "Beginning takes a node file, checked by 1 to 8, and sets the record
/// to its node, before instant 0." It is checked by 23 too. No trial is held
/// then.
pub fn begin(record: &mut Record, file: &[u8]) -> Result<(), Refusal> {
    let node = node::read(file)?;
    let body = node.body();
    *record = Record::new();
    record.length = body.len();
    for (byte, from) in record.bytes.iter_mut().zip(body) {
        *byte = *from;
    }
    Ok(())
}

/// 01: "An instant's call takes one signed 64-bit number an input, in record
/// order (bool: 0 or 1), and fills a lent slice of n values." 02: "The old call
/// means a trial and its commit."
pub fn instant(record: &mut Record, inputs: &[i64], values: &mut [i64]) -> Result<(), Refusal> {
    let mut now = [0; MAX_STREAMS];
    fill(record, inputs, &mut now, values)?;
    record.advance(&now);
    Ok(())
}

/// 02: "Trial fills the value slice and keeps the values in the session without
/// advancing." And: "A second trial replaces the first, and a refused trial
/// keeps the earlier one."
pub fn trial(record: &mut Record, inputs: &[i64], values: &mut [i64]) -> Result<(), Refusal> {
    let mut now = [0; MAX_STREAMS];
    fill(record, inputs, &mut now, values)?;
    record.trial = now;
    record.held = true;
    Ok(())
}

/// 02: "Commit advances to the last trial and then, like beginning, holds
/// none." Refusal 35: "commit with no trial held, after 30".
pub fn commit(record: &mut Record) -> Result<(), Refusal> {
    checked_node(record)?;
    if !record.held {
        return Err(Refusal::file(35));
    }
    let now = record.trial;
    record.advance(&now);
    Ok(())
}

/// Refusals 30 to 34; else `now`, lent as zeros, and the slice take the values
/// on the committed inputs and these.
///
/// A refusal is met before the slice is written, and the record waits for the
/// answer.
fn fill(
    record: &Record,
    inputs: &[i64],
    now: &mut Values,
    values: &mut [i64],
) -> Result<(), Refusal> {
    let node = checked_node(record)?;
    check_lengths(&node, inputs, values)?;
    check_inputs(&node, inputs)?;
    work_out(&node, record.before(), inputs, now)?;
    values.copy_from_slice(&now[..node.count()]);
    Ok(())
}

/// Refusal 30: "record holds no node passing 1 to 8, or, past instant 0, a
/// bool of the last answered instant is not 0 or 1"; 23 is as 1 to 8 are. 02:
/// it "looks at a held trial's bools too".
fn checked_node(record: &Record) -> Result<Node<'_>, Refusal> {
    let node = record.node().ok_or(Refusal::file(30))?;
    let in_type = |(kind, value): (&Type, &i64)| *kind == Type::Int || is_bool(*value);
    let are_typed = |values: &Values| node.types().iter().zip(values).all(in_type);
    let held = record.held.then_some(&record.trial);
    if record.before().is_none_or(are_typed) && held.is_none_or(are_typed) {
        Ok(node)
    } else {
        Err(Refusal::file(30))
    }
}

/// Refusals 31 and 32: "input count; value slice length".
fn check_lengths(node: &Node, inputs: &[i64], values: &[i64]) -> Result<(), Refusal> {
    if inputs.len() != node.inputs().len() {
        return Err(Refusal::file(31));
    }
    if values.len() != node.count() {
        return Err(Refusal::file(32));
    }
    Ok(())
}

/// Refusal 33: "bool input not 0 or 1; lowest record".
pub(crate) fn check_inputs(node: &Node, inputs: &[i64]) -> Result<(), Refusal> {
    for (&stream, &input) in node.inputs().iter().zip(inputs) {
        let stream = usize::from(stream);
        if node.types()[stream] == Type::Bool && !is_bool(input) {
            return Err(Refusal::new(33, Place::Record(stream)));
        }
    }
    Ok(())
}

fn is_bool(value: i64) -> bool {
    matches!(value, 0 | 1)
}

/// 01: "All n streams are worked out, untaken branches too." Refusal 34:
/// "value outside −2^63 to 2^63 − 1". 02: "34 names the first stream in the
/// worked-out order".
fn work_out(
    node: &Node,
    before: Option<&Values>,
    inputs: &[i64],
    now: &mut Values,
) -> Result<(), Refusal> {
    for (&stream, &input) in node.inputs().iter().zip(inputs) {
        now[usize::from(stream)] = input;
    }
    for i in node.order().iter().copied().map(usize::from) {
        let value = value(i, node.equations()[i], now, before);
        now[i] = wide::narrow(value).ok_or(Refusal::new(34, Place::Record(i)))?;
    }
    Ok(())
}

/// Stream `own`'s value in its operator's row, however wide. The operands
/// needed now come before it in the order, so `now` has them, as it has every
/// input.
fn value(own: usize, equation: Equation, now: &Values, before: Option<&Values>) -> i128 {
    let at = |stream: u8| now[usize::from(stream)];
    let fitting = match equation {
        Equation::Sum { a, b } => return wide::sum(at(a), at(b)),
        Equation::Difference { a, b } => return wide::difference(at(a), at(b)),
        Equation::Multiple { k, a } => return wide::product(k, at(a)),
        Equation::Input => now[own],
        Equation::Constant { k } => i64::from(k),
        Equation::Not { a } => at(a) ^ 1,
        Equation::And { a, b } => at(a) & at(b),
        Equation::Or { a, b } => at(a) | at(b),
        Equation::Same { a, b } | Equation::Equal { a, b } => i64::from(at(a) == at(b)),
        Equation::AtMost { a, b } => i64::from(at(a) <= at(b)),
        Equation::Choice { a, b, c } => at(if at(c) == 1 { a } else { b }),
        Equation::Arrow { a, b } => at(if before.is_none() { a } else { b }),
        Equation::ArrowPre { a, b } => before.map_or(at(a), |last| last[usize::from(b)]),
        Equation::Lesser { a, b } => at(a).min(at(b)),
        Equation::Greater { a, b } => at(a).max(at(b)),
    };
    i128::from(fitting)
}
