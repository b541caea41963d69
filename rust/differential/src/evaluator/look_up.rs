//! A look-up by the same table: what is asked for is what is visited, so that a
//! value outside is met just where 02 says 34.

use super::{fit, given, rows, Row, When};
use crate::checker::{Checker, History, Place, Refusal};
use std::collections::BTreeMap;

/// 02: "From a history of up to 16 instants".
const MOST: usize = 16;

/// What a look-up comes to.
#[derive(Clone, Copy, Debug, PartialEq, Eq)]
pub struct LookedUp {
    /// The value or the refusal.
    pub answer: Result<i64, Refusal>,
    /// How many streams were visited, each at one instant.
    pub visited: usize,
}

/// The value of a stream at an instant.
pub fn look_up(by: &dyn Checker, history: History, stream: usize, instant: usize) -> LookedUp {
    let mut known = Known::new();
    let answer = answer(by, history, (stream, instant), &mut known);
    LookedUp {
        answer,
        visited: known.len(),
    }
}

/// The values of streams at instants that were asked for: nothing where 64 bits
/// do not hold one, or one that it is made of.
type Known = BTreeMap<(usize, usize), Option<i64>>;

/// The node's own refusals, 31, 33, 65 and 34, or the value.
fn answer(
    by: &dyn Checker,
    history: History,
    (stream, instant): (usize, usize),
    known: &mut Known,
) -> Result<i64, Refusal> {
    let History {
        node,
        instants,
        inputs,
    } = history;
    let rows = rows(node, by.read(node)?);
    let given = given(&rows);
    if given.len() as u128 * instants as u128 != inputs.len() as u128 {
        return Err(Refusal::file(31));
    }
    for own in inputs.chunks(given.len().max(1)) {
        fit(&rows, &given, own)?;
    }
    if instants > MOST || stream >= rows.len() || instant >= instants {
        return Err(Refusal::file(65));
    }
    let mut pass = Pass {
        rows: &rows,
        given: &given,
        inputs,
        known,
    };
    let outside = Refusal::new(34, Place::Record(stream));
    pass.value(stream, instant).ok_or(outside)
}

/// A short pass being followed down.
struct Pass<'a> {
    rows: &'a [Row<'a>],
    given: &'a [usize],
    inputs: &'a [i64],
    known: &'a mut Known,
}

impl Pass<'_> {
    fn value(&mut self, stream: usize, instant: usize) -> Option<i64> {
        if let Some(value) = self.known.get(&(stream, instant)) {
            return *value;
        }
        let value = self.worked_out(stream, instant);
        self.known.insert((stream, instant), value);
        value
    }

    fn worked_out(&mut self, stream: usize, instant: usize) -> Option<i64> {
        if let Ok(place) = self.given.binary_search(&stream) {
            return Some(self.inputs[self.given.len() * instant + place]);
        }
        let value = self.rows[stream].wide(instant == 0, |operand, when| match when {
            When::Now => self.value(operand, instant),
            When::Before => self.value(operand, instant - 1),
        });
        i64::try_from(value?).ok()
    }
}
