//! A tiny second session: 01's table read straight off the file's bytes, in
//! checked 128-bit arithmetic. A value is worked out when it is asked for, so
//! that no order is needed but to name the stream of 34. Whether bytes are a
//! node at all, 1 to 8 and 23, it asks another checker. [`look_up`] is over the
//! same table.

pub mod look_up;

use crate::checker::{Checker, Place, Record, Refusal, Shape};
use std::collections::BTreeSet;

/// A record's bytes, 16 a stream.
#[derive(Clone, Copy)]
struct Row<'a>(&'a [u8]);

impl Row<'_> {
    fn operator(&self) -> u8 {
        self.0[0]
    }

    fn is_bool(&self) -> bool {
        self.0[1] == 0
    }

    /// Whether the stream's type has this value.
    fn fits(&self, value: i64) -> bool {
        !self.is_bool() || value == 0 || value == 1
    }

    /// Operand a, b or c.
    fn operand(&self, which: usize) -> usize {
        let at = 2 + 2 * which;
        usize::from(self.0[at]) + 256 * usize::from(self.0[at + 1])
    }

    fn constant(&self) -> i128 {
        let bytes = self.0[8..12].try_into().expect("four bytes");
        i128::from(i32::from_le_bytes(bytes))
    }

    /// The operands needed now.
    fn needed_now(&self) -> impl Iterator<Item = usize> + '_ {
        let count = match self.operator() {
            0 | 1 => 0,
            2 | 8 | 13 => 1,
            11 => 3,
            _ => 2,
        };
        (0..count).map(|which| self.operand(which))
    }

    /// The value in the operator's row, of the operands that `at` gives: a stream's
    /// value, now or one instant before. Nothing where 64 bits do not hold one that
    /// is asked for; asked for are the condition and the branch taken, the operand
    /// that 12 and 13 choose, and all operands of the others.
    fn wide(&self, is_first: bool, mut at: impl FnMut(usize, When) -> Option<i64>) -> Option<i128> {
        let mut now = |which: usize| at(self.operand(which), When::Now).map(i128::from);
        let truth = |condition: bool| Some(i128::from(condition));
        match (self.operator(), is_first) {
            (1, _) => Some(self.constant()),
            (2, _) => truth(now(0)? == 0),
            (3, _) => truth(now(0)? + now(1)? == 2),
            (4, _) => truth(now(0)? + now(1)? > 0),
            (5 | 10, _) => truth(now(0)? == now(1)?),
            (6, _) => now(0)?.checked_add(now(1)?),
            (7, _) => now(0)?.checked_sub(now(1)?),
            (8, _) => self.constant().checked_mul(now(0)?),
            (9, _) => truth(now(0)? <= now(1)?),
            (11, _) if now(2)? == 1 => now(0),
            (11, _) => now(1),
            (14, _) => Some(now(0)?.min(now(1)?)),
            (15, _) => Some(now(0)?.max(now(1)?)),
            (_, true) => now(0),
            (12, false) => now(1),
            (_, false) => at(self.operand(1), When::Before).map(i128::from),
        }
    }
}

/// At which instant an operand is read.
#[derive(Clone, Copy, Debug, PartialEq, Eq)]
enum When {
    Now,
    Before,
}

/// The rows of a node file that passes 1 to 8 and 23.
fn rows(file: &[u8], shape: Shape) -> Vec<Row<'_>> {
    let records = &file[file.len() - 16 - 16 * shape.streams..file.len() - 16];
    records.chunks(16).map(Row).collect()
}

/// A beginning.
pub fn begin(by: &dyn Checker, record: &mut Record, file: &[u8]) -> Result<(), Refusal> {
    let shape = by.read(file)?;
    let body = &file[file.len() - 16 - 16 * shape.streams..];
    *record = Record::new();
    record.length = body.len();
    record.bytes[..body.len()].copy_from_slice(body);
    Ok(())
}

/// An instant's call, to the letter of 02: "a trial and its commit".
pub fn instant(
    by: &dyn Checker,
    record: &mut Record,
    inputs: &[i64],
    values: &mut [i64],
) -> Result<(), Refusal> {
    trial(by, record, inputs, values)?;
    commit(by, record)
}

/// A trial.
pub fn trial(
    by: &dyn Checker,
    record: &mut Record,
    inputs: &[i64],
    values: &mut [i64],
) -> Result<(), Refusal> {
    let now = worked_out(by, record, inputs, values.len())?;
    values.copy_from_slice(&now);
    let numbers = now.into_iter().chain(std::iter::repeat(0));
    record
        .trial
        .iter_mut()
        .zip(numbers)
        .for_each(|(to, now)| *to = now);
    record.held = true;
    Ok(())
}

/// A commit: 30, then 35.
pub fn commit(by: &dyn Checker, record: &mut Record) -> Result<(), Refusal> {
    held(by, record)?;
    if !record.held {
        return Err(Refusal::file(35));
    }
    record.last = std::mem::replace(&mut record.trial, [0; 64]);
    record.answered = true;
    record.held = false;
    Ok(())
}

/// The rows of the node in the record, or 30.
fn held<'a>(by: &dyn Checker, record: &'a Record) -> Result<Vec<Row<'a>>, Refusal> {
    let no_node = Refusal::file(30);
    let file = record.bytes.get(..record.length).ok_or(no_node)?;
    let rows = rows(file, by.read(file).map_err(|_| no_node)?);
    for (is_kept, values) in [
        (record.answered, &record.last),
        (record.held, &record.trial),
    ] {
        if is_kept && !rows.iter().zip(values).all(|(row, value)| row.fits(*value)) {
            return Err(no_node);
        }
    }
    Ok(rows)
}

/// 30 to 34 in order, then the values.
fn worked_out(
    by: &dyn Checker,
    record: &Record,
    inputs: &[i64],
    room: usize,
) -> Result<Vec<i64>, Refusal> {
    let rows = held(by, record)?;
    let given = given(&rows);
    if inputs.len() != given.len() {
        return Err(Refusal::file(31));
    }
    if room != rows.len() {
        return Err(Refusal::file(32));
    }
    fit(&rows, &given, inputs)?;
    let mut known = vec![None; rows.len()];
    for (i, input) in given.into_iter().zip(inputs) {
        known[i] = Some(Some(*input));
    }
    let mut instant = Instant {
        rows: &rows,
        record,
        known,
    };
    let values: Option<Vec<i64>> = (0..rows.len()).map(|i| instant.value(i)).collect();
    values.ok_or_else(|| {
        let mut streams = order(&rows).into_iter();
        let first = streams.find(|i| instant.value(*i).is_none());
        Refusal::new(34, Place::Record(first.expect("one of them")))
    })
}

/// The input streams.
fn given(rows: &[Row]) -> Vec<usize> {
    let is_input = |i: &usize| rows[*i].operator() == 0;
    (0..rows.len()).filter(is_input).collect()
}

/// 33 of one instant's inputs.
fn fit(rows: &[Row], given: &[usize], inputs: &[i64]) -> Result<(), Refusal> {
    let mut pairs = given.iter().zip(inputs);
    match pairs.find(|(i, input)| !rows[**i].fits(**input)) {
        Some((i, _)) => Err(Refusal::new(33, Place::Record(*i))),
        None => Ok(()),
    }
}

/// An instant being worked out.
struct Instant<'a> {
    rows: &'a [Row<'a>],
    record: &'a Record,
    /// What was asked for already, inputs from the start: a value, or none
    /// where 64 bits do not hold it or one that it is made of.
    known: Vec<Option<Option<i64>>>,
}

impl Instant<'_> {
    fn value(&mut self, stream: usize) -> Option<i64> {
        if let Some(value) = self.known[stream] {
            return value;
        }
        let record = self.record;
        let value = self.rows[stream].wide(!record.answered, |operand, when| match when {
            When::Now => self.value(operand),
            When::Before => Some(record.last[operand]),
        });
        let value = value.and_then(|value| i64::try_from(value).ok());
        self.known[stream] = Some(value);
        value
    }
}

/// 02's order, by what each record still waits for: what is ready stands in a
/// set, of which the lowest is next.
fn order(rows: &[Row]) -> Vec<usize> {
    let mut waits: Vec<usize> = rows.iter().map(|row| row.needed_now().count()).collect();
    let mut ready: BTreeSet<usize> = (0..rows.len()).filter(|i| waits[*i] == 0).collect();
    let mut order = Vec::with_capacity(rows.len());
    while let Some(next) = ready.pop_first() {
        order.push(next);
        for (i, row) in rows.iter().enumerate() {
            let met = row.needed_now().filter(|operand| *operand == next).count();
            waits[i] -= met;
            if met > 0 && waits[i] == 0 {
                ready.insert(i);
            }
        }
    }
    order
}
