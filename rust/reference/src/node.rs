//! The node reader: refusals 1 to 8, and 23 between 6 and 7.

mod order;

use crate::answer::{Place, Refusal};
use order::Order;

/// Length of the trailer and of a record.
const BLOCK: usize = 16;
/// 01: "From 16 to 65,535 bytes."
const LONGEST: usize = 65_535;
/// 01: "u16 stream count n (1 to 64)".
pub const MAX_STREAMS: usize = 64;
/// The longest node file without a note: 64 records and the trailer.
pub const MAX_BODY: usize = BLOCK * MAX_STREAMS + BLOCK;
/// 01: "|K| is at most 1,000,000,000."
const MAX_CONSTANT: u32 = 1_000_000_000;

/// A stream's type. 01: "type byte (0 bool, 1 int)".
#[derive(Clone, Copy, Debug, PartialEq, Eq)]
pub enum Type {
    /// True or false, 1 or 0.
    Bool,
    /// A whole number.
    Int,
}

/// A decoded record, one case an operator; operands are stream numbers.
#[derive(Clone, Copy, Debug, PartialEq, Eq)]
pub enum Equation {
    /// 0: input.
    Input,
    /// 1: K (bool: 0 or 1).
    Constant {
        /// The constant K.
        k: i32,
    },
    /// 2: not a.
    Not {
        /// Operand a.
        a: u8,
    },
    /// 3: a and b.
    And {
        /// Operand a.
        a: u8,
        /// Operand b.
        b: u8,
    },
    /// 4: a or b.
    Or {
        /// Operand a.
        a: u8,
        /// Operand b.
        b: u8,
    },
    /// 5: a same as b.
    Same {
        /// Operand a.
        a: u8,
        /// Operand b.
        b: u8,
    },
    /// 6: a + b.
    Sum {
        /// Operand a.
        a: u8,
        /// Operand b.
        b: u8,
    },
    /// 7: a − b.
    Difference {
        /// Operand a.
        a: u8,
        /// Operand b.
        b: u8,
    },
    /// 8: K·a.
    Multiple {
        /// The constant K.
        k: i32,
        /// Operand a.
        a: u8,
    },
    /// 9: a at most b.
    AtMost {
        /// Operand a.
        a: u8,
        /// Operand b.
        b: u8,
    },
    /// 10: a equal to b.
    Equal {
        /// Operand a.
        a: u8,
        /// Operand b.
        b: u8,
    },
    /// 11: if c then a else b.
    Choice {
        /// Operand a.
        a: u8,
        /// Operand b.
        b: u8,
        /// Operand c.
        c: u8,
    },
    /// 12: a at instant 0, later b ("a -> b").
    Arrow {
        /// Operand a.
        a: u8,
        /// Operand b.
        b: u8,
    },
    /// 13: a at instant 0, later b one instant before ("a -> pre b").
    ArrowPre {
        /// Operand a.
        a: u8,
        /// Operand b.
        b: u8,
    },
    /// 14: lesser of a and b.
    Lesser {
        /// Operand a.
        a: u8,
        /// Operand b.
        b: u8,
    },
    /// 15: greater of a and b.
    Greater {
        /// Operand a.
        a: u8,
        /// Operand b.
        b: u8,
    },
}

/// A booking node: a node file that passed 1 to 8 and 23.
#[derive(Clone, Debug)]
pub struct Node<'a> {
    note: &'a [u8],
    body: &'a [u8],
    count: usize,
    property: u8,
    types: [Type; MAX_STREAMS],
    equations: [Equation; MAX_STREAMS],
    inputs: [u8; MAX_STREAMS],
    input_count: usize,
    order: Order,
}

impl<'a> Node<'a> {
    /// 01: "Bytes before record 0 are a note".
    pub fn note(&self) -> &'a [u8] {
        self.note
    }

    /// The file without its note: records and trailer, at most
    /// [`MAX_BODY`] bytes.
    pub fn body(&self) -> &'a [u8] {
        self.body
    }

    /// The number of streams, n.
    pub fn count(&self) -> usize {
        self.count
    }

    /// The property stream.
    pub fn property(&self) -> u8 {
        self.property
    }

    /// Each stream's type.
    pub fn types(&self) -> &[Type] {
        &self.types[..self.count]
    }

    /// Each stream's equation.
    pub fn equations(&self) -> &[Equation] {
        &self.equations[..self.count]
    }

    /// The input streams, in record order.
    pub fn inputs(&self) -> &[u8] {
        &self.inputs[..self.input_count]
    }

    /// The streams in the order in which an instant works them out: each
    /// after those that it needs now.
    pub fn order(&self) -> &[u8] {
        &self.order[..self.count]
    }

    /// The type of stream `number`, if there is such a stream.
    pub fn type_of(&self, number: u16) -> Option<Type> {
        self.types().get(usize::from(number)).copied()
    }
}

/// What an operand's type must be.
#[derive(Clone, Copy)]
enum Wanted {
    Is(Type),
    /// "as s": the type of the record's own stream.
    AsResult,
}

/// How a row reads one operand.
#[derive(Clone, Copy)]
enum Operand {
    Unused,
    /// 01: "All are needed now, except b of operator 13."
    Now(Wanted),
    Before(Wanted),
}

/// One row of the operator table.
struct Row {
    /// The type of s where the operator fixes it.
    result: Option<Type>,
    /// How a, b and c are read.
    operands: [Operand; 3],
}

impl Row {
    const fn new(result: Option<Type>, a: Operand, b: Operand, c: Operand) -> Self {
        let operands = [a, b, c];
        Row { result, operands }
    }
}

/// 01: "Which operands each operator reads stands in a fixed table."
const ROWS: [Row; 16] = {
    use Operand::{Before, Now, Unused};
    use Wanted::{AsResult, Is};
    const BOOL: Option<Type> = Some(Type::Bool);
    const INT: Option<Type> = Some(Type::Int);
    let bool_now = Now(Is(Type::Bool));
    let int_now = Now(Is(Type::Int));
    let same_now = Now(AsResult);
    [
        Row::new(None, Unused, Unused, Unused),
        Row::new(None, Unused, Unused, Unused),
        Row::new(BOOL, bool_now, Unused, Unused),
        Row::new(BOOL, bool_now, bool_now, Unused),
        Row::new(BOOL, bool_now, bool_now, Unused),
        Row::new(BOOL, bool_now, bool_now, Unused),
        Row::new(INT, int_now, int_now, Unused),
        Row::new(INT, int_now, int_now, Unused),
        Row::new(INT, int_now, Unused, Unused),
        Row::new(BOOL, int_now, int_now, Unused),
        Row::new(BOOL, int_now, int_now, Unused),
        Row::new(None, same_now, same_now, bool_now),
        Row::new(None, same_now, same_now, Unused),
        Row::new(None, same_now, Before(AsResult), Unused),
        Row::new(INT, int_now, int_now, Unused),
        Row::new(INT, int_now, int_now, Unused),
    ]
};

/// The trailer's fields beside its fixed bytes.
struct Trailer {
    count: u16,
    property: u16,
    distance: u32,
}

impl Trailer {
    /// Refusal 2: "trailer's fixed bytes", which are 0x4C, 0x4E, version 1,
    /// 0 in front and four zero bytes at the end.
    fn decode(bytes: &[u8; BLOCK]) -> Result<Self, Refusal> {
        let [0x4C, 0x4E, 1, 0, n0, n1, p0, p1, d0, d1, d2, d3, 0, 0, 0, 0] = *bytes else {
            return Err(Refusal::file(2));
        };
        Ok(Trailer {
            count: u16::from_le_bytes([n0, n1]),
            property: u16::from_le_bytes([p0, p1]),
            distance: u32::from_le_bytes([d0, d1, d2, d3]),
        })
    }
}

/// A record's fields as they stand in the file.
#[derive(Clone, Copy)]
struct Fields {
    operator: u8,
    type_byte: u8,
    operands: [u16; 3],
    k: i32,
    zeros: [u8; 4],
}

impl Fields {
    const ZERO: Fields = Fields {
        operator: 0,
        type_byte: 0,
        operands: [0; 3],
        k: 0,
        zeros: [0; 4],
    };

    /// 01: "operator byte, type byte (0 bool, 1 int), u16 operands a, b, c,
    /// i32 constant K, four zero bytes".
    fn decode(bytes: &[u8; BLOCK]) -> Self {
        let [operator, type_byte, a0, a1, b0, b1, c0, c1, k0, k1, k2, k3, zeros @ ..] = *bytes;
        Fields {
            operator,
            type_byte,
            operands: [[a0, a1], [b0, b1], [c0, c1]].map(u16::from_le_bytes),
            k: i32::from_le_bytes([k0, k1, k2, k3]),
            zeros,
        }
    }

    /// The operator's row, if the operator is not over 15.
    fn row(&self) -> Option<&'static Row> {
        ROWS.get(usize::from(self.operator))
    }

    /// The stream's type, once the type byte is known not to be over 1.
    fn result(&self) -> Type {
        match self.type_byte {
            0 => Type::Bool,
            _ => Type::Int,
        }
    }

    /// The operands with the way the row reads each.
    fn uses(&self, row: &Row) -> impl Iterator<Item = (Operand, u16)> {
        row.operands.into_iter().zip(self.operands)
    }

    /// K's rule: 0 or 1 for a bool constant, at most 1,000,000,000 from 0
    /// where operators 1 and 8 use it, and an unused field elsewhere.
    fn constant_is_allowed(&self) -> bool {
        match (self.operator, self.type_byte) {
            (1, 0) => matches!(self.k, 0 | 1),
            (1 | 8, _) => self.k.unsigned_abs() <= MAX_CONSTANT,
            _ => self.k == 0,
        }
    }

    /// Refusal 5: "operator over 13, type byte over 1, K against its rule,
    /// unused field not 0". 02: "5 now says over 15".
    fn is_well_formed(&self) -> bool {
        let Some(row) = self.row() else {
            return false;
        };
        self.type_byte <= 1
            && self.constant_is_allowed()
            && self.zeros == [0; 4]
            && self
                .uses(row)
                .all(|(operand, stream)| !matches!(operand, Operand::Unused) || stream == 0)
    }

    /// Refusal 6: "operand not below n". 02: "Condition 6 keeps only “not
    /// below n”."
    fn reads_existing_streams(&self, count: usize) -> bool {
        let Some(row) = self.row() else {
            return false;
        };
        self.uses(row).all(|(operand, stream)| match operand {
            Operand::Unused => true,
            Operand::Now(_) | Operand::Before(_) => usize::from(stream) < count,
        })
    }

    /// The streams that a record needs now, one bit a stream. It passed 6: they
    /// are below 64.
    fn needed_now(&self) -> u64 {
        let Some(row) = self.row() else {
            return 0;
        };
        self.uses(row).fold(0, |needed, read| match read {
            (Operand::Now(_), stream) => needed | 1 << stream,
            _ => needed,
        })
    }

    /// Refusal 7: "type byte or operand type not the operator's".
    fn is_well_typed(&self, records: &[Fields]) -> bool {
        let Some(row) = self.row() else {
            return false;
        };
        let own = self.result();
        let has_type = |wanted: Wanted, stream: u16| {
            let wanted = match wanted {
                Wanted::Is(fixed) => fixed,
                Wanted::AsResult => own,
            };
            let operand = records.get(usize::from(stream));
            operand.is_some_and(|record| record.result() == wanted)
        };
        row.result.is_none_or(|fixed| fixed == own)
            && self.uses(row).all(|(operand, stream)| match operand {
                Operand::Unused => true,
                Operand::Now(wanted) | Operand::Before(wanted) => has_type(wanted, stream),
            })
    }

    /// The equation of a record that passed 5 and 6: its operands are then
    /// below 64 and its operator is not over 15.
    fn equation(&self) -> Equation {
        let [a, b, c] = self.operands.map(|stream| stream.to_le_bytes()[0]);
        let k = self.k;
        match self.operator {
            0 => Equation::Input,
            1 => Equation::Constant { k },
            2 => Equation::Not { a },
            3 => Equation::And { a, b },
            4 => Equation::Or { a, b },
            5 => Equation::Same { a, b },
            6 => Equation::Sum { a, b },
            7 => Equation::Difference { a, b },
            8 => Equation::Multiple { k, a },
            9 => Equation::AtMost { a, b },
            10 => Equation::Equal { a, b },
            11 => Equation::Choice { a, b, c },
            12 => Equation::Arrow { a, b },
            13 => Equation::ArrowPre { a, b },
            14 => Equation::Lesser { a, b },
            _ => Equation::Greater { a, b },
        }
    }
}

/// Refuses the lowest record that is not `right`. 01: "Checks run down the
/// table, each over all its records first".
fn each_record(
    records: &[Fields],
    number: u8,
    right: impl Fn(usize, &Fields) -> bool,
) -> Result<(), Refusal> {
    match records.iter().enumerate().find(|(i, r)| !right(*i, r)) {
        Some((i, _)) => Err(Refusal::new(number, Place::Record(i))),
        None => Ok(()),
    }
}

/// Refusals 5 to 8 over the records, and 23 "after 6 and before 7". Rule 8,
/// "property not bool", has the property's record as its place. Gives the
/// order of the streams.
fn check_records(records: &[Fields], property: usize) -> Result<Order, Refusal> {
    let count = records.len();
    each_record(records, 5, |_, r| r.is_well_formed())?;
    each_record(records, 6, |_, r| r.reads_existing_streams(count))?;
    let order = order_of(records)?;
    each_record(records, 7, |_, r| r.is_well_typed(records))?;
    each_record(records, 8, |i, r| i != property || r.result() == Type::Bool)?;
    Ok(order)
}

/// The order of records that passed 6, or refusal 23: "no such order, with the
/// lowest record never placed".
fn order_of(records: &[Fields]) -> Result<Order, Refusal> {
    let mut needed = [0; MAX_STREAMS];
    for (slot, record) in needed.iter_mut().zip(records) {
        *slot = record.needed_now();
    }
    let order = order::of(&needed[..records.len()]);
    order.map_err(|lowest| Refusal::new(23, Place::Record(lowest)))
}

/// A node file cut at its trailer and at record 0: refusals 1 to 4.
struct Layout<'a> {
    note: &'a [u8],
    body: &'a [u8],
    records: &'a [[u8; BLOCK]],
    property: u16,
}

impl<'a> Layout<'a> {
    fn read(file: &'a [u8]) -> Result<Self, Refusal> {
        let (front, trailer) = match file.split_last_chunk::<BLOCK>() {
            Some(parts) if file.len() <= LONGEST => parts,
            _ => return Err(Refusal::file(1)),
        };
        let trailer = Trailer::decode(trailer)?;
        let count = usize::from(trailer.count);
        if !(1..=MAX_STREAMS).contains(&count) || trailer.property >= trailer.count {
            return Err(Refusal::file(3));
        }
        let start = record_0(file, count, trailer.distance).ok_or(Refusal::file(4))?;
        let (note, body) = file.split_at(start);
        let records = front.get(start..).unwrap_or_default();
        Ok(Layout {
            note,
            body,
            records: records.as_chunks().0,
            property: trailer.property,
        })
    }
}

/// Where record 0 begins; nothing is refusal 4: "distance wrong or past the
/// start". The distance is "from the file's end back to record 0, which is
/// 16 + 16·n".
fn record_0(file: &[u8], count: usize, distance: u32) -> Option<usize> {
    let expected = BLOCK + BLOCK * count;
    if usize::try_from(distance) != Ok(expected) {
        return None;
    }
    file.len().checked_sub(expected)
}

/// Reads a node file, or refuses it by 1 to 8 or 23.
pub fn read(file: &[u8]) -> Result<Node<'_>, Refusal> {
    let layout = Layout::read(file)?;
    let mut fields = [Fields::ZERO; MAX_STREAMS];
    for (slot, record) in fields.iter_mut().zip(layout.records) {
        *slot = Fields::decode(record);
    }
    let count = layout.records.len().min(MAX_STREAMS);
    let records = &fields[..count];
    let order = check_records(records, usize::from(layout.property))?;
    Ok(decode(&layout, records, order))
}

/// The node of a layout whose records passed 5 to 8 and 23.
fn decode<'a>(layout: &Layout<'a>, records: &[Fields], order: Order) -> Node<'a> {
    let mut node = Node {
        note: layout.note,
        body: layout.body,
        count: records.len(),
        property: layout.property.to_le_bytes()[0],
        types: [Type::Bool; MAX_STREAMS],
        equations: [Equation::Input; MAX_STREAMS],
        inputs: [0; MAX_STREAMS],
        input_count: 0,
        order,
    };
    for ((number, record), i) in (0u8..).zip(records).zip(0..) {
        node.types[i] = record.result();
        node.equations[i] = record.equation();
        if node.equations[i] == Equation::Input {
            node.inputs[node.input_count] = number;
            node.input_count += 1;
        }
    }
    node
}

/// 01: "the note is handed back as a part of the caller's file, empty if 1 to
/// 8 refuse it". So it is if 23 does.
pub fn note(file: &[u8]) -> &[u8] {
    read(file).map_or(&[], |node| node.note())
}
