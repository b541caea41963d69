//! Writers of node and certificate files, for tests.
//!
//! They write what they are given, right or wrong, and share no code with
//! the readers. [`proof`] keeps a part's lines and works out joins,
//! [`search`] finds certificates, [`multiples`] writes some by cuts,
//! [`factors`] multiplies constraints through and [`orders`] has some that
//! are, [`renumber`] puts records into another order, [`random`] draws nodes
//! and damages files.

pub mod factors;
pub mod multiples;
pub mod orders;
pub mod proof;
pub mod random;
pub mod renumber;
pub mod search;

/// The version byte of a right certificate.
pub const VERSION: u8 = 2;
/// The type byte of a bool stream.
pub const BOOL: u8 = 0;
/// The type byte of an int stream.
pub const INT: u8 = 1;

/// A record of a node file, field by field.
#[derive(Clone, Copy, Debug, Default, PartialEq, Eq)]
pub struct Record {
    /// The operator byte.
    pub operator: u8,
    /// The type byte.
    pub type_byte: u8,
    /// Operand a.
    pub a: u16,
    /// Operand b.
    pub b: u16,
    /// Operand c.
    pub c: u16,
    /// The constant K.
    pub k: i32,
    /// The four zero bytes.
    pub zeros: [u8; 4],
}

impl Record {
    const fn new(operator: u8, type_byte: u8, [a, b, c]: [u16; 3], k: i32) -> Self {
        Record {
            operator,
            type_byte,
            a,
            b,
            c,
            k,
            zeros: [0; 4],
        }
    }

    /// Operator 0.
    pub const fn input(type_byte: u8) -> Self {
        Record::new(0, type_byte, [0; 3], 0)
    }

    /// Operator 1.
    pub const fn constant(type_byte: u8, k: i32) -> Self {
        Record::new(1, type_byte, [0; 3], k)
    }

    /// Operator 2, not a.
    pub const fn not(a: u16) -> Self {
        Record::new(2, BOOL, [a, 0, 0], 0)
    }

    /// Operator 3, a and b.
    pub const fn and(a: u16, b: u16) -> Self {
        Record::new(3, BOOL, [a, b, 0], 0)
    }

    /// Operator 4, a or b.
    pub const fn or(a: u16, b: u16) -> Self {
        Record::new(4, BOOL, [a, b, 0], 0)
    }

    /// Operator 5, a same as b.
    pub const fn same(a: u16, b: u16) -> Self {
        Record::new(5, BOOL, [a, b, 0], 0)
    }

    /// Operator 6, a + b.
    pub const fn sum(a: u16, b: u16) -> Self {
        Record::new(6, INT, [a, b, 0], 0)
    }

    /// Operator 7, a − b.
    pub const fn difference(a: u16, b: u16) -> Self {
        Record::new(7, INT, [a, b, 0], 0)
    }

    /// Operator 8, K·a.
    pub const fn multiple(k: i32, a: u16) -> Self {
        Record::new(8, INT, [a, 0, 0], k)
    }

    /// Operator 9, a at most b.
    pub const fn at_most(a: u16, b: u16) -> Self {
        Record::new(9, BOOL, [a, b, 0], 0)
    }

    /// Operator 10, a equal to b.
    pub const fn equal(a: u16, b: u16) -> Self {
        Record::new(10, BOOL, [a, b, 0], 0)
    }

    /// Operator 11, if c then a else b.
    pub const fn choice(type_byte: u8, c: u16, a: u16, b: u16) -> Self {
        Record::new(11, type_byte, [a, b, c], 0)
    }

    /// Operator 12, a -> b.
    pub const fn arrow(type_byte: u8, a: u16, b: u16) -> Self {
        Record::new(12, type_byte, [a, b, 0], 0)
    }

    /// Operator 13, a -> pre b.
    pub const fn arrow_pre(type_byte: u8, a: u16, b: u16) -> Self {
        Record::new(13, type_byte, [a, b, 0], 0)
    }

    /// Operator 14, lesser of a and b.
    pub const fn lesser(a: u16, b: u16) -> Self {
        Record::new(14, INT, [a, b, 0], 0)
    }

    /// Operator 15, greater of a and b.
    pub const fn greater(a: u16, b: u16) -> Self {
        Record::new(15, INT, [a, b, 0], 0)
    }

    /// The record's 16 bytes.
    pub fn bytes(&self) -> Vec<u8> {
        let mut bytes = vec![self.operator, self.type_byte];
        for operand in [self.a, self.b, self.c] {
            bytes.extend(operand.to_le_bytes());
        }
        bytes.extend(self.k.to_le_bytes());
        bytes.extend(self.zeros);
        bytes
    }
}

/// A node file.
#[derive(Clone, Debug, Default, PartialEq, Eq)]
pub struct NodeFile {
    /// The note in front.
    pub note: Vec<u8>,
    /// The records.
    pub records: Vec<Record>,
    /// The property stream.
    pub property: u16,
}

impl NodeFile {
    /// A file without a note.
    pub fn new(records: Vec<Record>, property: u16) -> Self {
        NodeFile {
            note: Vec::new(),
            records,
            property,
        }
    }

    /// The file's bytes.
    pub fn bytes(&self) -> Vec<u8> {
        let mut bytes = self.note.clone();
        bytes.extend(self.records.iter().flat_map(Record::bytes));
        bytes.extend([0x4C, 0x4E, 1, 0]);
        bytes.extend(count(self.records.len()));
        bytes.extend(self.property.to_le_bytes());
        bytes.extend(distance(16, self.records.len()));
        bytes.extend([0; 4]);
        bytes
    }
}

/// A count as the trailers write it.
fn count(length: usize) -> [u8; 2] {
    u16::try_from(length).unwrap_or(u16::MAX).to_le_bytes()
}

/// The distance back over the trailer and `length` blocks of `size` bytes.
fn distance(size: usize, length: usize) -> [u8; 4] {
    let distance = u32::try_from(16 + size * length);
    distance.unwrap_or(u32::MAX).to_le_bytes()
}

/// A term of a constraint.
#[derive(Clone, Copy, Debug, Default, PartialEq, Eq)]
pub struct Term {
    /// The stream.
    pub stream: u16,
    /// The offset.
    pub offset: u8,
    /// The zero byte.
    pub zero: u8,
    /// The coefficient.
    pub coefficient: i32,
}

impl Term {
    /// The coefficient times the stream at the offset.
    pub const fn new(stream: u16, offset: u8, coefficient: i32) -> Self {
        Term {
            stream,
            offset,
            zero: 0,
            coefficient,
        }
    }

    /// The term's eight bytes.
    pub fn bytes(&self) -> Vec<u8> {
        let mut bytes = self.stream.to_le_bytes().to_vec();
        bytes.extend([self.offset, self.zero]);
        bytes.extend(self.coefficient.to_le_bytes());
        bytes
    }
}

/// A constraint, field by field.
#[derive(Clone, Copy, Debug, Default, PartialEq, Eq)]
pub struct Constraint {
    /// The term count.
    pub count: u8,
    /// The seven zero bytes.
    pub zeros: [u8; 7],
    /// The bound.
    pub bound: i64,
    /// The eight terms.
    pub terms: [Term; 8],
}

impl Constraint {
    /// The constraint with these terms, each a stream, an offset and a
    /// coefficient, at most eight of them.
    pub fn new(terms: &[(u16, u8, i32)], bound: i64) -> Self {
        let mut constraint = Constraint {
            count: u8::try_from(terms.len()).unwrap_or(u8::MAX),
            bound,
            ..Constraint::default()
        };
        for (slot, (stream, offset, coefficient)) in constraint.terms.iter_mut().zip(terms) {
            *slot = Term::new(*stream, *offset, *coefficient);
        }
        constraint
    }

    /// The constraint's 80 bytes.
    pub fn bytes(&self) -> Vec<u8> {
        let mut bytes = vec![self.count];
        bytes.extend(self.zeros);
        bytes.extend(self.bound.to_le_bytes());
        bytes.extend(self.terms.iter().flat_map(Term::bytes));
        bytes
    }
}

/// The literal of a bool stream at an offset.
pub const fn lit(stream: u16, offset: u16) -> u16 {
    2 * (64 * offset + stream)
}

/// The literal of constraint i.
pub const fn on(i: u16) -> u16 {
    2 * (576 + i)
}

/// A literal's opposite.
pub const fn opp(literal: u16) -> u16 {
    literal ^ 1
}

/// A line, field by field.
#[derive(Clone, Copy, Debug, Default, PartialEq, Eq)]
pub struct Line {
    /// The kind byte.
    pub kind: u8,
    /// The literal count byte.
    pub count: u8,
    /// Field p.
    pub p: u16,
    /// Field q.
    pub q: u16,
    /// Field r.
    pub r: u16,
    /// The twelve literals.
    pub literals: [u16; 12],
    /// The twelve multipliers.
    pub multipliers: [u32; 12],
}

impl Line {
    fn new(kind: u8, [p, q, r]: [u16; 3], literals: &[u16]) -> Self {
        let mut line = Line {
            kind,
            count: u8::try_from(literals.len()).unwrap_or(u8::MAX),
            p,
            q,
            r,
            ..Line::default()
        };
        for (slot, literal) in line.literals.iter_mut().zip(literals) {
            *slot = *literal;
        }
        line
    }

    /// Kind 1: clause r of stream p at offset q.
    pub fn equation(p: u16, q: u16, r: u16, literals: &[u16]) -> Self {
        Line::new(1, [p, q, r], literals)
    }

    /// Kind 2.
    pub fn property(q: u16, literals: &[u16]) -> Self {
        Line::new(2, [0, q, 0], literals)
    }

    /// Kind 3: lines p and q joined on literal r.
    pub fn join(p: u16, q: u16, r: u16, literals: &[u16]) -> Self {
        Line::new(3, [p, q, r], literals)
    }

    /// Kind 4, each literal with its multiplier.
    pub fn arithmetic(weighted: &[(u16, u32)]) -> Self {
        Line::weighted(4, 0, weighted)
    }

    /// Kind 5: the cut by r, each literal with its multiplier, that of the
    /// last, the constraint which is cut out, among them.
    pub fn cut(r: u16, weighted: &[(u16, u32)]) -> Self {
        Line::weighted(5, r, weighted)
    }

    fn weighted(kind: u8, r: u16, weighted: &[(u16, u32)]) -> Self {
        let literals: Vec<u16> = weighted.iter().map(|(literal, _)| *literal).collect();
        let mut line = Line::new(kind, [0, 0, r], &literals);
        for (slot, (_, multiplier)) in line.multipliers.iter_mut().zip(weighted) {
            *slot = *multiplier;
        }
        line
    }

    /// The listed literals.
    pub fn clause(&self) -> &[u16] {
        &self.literals[..usize::from(self.count).min(12)]
    }

    /// The line's 80 bytes.
    pub fn bytes(&self) -> Vec<u8> {
        let mut bytes = vec![self.kind, self.count];
        for field in [self.p, self.q, self.r] {
            bytes.extend(field.to_le_bytes());
        }
        bytes.extend(
            self.literals
                .iter()
                .flat_map(|literal| literal.to_le_bytes()),
        );
        bytes.extend(self.multipliers.iter().flat_map(|m| m.to_le_bytes()));
        bytes
    }
}

/// A certificate file.
#[derive(Clone, Debug, Default, PartialEq, Eq)]
pub struct CertificateFile {
    /// The note in front.
    pub note: Vec<u8>,
    /// The depth k.
    pub depth: u8,
    /// The constraints.
    pub constraints: Vec<Constraint>,
    /// The base lines.
    pub base: Vec<Line>,
    /// The step lines.
    pub step: Vec<Line>,
}

impl CertificateFile {
    /// The file's bytes.
    pub fn bytes(&self) -> Vec<u8> {
        self.bytes_of_version(VERSION)
    }

    /// The file's bytes with this version byte, right or wrong.
    pub fn bytes_of_version(&self, version: u8) -> Vec<u8> {
        let counts = [self.constraints.len(), self.base.len(), self.step.len()];
        let mut bytes = self.note.clone();
        bytes.extend(self.constraints.iter().flat_map(Constraint::bytes));
        bytes.extend(self.base.iter().flat_map(Line::bytes));
        bytes.extend(self.step.iter().flat_map(Line::bytes));
        bytes.extend([0x4B, 0x43, version, self.depth]);
        bytes.extend(counts.into_iter().flat_map(count));
        bytes.extend([0; 2]);
        bytes.extend(distance(80, counts.into_iter().sum()));
        bytes
    }
}
