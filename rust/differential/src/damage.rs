//! Damage: every field at, below and above its limit, truncations, blocks
//! moved, random bytes.

use crate::random::Random;

/// A field of a file, and values worth trying in it.
#[derive(Clone, Debug)]
pub struct Field {
    /// Where it stands.
    pub at: usize,
    /// How many bytes it has.
    pub width: usize,
    /// What to try.
    pub values: Vec<i64>,
}

impl Field {
    fn new(at: usize, width: usize, values: impl Into<Vec<i64>>) -> Self {
        let values = values.into();
        Field { at, width, values }
    }

    /// A field that is zero.
    fn zero(at: usize) -> Self {
        Field::new(at, 1, [1, 255])
    }

    /// With the values around the one that stands there.
    fn around(mut self, file: &[u8]) -> Self {
        let own = number(file, self.at, self.width);
        self.values.extend([own - 1, own + 1, own ^ 1]);
        self
    }

    /// Writes a value into the field.
    pub fn write(&self, file: &mut [u8], value: i64) {
        let bytes = value.to_le_bytes();
        file[self.at..self.at + self.width].copy_from_slice(&bytes[..self.width]);
    }
}

/// The unsigned number of up to eight bytes.
fn number(file: &[u8], at: usize, width: usize) -> i64 {
    let mut bytes = [0; 8];
    bytes[..width].copy_from_slice(&file[at..at + width]);
    i64::from_le_bytes(bytes)
}

/// A certificate file's counts of constraints, base lines and step lines.
fn counts(certificate: &[u8]) -> [usize; 3] {
    [12, 10, 8].map(|back| number(certificate, certificate.len() - back, 2) as usize)
}

/// The constraints and lines of a certificate file that passes 11 to 14.
fn blocks(certificate: &[u8]) -> &[[u8; 80]] {
    let front = &certificate[..certificate.len() - 16];
    let (_, blocks) = front.as_rchunks();
    &blocks[blocks.len() - counts(certificate).iter().sum::<usize>()..]
}

/// The constraints of a certificate file that passes 11 to 14.
pub fn constraints(certificate: &[u8]) -> &[[u8; 80]] {
    &blocks(certificate)[..counts(certificate)[0]]
}

/// The lines of a certificate file that passes 11 to 14, and whether each is
/// a step line.
pub fn lines(certificate: &[u8]) -> impl Iterator<Item = (bool, &[u8; 80])> {
    let [constraints, base, _] = counts(certificate);
    let lines = blocks(certificate)[constraints..].iter().enumerate();
    lines.map(move |(i, line)| (i >= base, line))
}

/// Where a right file's blocks begin, and how many of each there are.
#[derive(Clone, Copy, Debug)]
pub enum Layout {
    /// A node file: its stream count.
    Node(usize),
    /// A certificate for n streams: constraints, base and step lines.
    Certificate(usize, [usize; 3]),
}

impl Layout {
    /// The layout of a right node file.
    pub fn of_node(file: &[u8]) -> Self {
        Layout::Node(number(file, file.len() - 12, 2) as usize)
    }

    /// The layout of a right certificate file for n streams.
    pub fn of_certificate(n: usize, file: &[u8]) -> Self {
        Layout::Certificate(n, counts(file))
    }

    /// The number of blocks, the trailer among them.
    pub fn blocks(&self) -> usize {
        match self {
            Layout::Node(n) => n + 1,
            Layout::Certificate(_, counts) => counts.iter().sum::<usize>() + 1,
        }
    }

    /// The fields of a block, the trailer being the last.
    pub fn fields(&self, file: &[u8], block: usize) -> Vec<Field> {
        let back = self.blocks() - 1 - block;
        match self {
            _ if back == 0 => self.trailer(file),
            Layout::Node(n) => record(file, file.len() - 16 - 16 * back, block, *n),
            Layout::Certificate(n, counts) => {
                let at = file.len() - 16 - 80 * back;
                let depth = i64::from(file[file.len() - 13]);
                match block.checked_sub(counts[0]) {
                    None => constraint(file, at, *n, depth),
                    Some(own) => line(file, at, own, *n, depth, counts),
                }
            }
        }
    }

    fn trailer(&self, file: &[u8]) -> Vec<Field> {
        let at = file.len() - 16;
        let fixed = |i: usize| Field::new(at + i, 1, [0, 255]).around(file);
        match self {
            Layout::Node(n) => {
                let n = *n as i64;
                let mut fields: Vec<Field> = (0..4).chain(12..16).map(fixed).collect();
                let counts = [0, 1, 64, 65, n + 256, 65_535];
                fields.push(Field::new(at + 4, 2, counts).around(file));
                let properties = (0..=n).chain([n + 256, 65_535]).collect::<Vec<_>>();
                fields.push(Field::new(at + 6, 2, properties));
                fields.push(distance(file, at + 8, 16));
                fields
            }
            Layout::Certificate(..) => {
                let mut fields: Vec<Field> = (0..3).chain(10..12).map(fixed).collect();
                fields.push(Field::new(at + 3, 1, [0, 1, 8, 9, 255]).around(file));
                fields.push(Field::new(at + 4, 2, [0, 256, 257, 65_535]).around(file));
                fields.extend([6, 8].map(|i| Field::new(at + i, 2, [0, 65_535]).around(file)));
                fields.push(distance(file, at + 12, 80));
                fields
            }
        }
    }
}

fn distance(file: &[u8], at: usize, block: i64) -> Field {
    let own = number(file, at, 4);
    let values = [
        0,
        own + block,
        own - block,
        own + 65_536,
        65_535,
        0xFFFF_FFFF,
    ];
    Field::new(at, 4, values).around(file)
}

fn record(file: &[u8], at: usize, own: usize, n: usize) -> Vec<Field> {
    let (own, n) = (own as i64, n as i64);
    let mut fields = vec![
        Field::new(at, 1, (0..=16).chain([255]).collect::<Vec<_>>()),
        Field::new(at + 1, 1, [0, 1, 2, 255]),
    ];
    let operands = [0, own - 1, own, own + 1, n - 1, n, 63, 64, 256, 65_535];
    fields.extend([2, 4, 6].map(|i| Field::new(at + i, 2, operands).around(file)));
    let limit = 1_000_000_000;
    let k = [
        0,
        1,
        2,
        -1,
        limit,
        limit + 1,
        -limit,
        -limit - 1,
        1 << 31,
        (1 << 31) - 1,
    ];
    fields.push(Field::new(at + 8, 4, k));
    fields.extend((12..16).map(|i| Field::zero(at + i)));
    fields
}

fn constraint(file: &[u8], at: usize, n: usize, depth: i64) -> Vec<Field> {
    let n = n as i64;
    let mut fields = vec![Field::new(at, 1, [0, 1, 7, 8, 9, 255]).around(file)];
    fields.extend((1..8).map(|i| Field::zero(at + i)));
    let limit = 100_000_000_000;
    let bounds = [0, limit, limit + 1, -limit, -limit - 1, i64::MIN, i64::MAX];
    fields.push(Field::new(at + 8, 8, bounds));
    let own = number(file, at + 8, 8);
    let near = [own.wrapping_sub(1), own.wrapping_add(1)];
    fields.push(Field::new(at + 8, 8, near));
    fields.push(Field::new(at + 8, 8, [own.wrapping_mul(2), own / 2]));
    for at in (16..80).step_by(8).map(|i| at + i) {
        fields.push(Field::new(at, 2, [0, n - 1, n, 63, 64, 256, 65_535]).around(file));
        fields.push(Field::new(at + 2, 1, [0, depth, depth + 1, 8, 9, 255]).around(file));
        fields.push(Field::zero(at + 3));
        let limit = 1_000_000_000;
        let c = [0, 1, -1, limit, limit + 1, -limit, -limit - 1, 1 << 31];
        fields.push(Field::new(at + 4, 4, c).around(file));
        fields.push(Field::new(at + 4, 4, [2 * number(file, at + 4, 4)]));
    }
    fields
}

fn line(file: &[u8], at: usize, own: usize, n: usize, k: i64, counts: &[usize; 3]) -> Vec<Field> {
    let [constraints, base, _] = counts.map(|count| count as i64);
    let (own, n) = (own as i64, n as i64);
    let first = if own < base { 0 } else { base };
    let mut fields = vec![
        Field::new(at, 1, [0, 1, 2, 3, 4, 5, 6, 255]),
        Field::new(at + 1, 1, [0, 11, 12, 13, 255]).around(file),
    ];
    let cited = [0, own - 1, own, own + 1, first, first - 1, 65_535];
    fields.push(Field::new(at + 2, 2, [n - 1, n, 64]).around(file));
    fields.push(Field::new(at + 4, 2, [0, k - 1, k, k + 1, 256]).around(file));
    fields.extend([2, 4].map(|i| Field::new(at + i, 2, cited)));
    fields.push(Field::new(at + 6, 2, [0, 1, 2, 3, 4, 65_535]).around(file));
    let end = 2 * (576 + constraints);
    let edges = [
        0,
        2 * n,
        128 * k,
        128 * (k + 1),
        1_151,
        1_152,
        end - 1,
        end,
        65_535,
    ];
    let literals = (8..32).step_by(2);
    fields.extend(literals.map(|i| Field::new(at + i, 2, edges).around(file)));
    let edges = [0, 1, 2, 1_000_000, 1_000_001, 0xFFFF_FFFF];
    let multipliers = (32..80).step_by(4);
    fields.extend(multipliers.map(|i| Field::new(at + i, 4, edges).around(file)));
    fields
}

/// Sets one field of one block, the trailer once in six, and of lines one
/// that is used more often than not.
pub fn set_field(random: &mut Random, layout: Layout, file: &mut [u8]) {
    let blocks = layout.blocks();
    let block = if random.once_in(6) {
        blocks - 1
    } else {
        random.below(blocks)
    };
    let fields = layout.fields(file, block);
    let first = random.below(fields.len());
    let field = match random.below(3) {
        0 => &fields[first],
        _ => &fields[first.min(random.below(fields.len()))],
    };
    if let Some(value) = random.pick(&field.values) {
        field.write(file, value);
    }
}

/// Moves the borders between a file's parts, the distance along with them.
pub fn move_border(random: &mut Random, layout: Layout, file: &mut [u8]) {
    let end = file.len();
    match layout {
        Layout::Node(n) => {
            let n = random.of([n + 1, n.saturating_sub(1), 64, 65]);
            file[end - 12..end - 10].copy_from_slice(&(n as u16).to_le_bytes());
            let distance = 16 + 16 * n as u32;
            file[end - 8..end - 4].copy_from_slice(&distance.to_le_bytes());
        }
        Layout::Certificate(_, counts) => {
            let mut counts = counts.map(|count| count as u16);
            let (from, to) = (random.below(3), random.below(3));
            let moved = random.below(usize::from(counts[from]) + 1).min(2) as u16;
            counts[from] -= moved;
            if random.once_in(4) {
                let sum: u32 = counts.iter().map(|count| u32::from(*count)).sum();
                file[end - 4..].copy_from_slice(&(16 + 80 * sum).to_le_bytes());
            } else {
                counts[to] += moved;
            }
            for (i, count) in counts.into_iter().enumerate() {
                let at = end - 12 + 2 * i;
                file[at..at + 2].copy_from_slice(&count.to_le_bytes());
            }
        }
    }
}

/// Damages a right file in one way or a few.
pub fn damage(random: &mut Random, layout: Layout, file: &mut Vec<u8>) {
    match random.below(20) {
        0 => cut(random, file),
        1 | 2 => move_border(random, layout, file),
        3 | 4 => copy_block(random, layout, file),
        5 => flip(random, file),
        6 => {
            for _ in 0..random.within(2, 4) {
                set_field(random, layout, file);
            }
        }
        _ => set_field(random, layout, file),
    }
}

/// Another length, or other bytes altogether.
fn cut(random: &mut Random, file: &mut Vec<u8>) {
    match random.below(5) {
        0 => file.truncate(random.below(file.len())),
        1 | 2 => drop(file.drain(..random.below(file.len()))),
        3 => lengthen(random, file),
        _ => {
            let length = random.below(200);
            *file = random.bytes(length);
        }
    }
}

/// A note that brings the file to its limit, or one past it, or too short.
fn lengthen(random: &mut Random, file: &mut Vec<u8>) {
    let length: usize = random.of([15, 16, 65_535, 65_536, 65_537]);
    match length.checked_sub(file.len()) {
        Some(note) => drop(file.splice(..0, vec![0xA5; note])),
        None => drop(file.drain(..file.len() - length)),
    }
}

/// One block over another.
fn copy_block(random: &mut Random, layout: Layout, file: &mut [u8]) {
    let (size, blocks) = match layout {
        Layout::Node(n) => (16, n),
        Layout::Certificate(..) => (80, layout.blocks() - 1),
    };
    if blocks > 0 {
        let at = |block: usize| file.len() - 16 - size * (block + 1);
        let (from, to) = (at(random.below(blocks)), at(random.below(blocks)));
        file.copy_within(from..from + size, to);
    }
}

/// One to three bits the other way.
fn flip(random: &mut Random, file: &mut [u8]) {
    for _ in 0..random.within(1, 3) {
        let at = random.below(file.len());
        file[at] ^= 1 << random.below(8);
    }
}
