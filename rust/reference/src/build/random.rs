//! A small generator of numbers, nodes and damage; the same seed gives the
//! same files.

use super::{NodeFile, Record, BOOL, INT};

/// A xorshift generator.
#[derive(Clone, Debug)]
pub struct Random(u64);

impl Random {
    /// A generator; the seed 0 stands for 1.
    pub const fn new(seed: u64) -> Self {
        Random(if seed == 0 { 1 } else { seed })
    }

    /// The next 64 bits.
    pub fn bits(&mut self) -> u64 {
        self.0 ^= self.0 << 13;
        self.0 ^= self.0 >> 7;
        self.0 ^= self.0 << 17;
        self.0.wrapping_mul(0x2545_F491_4F6C_DD1D)
    }

    /// A number below `limit`, which 0 stands for 1.
    pub fn below(&mut self, limit: usize) -> usize {
        let limit = u64::try_from(limit.max(1)).unwrap_or(u64::MAX);
        usize::try_from((self.bits() >> 16) % limit).unwrap_or(0)
    }

    /// Some byte.
    pub fn byte(&mut self) -> u8 {
        self.bits().to_be_bytes()[0]
    }

    /// One of the values, if there are any.
    pub fn pick<T: Copy>(&mut self, values: &[T]) -> Option<T> {
        values.get(self.below(values.len())).copied()
    }

    /// An input for a stream of this type: often small, at times extreme.
    pub fn input(&mut self, type_byte: u8) -> i64 {
        if type_byte == BOOL {
            return i64::from(self.byte() & 1);
        }
        let any = i64::from_le_bytes(self.bits().to_le_bytes());
        match self.below(8) {
            0 => any,
            1 => any >> 32,
            2 => any >> 1,
            _ => any % 5,
        }
    }
}

/// A node file with `size` records that passes 1 to 8 and 23, operands needed
/// now lower than their records; the property is a bool stream. The first
/// record is a bool one, so that there is some.
pub fn node(random: &mut Random, size: usize) -> NodeFile {
    let types: Vec<u8> = (0..size)
        .map(|i| if i == 0 { BOOL } else { random.byte() & 1 })
        .collect();
    let records = (0..size).map(|own| record(random, &types, own)).collect();
    let bools = streams(&types, size, BOOL);
    let property = bools.iter().rev().take(2).copied().collect::<Vec<_>>();
    NodeFile::new(records, random.pick(&property).unwrap_or(0))
}

/// The streams below `limit` of a type.
fn streams(types: &[u8], limit: usize, type_byte: u8) -> Vec<u16> {
    let numbered = (0u16..).zip(types).take(limit);
    let of_type = numbered.filter(|(_, own)| **own == type_byte);
    of_type.map(|(stream, _)| stream).collect()
}

/// A record for stream `own`, right for its type.
fn record(random: &mut Random, types: &[u8], own: usize) -> Record {
    let own_type = types.get(own).copied().unwrap_or(BOOL);
    loop {
        if let Some(record) = attempt(random, types, own, own_type) {
            return record;
        }
    }
}

/// A record with some operator, if there are operands for it.
fn attempt(random: &mut Random, types: &[u8], own: usize, own_type: u8) -> Option<Record> {
    let bools = streams(types, own, BOOL);
    let ints = streams(types, own, INT);
    let same = if own_type == BOOL { &bools } else { &ints };
    let all = streams(types, types.len(), own_type);
    let operators: &[u8] = match own_type {
        BOOL => &[0, 1, 2, 3, 4, 5, 9, 10, 11, 12, 13, 13],
        _ => &[0, 1, 6, 7, 8, 11, 12, 13, 13, 14, 15],
    };
    let mut from = |values: &[u16]| random.pick(values);
    let (a, b, c) = (from(same), from(same), from(&bools));
    let (x, y, any) = (from(&ints), from(&ints), from(&all));
    let record = match random.pick(operators)? {
        0 => Record::input(own_type),
        1 if own_type == BOOL => Record::constant(BOOL, i32::from(random.byte() & 1)),
        1 => Record::constant(INT, constant(random)),
        2 => Record::not(a?),
        3 => Record::and(a?, b?),
        4 => Record::or(a?, b?),
        5 => Record::same(a?, b?),
        6 => Record::sum(a?, b?),
        7 => Record::difference(a?, b?),
        8 => Record::multiple(constant(random), a?),
        9 => Record::at_most(x?, y?),
        10 => Record::equal(x?, y?),
        11 => Record::choice(own_type, c?, a?, b?),
        12 => Record::arrow(own_type, a?, b?),
        14 => Record::lesser(a?, b?),
        15 => Record::greater(a?, b?),
        _ => Record::arrow_pre(own_type, a?, any?),
    };
    Some(record)
}

/// A constant: mostly small, at times as large as may be.
fn constant(random: &mut Random) -> i32 {
    let small = [-3, -2, -1, 0, 0, 1, 1, 2, 3];
    let large = [1_000_000_000, -1_000_000_000, 999_999_999];
    let from: &[i32] = if random.below(12) == 0 {
        &large
    } else {
        &small
    };
    random.pick(from).unwrap_or(0)
}

/// Damages a file in one place or a few.
pub fn damage(random: &mut Random, file: &mut Vec<u8>) {
    for _ in 0..=random.below(3) {
        damage_once(random, file);
    }
}

fn damage_once(random: &mut Random, file: &mut Vec<u8>) {
    let at = random.below(file.len());
    match random.below(12) {
        0 => set(file, at, |byte| byte ^ 1),
        1 => {
            let bit = random.below(8);
            set(file, at, |byte| byte ^ (1 << bit));
        }
        2 => set(file, at, |byte| byte.wrapping_add(1)),
        3 => set(file, at, |byte| byte.wrapping_sub(1)),
        4 => {
            let byte = random.byte();
            set(file, at, |_| byte);
        }
        5 => drop(file.drain(..at)),
        6 => file.truncate(at),
        7 => drop(file.splice(..0, [random.byte(), 0])),
        8 | 9 => copy_block(random, file, 80),
        10 => copy_block(random, file, 16),
        _ => copy_block(random, file, 2),
    }
}

fn set(file: &mut [u8], at: usize, change: impl Fn(u8) -> u8) {
    if let Some(byte) = file.get_mut(at) {
        *byte = change(*byte);
    }
}

/// Copies one block onto another, both counted back from the trailer.
fn copy_block(random: &mut Random, file: &mut [u8], size: usize) {
    let Some(front) = file.len().checked_sub(16) else {
        return;
    };
    let start = front % size;
    let blocks = (front - start) / size;
    if blocks > 0 {
        let from = start + size * random.below(blocks);
        let to = start + size * random.below(blocks);
        file.copy_within(from..from + size, to);
    }
}
