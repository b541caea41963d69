//! The certificate file cut into its parts: refusals 11 to 14.

use super::{Part, BLOCK, MAX_DEPTH};
use crate::answer::Refusal;
use std::ops::Range;

/// 02: "Certificate version becomes 2".
const VERSION: u8 = 2;
/// Length of the trailer.
const TRAILER: usize = 16;
/// 01: "From 16 to 65,535 bytes".
const LONGEST: usize = 65_535;
/// 01: "u16 counts of constraints (0 to 256)".
const MAX_CONSTRAINTS: u16 = 256;

/// A certificate file that passed 11 to 14. 01: "note, constraints, base
/// lines, step lines, trailer".
#[derive(Clone, Copy, Debug)]
pub struct Layout<'a> {
    /// The bytes before the first constraint or line.
    pub note: &'a [u8],
    /// The depth k.
    pub depth: u8,
    /// The base line count, as the trailer has it.
    pub base_count: u16,
    /// The step line count, as the trailer has it.
    pub step_count: u16,
    /// The constraints.
    pub constraints: &'a [[u8; BLOCK]],
    /// The lines, those of the base and then those of the step.
    pub lines: &'a [[u8; BLOCK]],
}

impl<'a> Layout<'a> {
    /// Cuts the file, or refuses it by 11 to 14.
    pub fn read(file: &'a [u8]) -> Result<Self, Refusal> {
        let (front, trailer) = match file.split_last_chunk::<TRAILER>() {
            Some(parts) if file.len() <= LONGEST => parts,
            _ => return Err(Refusal::file(11)),
        };
        let trailer = Trailer::decode(trailer)?;
        if !(1..=MAX_DEPTH).contains(&trailer.depth) || trailer.constraints > MAX_CONSTRAINTS {
            return Err(Refusal::file(13));
        }
        trailer.cut(front).ok_or(Refusal::file(14))
    }

    /// The numbers of a part's lines.
    pub fn lines_of(&self, part: Part) -> Range<usize> {
        let base = usize::from(self.base_count);
        match part {
            Part::Base => 0..base,
            Part::Step => base..self.lines.len(),
        }
    }

    /// The part in which a line stands.
    pub fn part_of(&self, number: usize) -> Part {
        if self.lines_of(Part::Base).contains(&number) {
            Part::Base
        } else {
            Part::Step
        }
    }
}

/// The trailer's fields beside its fixed bytes.
struct Trailer {
    depth: u8,
    constraints: u16,
    base: u16,
    step: u16,
    distance: u32,
}

impl Trailer {
    /// Refusal 12: "fixed bytes", which are 0x4B, 0x43 and the version in
    /// front and the two zero bytes after the counts. 02: "Version 1 files are
    /// now refused with 12."
    fn decode(bytes: &[u8; TRAILER]) -> Result<Self, Refusal> {
        let [0x4B, 0x43, VERSION, depth, c0, c1, b0, b1, s0, s1, 0, 0, distance @ ..] = *bytes
        else {
            return Err(Refusal::file(12));
        };
        Ok(Trailer {
            depth,
            constraints: u16::from_le_bytes([c0, c1]),
            base: u16::from_le_bytes([b0, b1]),
            step: u16::from_le_bytes([s0, s1]),
            distance: u32::from_le_bytes(distance),
        })
    }

    /// The layout of a file whose bytes before the trailer are `front`;
    /// nothing is refusal 14: "distance, as 4". The distance is "16 + 80·(sum
    /// of the counts)".
    fn cut<'a>(&self, front: &'a [u8]) -> Option<Layout<'a>> {
        let counts = [self.constraints, self.base, self.step].map(usize::from);
        let blocks = BLOCK * counts.iter().sum::<usize>();
        if usize::try_from(self.distance) != Ok(TRAILER + blocks) {
            return None;
        }
        let start = front.len().checked_sub(blocks)?;
        let (note, blocks) = front.split_at_checked(start)?;
        let (blocks, _) = blocks.as_chunks::<BLOCK>();
        let [constraints, _, _] = counts;
        let (constraints, lines) = blocks.split_at_checked(constraints)?;
        Some(Layout {
            note,
            depth: self.depth,
            base_count: self.base,
            step_count: self.step,
            constraints,
            lines,
        })
    }
}
