//! Both files as every call reads them: all that comes before the lines, the
//! lines themselves, and refusal 21 after them.

use super::constraint::Constraint;
use super::layout::Layout;
use super::line::{Checker, Clause};
use super::Part;
use crate::answer::{Accepted, Refusal, Verdict};
use crate::node::{self, Node};
use std::ops::Range;

/// A node and a certificate that passed 1 to 8 and 23, and 11 to 15.
pub struct Files<'a> {
    node: Node<'a>,
    layout: Layout<'a>,
    constraints: Vec<Constraint>,
}

impl<'a> Files<'a> {
    /// All checks before the lines, those of the node file first.
    pub fn read(node_file: &'a [u8], certificate_file: &'a [u8]) -> Result<Self, Refusal> {
        let node = node::read(node_file)?;
        let layout = Layout::read(certificate_file)?;
        let constraints = Constraint::read_all(&node, layout.depth, layout.constraints)?;
        Ok(Files {
            node,
            layout,
            constraints,
        })
    }

    /// How many lines there are in both parts.
    pub fn line_count(&self) -> usize {
        self.layout.lines.len()
    }

    /// Checks these lines in order, up to the first that is refused by 16 to
    /// 20 or 22.
    pub fn check_lines(&self, numbers: Range<usize>) -> Result<(), Refusal> {
        Checker::new(&self.node, &self.layout, &self.constraints).check_lines(numbers)
    }

    /// The answer where no line is refused. 01: "Each part has some line
    /// without literals", or else refusal 21.
    pub fn conclude(&self) -> Verdict {
        for part in [Part::Base, Part::Step] {
            let mut lines = self.layout.lines[self.layout.lines_of(part)].iter();
            if !lines.any(|line| Clause::decode(line).is_empty()) {
                return Err(Refusal::new(21, part.place()));
            }
        }
        Ok(Accepted {
            depth: self.layout.depth,
            base: self.layout.base_count,
            step: self.layout.step_count,
        })
    }
}
