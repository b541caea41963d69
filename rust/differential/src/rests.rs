//! What the step of an accepted certificate rests on.

use crate::damage::lines;
use reference::build::{Line, Record};
use reference::list::fields;

/// The equation lines of a part.
pub fn equations(certificate: &[u8], of_step: bool) -> impl Iterator<Item = Line> + '_ {
    let part = lines(certificate).filter(move |(step, _)| *step == of_step);
    let equations = part.filter(|(_, line)| line[0] == 1);
    equations.map(|(_, line)| fields::line(line))
}

/// Whether a step line is of operator 12 at offset 0.
pub fn is_first_arrow(records: &[Record], line: &Line) -> bool {
    let operator = || records[usize::from(line.p)].operator;
    line.kind == 1 && line.q == 0 && operator() == 12
}

/// Whether the step's first empty line rests on operator 12 at offset 0,
/// through joins.
pub fn on_first_arrow(records: &[Record], certificate: &[u8]) -> bool {
    let all: Vec<_> = lines(certificate).collect();
    let is_end = |(step, line): &(bool, &[u8; 80])| *step && line[1] == 0;
    let mut left: Vec<usize> = all.iter().position(is_end).into_iter().collect();
    let mut seen = vec![false; all.len()];
    while let Some(own) = left.pop() {
        let line = fields::line(all[own].1);
        if is_first_arrow(records, &line) {
            return true;
        }
        if line.kind == 3 && !std::mem::replace(&mut seen[own], true) {
            left.extend([line.p, line.q].map(usize::from));
        }
    }
    false
}
