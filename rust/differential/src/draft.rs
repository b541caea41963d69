//! A certificate that grows line by line, the base first. What a draft adds
//! is right by construction; where there is no room it gives nothing.

use crate::clauses::{clauses, Item};
use crate::factors::{self, Multiple};
use crate::random::Random;
use reference::build::proof::resolvent;
use reference::build::{lit, on, opp, CertificateFile, Constraint, Line, NodeFile};
use reference::certificate::Part;
use std::collections::HashMap;
use std::ops::RangeInclusive;

/// As many blocks of 80 bytes as the largest file has room for.
pub const MAX_BLOCKS: usize = 818;
/// As many constraints as a certificate may have.
pub const MAX_CONSTRAINTS: usize = 256;

/// The constraint that a literal is on, if it is on one of these.
pub fn constraint_of(constraints: &[Constraint], literal: u16) -> Option<&Constraint> {
    constraints.get(usize::from(literal / 2).checked_sub(576)?)
}

/// The certificate so far.
#[derive(Clone, Debug)]
pub struct Draft<'a> {
    /// The node it is for.
    pub node: &'a NodeFile,
    /// Its depth.
    pub depth: u8,
    /// The highest offset of its base: the depth, or one less where it is
    /// forged or made whole later.
    pub base_end: u8,
    /// Whether its step has operator 12 at offset 0.
    first_arrows: bool,
    /// Its constraints.
    pub constraints: Vec<Constraint>,
    /// How many constraints it may have.
    pub limit: usize,
    /// What draws the factors of constraints in equation lines; without it
    /// they are written as they are defined.
    pub factors: Option<Random>,
    numbers: HashMap<Vec<u8>, u16>,
    /// Its lines, base and step.
    pub lines: Vec<Line>,
    base: Option<usize>,
    holders: HashMap<u16, Vec<u16>>,
}

impl<'a> Draft<'a> {
    /// Nothing yet.
    pub fn new(node: &'a NodeFile, depth: u8) -> Self {
        Draft {
            node,
            depth,
            base_end: depth,
            first_arrows: true,
            constraints: Vec::new(),
            limit: MAX_CONSTRAINTS,
            factors: None,
            numbers: HashMap::new(),
            lines: Vec::new(),
            base: None,
            holders: HashMap::new(),
        }
    }

    /// Nothing yet; as often as not factors will be drawn.
    pub fn drawn(random: &mut Random, node: &'a NodeFile, depth: u8) -> Self {
        let mut draft = Draft::new(node, depth);
        draft.factors = random.once_in(2).then(|| Random::new(random.bits()));
        draft
    }

    /// By version 1's windows: a base that ends at k − 1, and a step without
    /// operator 12 at offset 0.
    pub fn of_version_1(mut self) -> Self {
        self.base_end = self.depth - 1;
        self.first_arrows = false;
        self
    }

    /// The part being written.
    pub fn part(&self) -> Part {
        self.base.map_or(Part::Base, |_| Part::Step)
    }

    /// The number of the part's first line.
    pub fn first(&self) -> usize {
        self.base.unwrap_or(0)
    }

    /// Lines from here on are step lines.
    pub fn begin_step(&mut self) {
        self.base = Some(self.lines.len());
        self.holders.clear();
    }

    /// The highest offset of an equation in this part.
    pub fn last_offset(&self) -> u8 {
        match self.part() {
            Part::Base => self.base_end,
            Part::Step => self.depth,
        }
    }

    /// The offsets at which the property has to be shown: all of the base, the
    /// last of the step.
    pub fn shown(&self) -> RangeInclusive<u8> {
        match self.part() {
            Part::Base => 0..=self.base_end,
            Part::Step => self.depth..=self.depth,
        }
    }

    /// How many blocks more the file has room for.
    pub fn room(&self) -> usize {
        MAX_BLOCKS - self.constraints.len() - self.lines.len()
    }

    /// The literals of a line.
    pub fn clause(&self, line: u16) -> &[u16] {
        self.lines[usize::from(line)].clause()
    }

    /// The lines of this part in which a literal stands.
    pub fn holders(&self, literal: u16) -> &[u16] {
        self.holders.get(&literal).map_or(&[], Vec::as_slice)
    }

    /// The literal on a constraint with this content, added if need be.
    pub fn literal_on(&mut self, constraint: Constraint) -> Option<u16> {
        match self.numbers.get(&constraint.bytes()) {
            Some(i) => Some(on(*i)),
            None => self.another(constraint),
        }
    }

    /// The literal on one more constraint, whether or not its equal is there.
    pub fn another(&mut self, constraint: Constraint) -> Option<u16> {
        if self.constraints.len() >= self.limit || self.room() < 2 {
            return None;
        }
        let i = self.constraints.len() as u16;
        self.constraints.push(constraint);
        self.numbers.insert(constraint.bytes(), i);
        Some(on(i))
    }

    /// The constraint a literal is on, if it is on one.
    pub fn constraint_of(&self, literal: u16) -> Option<&Constraint> {
        constraint_of(&self.constraints, literal)
    }

    /// Adds a line, if there is room, and gives its number.
    pub fn add(&mut self, line: Line) -> Option<u16> {
        if self.room() == 0 {
            return None;
        }
        let number = self.lines.len() as u16;
        for literal in line.clause() {
            self.holders.entry(*literal).or_default().push(number);
        }
        self.lines.push(line);
        Some(number)
    }

    /// Adds clause r of stream p at offset q, if there is one. Where its
    /// constraints are written multiplied through, lines follow that bring
    /// them back: the last has the clause's own literals.
    pub fn equation(&mut self, p: u16, q: u8, r: usize) -> Option<u16> {
        let listed = self.clauses(p, q);
        let (mut literals, mut multiples) = (Vec::new(), Vec::new());
        for item in listed.into_iter().nth(r)? {
            literals.push(match item {
                Item::Literal(literal) => literal,
                Item::AtMost(defined) => {
                    let multiple = self.multiple(defined)?;
                    multiples.push(multiple);
                    multiple.literal
                }
            });
        }
        let line = self.add(Line::equation(p, q.into(), r as u16, &literals))?;
        let mut multiples = multiples.iter();
        multiples.try_fold(line, |line, multiple| multiple.struck(self, line))
    }

    /// The clauses of stream p at offset q of this part.
    fn clauses(&self, p: u16, q: u8) -> Vec<Vec<Item>> {
        let record = self.node.records.get(usize::from(p));
        let is_arrow = record.is_some_and(|record| record.operator == 12);
        if is_arrow && q == 0 && self.part() == Part::Step && !self.first_arrows {
            return Vec::new();
        }
        clauses(&self.node.records, self.part(), p, q)
    }

    /// A multiple of a defined constraint, or itself.
    fn multiple(&mut self, defined: Constraint) -> Option<Multiple> {
        let drawn = self.factors.as_mut().and_then(|random| {
            let multiplied = random.once_in(2);
            multiplied.then(|| factors::factor(random, &defined))?
        });
        Multiple::new(self, defined, drawn.unwrap_or(1))
    }

    /// Adds the property line of this part; the base has one alone, q = 0.
    pub fn property(&mut self, q: u8) -> Option<u16> {
        let holds = |q: u8| lit(self.node.property, q.into());
        let literals: Vec<u16> = match self.part() {
            Part::Step if q < self.depth => vec![holds(q)],
            _ => self.shown().map(|q| opp(holds(q))).collect(),
        };
        self.add(Line::property(q.into(), &literals))
    }

    /// Adds the line that the property fails where it has to be shown.
    pub fn fails(&mut self) -> Option<u16> {
        self.property(*self.shown().start())
    }

    /// Adds the join of p and q on r, each literal once, if twelve hold it.
    pub fn join(&mut self, p: u16, q: u16, r: u16) -> Option<u16> {
        let literals = resolvent(self.clause(p), self.clause(q), r);
        (literals.len() <= 12)
            .then(|| Line::join(p, q, r, &literals))
            .and_then(|line| self.add(line))
    }

    /// The line without a literal: joined with one that holds the opposite.
    pub fn strike(&mut self, line: u16, literal: u16, other: u16) -> Option<u16> {
        self.join(line, other, literal)
    }

    /// Adds a line of kind 4.
    pub fn arithmetic(&mut self, weighted: &[(u16, u32)]) -> Option<u16> {
        self.add(Line::arithmetic(weighted))
    }

    /// Adds another certificate's lines for the same node: its constraints
    /// are looked up by content, its equation lines written anew from this
    /// crate's own list, its joins moved along.
    pub fn import(&mut self, from: &CertificateFile, lines: &[Line], first: usize) -> Option<()> {
        let mut numbers = Vec::new();
        for line in lines {
            numbers.push(match line.kind {
                1 => self.equation(line.p, line.q as u8, line.r.into())?,
                _ => self.import_line(from, *line, |old| numbers[usize::from(old) - first])?,
            });
        }
        Some(())
    }

    /// Adds another certificate's line, if it is no equation.
    fn import_line(
        &mut self,
        from: &CertificateFile,
        mut line: Line,
        number: impl Fn(u16) -> u16,
    ) -> Option<u16> {
        for literal in &mut line.literals[..usize::from(line.count)] {
            *literal = self.imported(from, *literal)?;
        }
        if line.kind == 3 {
            (line.p, line.q) = (number(line.p), number(line.q));
            line.r = self.imported(from, line.r)?;
        }
        self.add(line)
    }

    fn imported(&mut self, from: &CertificateFile, literal: u16) -> Option<u16> {
        match usize::from(literal / 2).checked_sub(576) {
            None => Some(literal),
            Some(i) => Some(self.literal_on(from.constraints[i])? | (literal & 1)),
        }
    }

    /// The certificate; what was not begun is empty.
    pub fn finish(self) -> CertificateFile {
        let mut base = self.lines;
        let step = base.split_off(self.base.unwrap_or(base.len()));
        CertificateFile {
            note: Vec::new(),
            depth: self.depth,
            constraints: self.constraints,
            base,
            step,
        }
    }
}
