//! A search for certificates of small nodes.
//!
//! It takes every equation and property line of a part, assumes literals one
//! by one until a clause fails, and joins the failing clauses on the way
//! back. Where no clause fails, the constraints assumed may still be
//! contradictory: eliminating their variables finds the multipliers of a
//! line of kind 4.

use super::proof::resolvent;
use super::{lit, on, opp, CertificateFile, Constraint, Line};
use crate::certificate::equation::{self, Item};
use crate::certificate::{constraint, Part};
use crate::node::{self, Node};
use std::collections::BTreeMap;

const ATOMS: usize = 576 + 256;
const FIRST_CONSTRAINT_ATOM: u16 = 576;

/// A certificate of this depth for the node file, if one is found soon.
pub fn certificate(node_file: &[u8], depth: u8) -> Option<CertificateFile> {
    let node = node::read(node_file).ok()?;
    let mut constraints = Vec::new();
    let base = part(&node, depth, Part::Base, 0, &mut constraints)?;
    let step = part(&node, depth, Part::Step, base.len(), &mut constraints)?;
    let blocks = constraints.len() + base.len() + step.len();
    let found = CertificateFile {
        note: Vec::new(),
        depth,
        constraints,
        base,
        step,
    };
    (16 + 80 * blocks <= 65_535).then_some(found)
}

/// The lines of one part, numbered from `first`; it adds the constraints it
/// needs.
pub fn part(
    node: &Node,
    depth: u8,
    part: Part,
    first: usize,
    constraints: &mut Vec<Constraint>,
) -> Option<Vec<Line>> {
    let mut search = Search {
        steps: Vec::new(),
        constraints,
        values: vec![None; ATOMS],
        budget: 5_000,
    };
    search.add_axioms(node, depth, part)?;
    let root = search.refute()?;
    Some(search.lines(root, first))
}

fn is_positive(literal: u16) -> bool {
    literal & 1 == 0
}

/// Where a clause comes from.
enum Origin {
    Axiom(Line),
    Join { p: usize, q: usize, r: u16 },
}

struct Step {
    clause: Vec<u16>,
    origin: Origin,
}

/// What the clauses say under the values assumed.
enum Outcome {
    Fails(usize),
    Forces(usize, u16),
    Open,
}

struct Search<'a> {
    steps: Vec<Step>,
    constraints: &'a mut Vec<Constraint>,
    values: Vec<Option<bool>>,
    budget: usize,
}

impl Search<'_> {
    /// Adds the part's equation and property lines.
    fn add_axioms(&mut self, node: &Node, depth: u8, part: Part) -> Option<()> {
        let property = u16::from(node.property());
        let k = u16::from(depth);
        match part {
            Part::Base => {
                let fails: Vec<u16> = (0..=k).map(|q| opp(lit(property, q))).collect();
                self.add_axiom(Line::property(0, &fails));
            }
            Part::Step => {
                for q in 0..k {
                    self.add_axiom(Line::property(q, &[lit(property, q)]));
                }
                self.add_axiom(Line::property(k, &[opp(lit(property, k))]));
            }
        }
        for q in 0..=depth {
            for p in (0..).take(node.count()) {
                self.add_equations(node, part, p, q)?;
            }
        }
        Some(())
    }

    fn add_equations(&mut self, node: &Node, part: Part, p: u16, q: u8) -> Option<()> {
        for r in 0.. {
            let Some(clause) = equation::clause(node, part, p, q, r) else {
                break;
            };
            let mut literals = Vec::new();
            for item in clause.items() {
                literals.push(match item {
                    Item::Literal(literal) => literal.number(),
                    Item::Constraint(content) => self.literal_on(content)?,
                });
            }
            self.add_axiom(Line::equation(p, u16::from(q), r, &literals));
        }
        Some(())
    }

    fn add_axiom(&mut self, line: Line) -> usize {
        let clause = line.clause().to_vec();
        self.add(clause, Origin::Axiom(line))
    }

    fn add(&mut self, clause: Vec<u16>, origin: Origin) -> usize {
        self.steps.push(Step { clause, origin });
        self.steps.len() - 1
    }

    /// The literal on the constraint with this content, added if need be.
    fn literal_on(&mut self, content: &constraint::Constraint) -> Option<u16> {
        let mut terms = Vec::new();
        for term in content.terms() {
            let offset = u8::try_from(term.variable / 64).ok()?;
            let coefficient = i32::try_from(term.coefficient).ok()?;
            terms.push((term.variable % 64, offset, coefficient));
        }
        let wanted = Constraint::new(&terms, content.bound());
        let known = self.constraints.iter().position(|c| *c == wanted);
        let i = known.unwrap_or_else(|| {
            self.constraints.push(wanted);
            self.constraints.len() - 1
        });
        u16::try_from(i).ok().filter(|i| *i < 256).map(on)
    }

    /// Whether a literal holds under the values assumed, if that is known.
    fn value(&self, literal: u16) -> Option<bool> {
        let value = self.values.get(usize::from(literal / 2)).copied().flatten();
        value.map(|value| value == is_positive(literal))
    }

    fn outcome(&self) -> Outcome {
        let mut forced = Outcome::Open;
        for (step, clause) in self.steps.iter().map(|step| &step.clause).enumerate() {
            if clause
                .iter()
                .any(|literal| self.value(*literal) == Some(true))
            {
                continue;
            }
            let mut open = clause.iter().filter(|l| self.value(**l).is_none());
            match (open.next(), open.next()) {
                (None, _) => return Outcome::Fails(step),
                (Some(literal), None) => forced = Outcome::Forces(step, *literal),
                _ => {}
            }
        }
        forced
    }

    /// A step whose clause fails under the values assumed; nothing if there
    /// is none, or none within the budget.
    fn refute(&mut self) -> Option<usize> {
        self.budget = self.budget.checked_sub(1)?;
        match self.outcome() {
            Outcome::Fails(step) => Some(step),
            Outcome::Forces(step, literal) => {
                let below = self.refute_with(literal)?;
                self.join(step, below, literal)
            }
            Outcome::Open => match self.contradiction() {
                Some(line) => {
                    let step = self.add_axiom(line);
                    self.shortened(step)
                }
                None => self.split(),
            },
        }
    }

    /// Assumes an open literal, then its opposite.
    fn split(&mut self) -> Option<usize> {
        let unsatisfied = self.steps.iter().map(|step| &step.clause).find(|clause| {
            let mut literals = clause.iter();
            !literals.any(|literal| self.value(*literal) == Some(true))
        });
        let mut literals = unsatisfied?.iter();
        let literal = *literals.find(|literal| self.value(**literal).is_none())?;
        let below = self.refute_with(literal)?;
        if !self.steps[below].clause.contains(&opp(literal)) {
            return Some(below);
        }
        let beside = self.refute_with(opp(literal))?;
        self.join(beside, below, literal)
    }

    fn refute_with(&mut self, literal: u16) -> Option<usize> {
        let atom = usize::from(literal / 2);
        self.values[atom] = Some(is_positive(literal));
        let found = self.refute();
        self.values[atom] = None;
        found
    }

    /// The join of p and q on r, or whichever does without it.
    fn join(&mut self, p: usize, q: usize, r: u16) -> Option<usize> {
        if !self.steps[p].clause.contains(&r) {
            return Some(p);
        }
        if !self.steps[q].clause.contains(&opp(r)) {
            return Some(q);
        }
        let clause = resolvent(&self.steps[p].clause, &self.steps[q].clause, r);
        (clause.len() <= 12).then(|| self.add(clause, Origin::Join { p, q, r }))
    }

    /// The step joined with every clause of one literal that it can be.
    fn shortened(&mut self, mut step: usize) -> Option<usize> {
        for literal in self.steps[step].clause.clone() {
            let unit = [opp(literal)];
            if let Some(known) = self.steps.iter().position(|step| step.clause == unit) {
                step = self.join(known, step, opp(literal))?;
            }
        }
        Some(step)
    }

    /// A line of kind 4 whose literals all fail under the values assumed.
    fn contradiction(&self) -> Option<Line> {
        let constraints = (0u16..).zip(self.constraints.iter());
        let assumed = constraints.filter_map(|(i, constraint)| {
            let value = self.values[usize::from(FIRST_CONSTRAINT_ATOM + i)]?;
            let literal = if value { on(i) } else { opp(on(i)) };
            Some(Row::assumed(literal, value, constraint))
        });
        let weights = least_contradiction(assumed.collect())?;
        let mut weighted = Vec::new();
        for (literal, weight) in weights {
            let multiplier = u32::try_from(weight).ok()?;
            weighted.push((opp(literal), multiplier));
        }
        let fits = |(_, multiplier): &(u16, u32)| *multiplier <= 1_000_000;
        let right = weighted.len() <= 12 && weighted.iter().all(fits);
        right.then(|| Line::arithmetic(&weighted))
    }

    /// The lines that lead to step `root`, numbered from `first`.
    fn lines(&self, root: usize, first: usize) -> Vec<Line> {
        let mut needed = vec![false; root + 1];
        needed[root] = true;
        for step in (0..=root).rev() {
            if needed[step] {
                self.mark(step, &mut needed);
            }
        }
        let mut numbers = vec![0; root + 1];
        let mut lines = Vec::new();
        for step in (0..=root).filter(|step| needed[*step]) {
            numbers[step] = u16::try_from(first + lines.len()).unwrap_or(u16::MAX);
            lines.push(match &self.steps[step].origin {
                Origin::Axiom(line) => *line,
                Origin::Join { p, q, r } => {
                    Line::join(numbers[*p], numbers[*q], *r, &self.steps[step].clause)
                }
            });
        }
        lines
    }

    fn mark(&self, step: usize, needed: &mut [bool]) {
        if let Origin::Join { p, q, .. } = self.steps[step].origin {
            needed[p] = true;
            needed[q] = true;
        }
    }
}

/// A sum of assumed constraints, with the weight of each.
#[derive(Clone)]
struct Row {
    terms: BTreeMap<u16, i128>,
    bound: i128,
    weights: BTreeMap<u16, i128>,
}

impl Row {
    /// The constraint, or if it is not to hold its negation.
    fn assumed(literal: u16, holds: bool, constraint: &Constraint) -> Self {
        let sign = if holds { 1 } else { -1 };
        let used = constraint.terms.iter().take(usize::from(constraint.count));
        let term = |term: &super::Term| {
            let variable = 64 * u16::from(term.offset) + term.stream;
            (variable, sign * i128::from(term.coefficient))
        };
        let bound = i128::from(constraint.bound);
        Row {
            terms: used.map(term).collect(),
            bound: if holds { bound } else { -bound - 1 },
            weights: BTreeMap::from([(literal, 1)]),
        }
    }

    /// `left` times this row plus `right` times the other, in lowest terms.
    fn combined(&self, left: i128, other: &Row, right: i128) -> Option<Row> {
        let weights = added(&self.weights, left, &other.weights, right)?;
        let divisor = weights.values().fold(0, |d, weight| gcd(d, *weight)).max(1);
        let reduced = |map: BTreeMap<u16, i128>| {
            let pairs = map.into_iter().filter(|(_, number)| *number != 0);
            pairs.map(|(key, number)| (key, number / divisor)).collect()
        };
        let bound = self.bound.checked_mul(left)?;
        let bound = bound.checked_add(other.bound.checked_mul(right)?)?;
        Some(Row {
            terms: reduced(added(&self.terms, left, &other.terms, right)?),
            bound: bound / divisor,
            weights: reduced(weights),
        })
    }
}

/// `left` times the first map plus `right` times the second.
fn added(
    first: &BTreeMap<u16, i128>,
    left: i128,
    second: &BTreeMap<u16, i128>,
    right: i128,
) -> Option<BTreeMap<u16, i128>> {
    let mut sum = BTreeMap::new();
    for (map, factor) in [(first, left), (second, right)] {
        for (key, number) in map {
            let entry: &mut i128 = sum.entry(*key).or_insert(0);
            *entry = entry.checked_add(number.checked_mul(factor)?)?;
        }
    }
    Some(sum)
}

fn gcd(a: i128, b: i128) -> i128 {
    if b == 0 {
        a.abs()
    } else {
        gcd(b, a % b)
    }
}

/// The weights of a contradiction that needs all its rows.
fn least_contradiction(rows: Vec<Row>) -> Option<BTreeMap<u16, i128>> {
    let mut weights = eliminate(rows.clone())?;
    for literal in weights.clone().into_keys() {
        let fewer = rows.iter().filter(|row| {
            let mut own = row.weights.keys();
            own.all(|key| *key != literal && weights.contains_key(key))
        });
        if let Some(less) = eliminate(fewer.cloned().collect()) {
            weights = less;
        }
    }
    Some(weights)
}

/// The rows without those that hold anyway, and of several with the same
/// terms the one with the least bound.
fn reduced(rows: Vec<Row>) -> Vec<Row> {
    let mut least: BTreeMap<Vec<(u16, i128)>, Row> = BTreeMap::new();
    for row in rows {
        let key: Vec<_> = row.terms.clone().into_iter().collect();
        let known = least.get(&key).map_or(i128::MAX, |known| known.bound);
        let holds = key.is_empty() && row.bound >= 0;
        if row.bound < known && !holds {
            least.insert(key, row);
        }
    }
    least.into_values().collect()
}

/// The weights of a contradiction among the rows: their variables are
/// eliminated one after another, first those that an equation gives, then
/// the one in fewest pairs.
fn eliminate(mut rows: Vec<Row>) -> Option<BTreeMap<u16, i128>> {
    loop {
        let bare = |row: &&Row| row.terms.is_empty() && row.bound <= -1;
        if let Some(row) = rows.iter().find(bare) {
            return Some(row.weights.clone());
        }
        let pair = equation_pair(&rows);
        let variable = match pair {
            Some((row, _)) => *rows[row].terms.keys().next_back()?,
            None => cheapest(&rows)?,
        };
        rows = reduced(without(&rows, variable, pair)?);
        if rows.len() > 300 {
            return None;
        }
    }
}

/// The rows with a variable eliminated: each row where its coefficient is
/// above 0 is added to each where it is below. With a pair that makes an
/// equation it is enough to add one of the two to each.
fn without(rows: &[Row], variable: u16, pair: Option<(usize, usize)>) -> Option<Vec<Row>> {
    let coefficient = |row: &Row| row.terms.get(&variable).copied().unwrap_or(0);
    let numbered = || rows.iter().enumerate();
    let wanted =
        |p, q| pair.is_none_or(|(one, other)| [p, q].iter().any(|i| [one, other].contains(i)));
    let mut left: Vec<Row> = Vec::new();
    for (i, p) in numbered() {
        match coefficient(p) {
            0 => left.push(p.clone()),
            above @ 1.. => {
                for (j, q) in numbered().filter(|(_, row)| coefficient(row) < 0) {
                    if wanted(i, j) {
                        left.push(p.combined(-coefficient(q), q, above)?);
                    }
                }
            }
            _ => {}
        }
    }
    Some(left)
}

/// Two rows that are each other's negation, if there are any.
fn equation_pair(rows: &[Row]) -> Option<(usize, usize)> {
    let mut pairs = (0..rows.len()).flat_map(|i| (0..i).map(move |j| (i, j)));
    pairs.find(|(i, j)| {
        let (one, other) = (&rows[*i], &rows[*j]);
        let negated = other.terms.iter().map(|(key, number)| (key, -number));
        let terms = one.terms.iter().map(|(key, number)| (key, *number));
        !one.terms.is_empty() && one.bound == -other.bound && terms.eq(negated)
    })
}

/// The variable whose elimination makes the fewest rows, if any is left.
fn cheapest(rows: &[Row]) -> Option<u16> {
    let mut signs: BTreeMap<u16, (usize, usize)> = BTreeMap::new();
    for (variable, coefficient) in rows.iter().flat_map(|row| &row.terms) {
        let (above, below) = signs.entry(*variable).or_default();
        *if *coefficient > 0 { above } else { below } += 1;
    }
    let pairs = |entry: &(u16, (usize, usize))| entry.1 .0 * entry.1 .1;
    signs.into_iter().min_by_key(pairs).map(|entry| entry.0)
}
