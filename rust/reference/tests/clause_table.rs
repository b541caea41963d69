//! The clauses of each operator as 01 and 02 list them, literal by literal;
//! and that they are those of the solution.

mod common;

use common::{constant_certificate, trial};
use reference::build::random::{self, Random};
use reference::build::{lit, on, opp, Constraint, Line, NodeFile, Record, BOOL, INT};
use reference::certificate::equation::{clause, Item};
use reference::certificate::Part::{self, Base, Step};
use reference::node::{self, Type};
use reference::session::{begin, instant, Record as Session};

/// An item of a clause: a bool stream's literal, or a constraint.
#[derive(Clone, Debug)]
enum Want {
    Yes(u16, u16),
    No(u16, u16),
    Sum(Vec<(u16, u8, i32)>, i64),
}
use Want::{No, Sum, Yes};

/// x − y at most `bound`; x and y stand in rising order of offset and stream.
fn rising(x: (u16, u8), y: (u16, u8), bound: i64) -> Want {
    Sum(vec![(x.0, x.1, 1), (y.0, y.1, -1)], bound)
}

/// y − x at most `bound`; x and y stand in rising order of offset and stream.
fn falling(x: (u16, u8), y: (u16, u8), bound: i64) -> Want {
    Sum(vec![(x.0, x.1, -1), (y.0, y.1, 1)], bound)
}

/// [`rising`] or [`falling`].
type Bound = fn((u16, u8), (u16, u8), i64) -> Want;

/// An operator of two operands.
type Operator = fn(u16, u16) -> Record;

/// 0, 2 bools; 1, 3 ints; 4 the record, s; 5 true, the property; 6, 7 a bool
/// and an int.
fn node(record: Record) -> NodeFile {
    let records = vec![
        Record::input(BOOL),
        Record::input(INT),
        Record::input(BOOL),
        Record::input(INT),
        record,
        Record::constant(BOOL, 1),
        Record::input(BOOL),
        Record::input(INT),
    ];
    NodeFile::new(records, 5)
}

/// At depth 3 and this part and offset, stream 4 has exactly these clauses.
#[track_caller]
fn gives(record: Record, part: Part, q: u16, clauses: &[Vec<Want>]) {
    let node = node(record);
    let mut certificate = constant_certificate(5, 3);
    let mut lines = Vec::new();
    for (r, wanted) in (0..).zip(clauses) {
        let mut literals = Vec::new();
        for want in wanted {
            literals.push(match want {
                Yes(stream, offset) => lit(*stream, *offset),
                No(stream, offset) => opp(lit(*stream, *offset)),
                Sum(terms, bound) => {
                    certificate.constraints.push(Constraint::new(terms, *bound));
                    on(u16::try_from(certificate.constraints.len()).unwrap() - 1)
                }
            });
        }
        lines.push(Line::equation(4, q, r, &literals));
    }
    let answer = |line| trial(&node, &certificate, part, line);
    for line in &lines {
        assert_eq!(answer(*line), Ok(()), "{line:?}");
        for other in damaged(line) {
            assert_eq!(answer(other), Err(17), "{other:?}");
        }
        for r in 0..6 {
            let same = r == line.r;
            assert_eq!(
                answer(Line { r, ..*line }),
                if same { Ok(()) } else { Err(17) }
            );
        }
    }
    for r in [clauses.len(), 4, 5, 256, 65_535] {
        let r = u16::try_from(r).unwrap();
        if usize::from(r) >= clauses.len() {
            assert_eq!(answer(Line::equation(4, q, r, &[])), Err(17));
            assert_eq!(answer(Line::equation(4, q, r, &[lit(0, 0)])), Err(17));
        }
    }
}

/// The line with its literals reversed, one left out, one twice or one
/// turned into its opposite.
fn damaged(line: &Line) -> Vec<Line> {
    let literals = line.clause();
    let with = |literals: &[u16]| Line::equation(line.p, line.q, line.r, literals);
    let mut lines = vec![
        with(&literals[1..]),
        with(&[literals, &literals[..1]].concat()),
    ];
    let reversed: Vec<u16> = literals.iter().rev().copied().collect();
    if reversed != literals {
        lines.push(with(&reversed));
    }
    for i in 0..literals.len() {
        let mut turned = literals.to_vec();
        turned[i] = opp(turned[i]);
        lines.push(with(&turned));
    }
    lines
}

/// The parts and offsets of depth 3, with the offset as both types.
fn offsets() -> impl Iterator<Item = (Part, u16, u8)> {
    let parts = [Base, Step].into_iter();
    parts.flat_map(|part| (0..=3).map(move |q| (part, u16::from(q), q)))
}

#[test]
fn bool_operators() {
    for (part, q, _) in offsets() {
        let (s, a, b) = (Yes(4, q), Yes(0, q), Yes(2, q));
        let (not_s, not_a, not_b) = (No(4, q), No(0, q), No(2, q));
        let two = |x: &Want, y: &Want| vec![x.clone(), y.clone()];
        let three = |x: &Want, y: &Want, z: &Want| vec![x.clone(), y.clone(), z.clone()];
        gives(Record::input(BOOL), part, q, &[]);
        gives(Record::constant(BOOL, 1), part, q, &[vec![s.clone()]]);
        gives(Record::constant(BOOL, 0), part, q, &[vec![not_s.clone()]]);
        gives(Record::not(0), part, q, &[two(&s, &a), two(&not_s, &not_a)]);
        let and = [two(&not_s, &a), two(&not_s, &b), three(&s, &not_a, &not_b)];
        gives(Record::and(0, 2), part, q, &and);
        let or = [two(&s, &not_a), two(&s, &not_b), three(&not_s, &a, &b)];
        gives(Record::or(0, 2), part, q, &or);
        let same = [
            three(&not_s, &not_a, &b),
            three(&not_s, &a, &not_b),
            three(&s, &a, &b),
            three(&s, &not_a, &not_b),
        ];
        gives(Record::same(0, 2), part, q, &same);
    }
}

#[test]
fn bool_choice() {
    // if 2 then 0 else 2: the same stream as c and as b.
    for (part, q, _) in offsets() {
        let clauses = [
            vec![No(2, q), No(4, q), Yes(0, q)],
            vec![No(2, q), Yes(4, q), No(0, q)],
            vec![Yes(2, q), No(4, q), Yes(2, q)],
            vec![Yes(2, q), Yes(4, q), No(2, q)],
        ];
        gives(Record::choice(BOOL, 2, 0, 2), part, q, &clauses);
    }
}

#[test]
fn int_constants() {
    for (part, q, o) in offsets() {
        for k in [0, 1, -1, 1_000_000_000, -1_000_000_000] {
            let clauses = [
                vec![Sum(vec![(4, o, 1)], i64::from(k))],
                vec![Sum(vec![(4, o, -1)], -i64::from(k))],
            ];
            gives(Record::constant(INT, k), part, q, &clauses);
        }
        gives(Record::input(INT), part, q, &[]);
    }
}

#[test]
fn sums_and_differences() {
    let sums = |terms: [&[(u16, i32)]; 2], o: u8| {
        terms.map(|terms| {
            let terms = terms.iter().map(|(stream, factor)| (*stream, o, *factor));
            vec![Sum(terms.collect(), 0)]
        })
    };
    for (part, q, o) in offsets() {
        let sum = sums([&[(1, -1), (3, -1), (4, 1)], &[(1, 1), (3, 1), (4, -1)]], o);
        gives(Record::sum(1, 3), part, q, &sum);
        gives(Record::sum(3, 1), part, q, &sum);
        let twice = sums([&[(1, -2), (4, 1)], &[(1, 2), (4, -1)]], o);
        gives(Record::sum(1, 1), part, q, &twice);
        let difference = sums([&[(1, -1), (3, 1), (4, 1)], &[(1, 1), (3, -1), (4, -1)]], o);
        gives(Record::difference(1, 3), part, q, &difference);
        let turned = sums([&[(1, 1), (3, -1), (4, 1)], &[(1, -1), (3, 1), (4, -1)]], o);
        gives(Record::difference(3, 1), part, q, &turned);
        let nothing = sums([&[(4, 1)], &[(4, -1)]], o);
        gives(Record::difference(3, 3), part, q, &nothing);
    }
}

#[test]
fn multiples() {
    for (part, q, o) in offsets() {
        for k in [1, -1, 2, -7, 1_000_000_000, -1_000_000_000] {
            let clauses = [
                vec![Sum(vec![(3, o, -k), (4, o, 1)], 0)],
                vec![Sum(vec![(3, o, k), (4, o, -1)], 0)],
            ];
            gives(Record::multiple(k, 3), part, q, &clauses);
        }
        let clauses = [
            vec![Sum(vec![(4, o, 1)], 0)],
            vec![Sum(vec![(4, o, -1)], 0)],
        ];
        gives(Record::multiple(0, 3), part, q, &clauses);
    }
}

#[test]
fn comparisons() {
    for (part, q, o) in offsets() {
        let (x, y) = ((1, o), (3, o));
        let at_most = [
            vec![No(4, q), rising(x, y, 0)],
            vec![Yes(4, q), falling(x, y, -1)],
        ];
        gives(Record::at_most(1, 3), part, q, &at_most);
        let at_least = [
            vec![No(4, q), falling(x, y, 0)],
            vec![Yes(4, q), rising(x, y, -1)],
        ];
        gives(Record::at_most(3, 1), part, q, &at_least);
        let equal = [
            vec![No(4, q), rising(x, y, 0)],
            vec![No(4, q), falling(x, y, 0)],
            vec![Yes(4, q), rising(x, y, -1), falling(x, y, -1)],
        ];
        gives(Record::equal(1, 3), part, q, &equal);
        let itself = [
            vec![No(4, q), Sum(vec![], 0)],
            vec![Yes(4, q), Sum(vec![], -1)],
        ];
        gives(Record::at_most(3, 3), part, q, &itself);
    }
}

#[test]
fn a_stream_equal_to_itself() {
    // Clauses 0 and 1 have the same content, so each stands for the other.
    let node = node(Record::equal(1, 1));
    let mut certificate = constant_certificate(5, 1);
    certificate.constraints = vec![Constraint::new(&[], 0), Constraint::new(&[], -1)];
    let answer = |line| trial(&node, &certificate, Step, line);
    for r in [0, 1] {
        assert_eq!(
            answer(Line::equation(4, 0, r, &[opp(lit(4, 0)), on(0)])),
            Ok(())
        );
    }
    let third = Line::equation(4, 0, 2, &[lit(4, 0), on(1), on(1)]);
    assert_eq!(answer(third), Ok(()));
    let once = Line::equation(4, 0, 2, &[lit(4, 0), on(1)]);
    assert_eq!(answer(once), Err(17));
}

#[test]
fn int_choice() {
    for (part, q, o) in offsets() {
        let (x, y, s) = ((1, o), (3, o), (4, o));
        let clauses = [
            vec![No(2, q), falling(y, s, 0)],
            vec![No(2, q), rising(y, s, 0)],
            vec![Yes(2, q), falling(x, s, 0)],
            vec![Yes(2, q), rising(x, s, 0)],
        ];
        gives(Record::choice(INT, 2, 3, 1), part, q, &clauses);
    }
}

#[test]
fn arrows() {
    for (part, q, o) in offsets() {
        let bools = |stream, q2| {
            [
                vec![No(4, q), Yes(stream, q2)],
                vec![Yes(4, q), No(stream, q2)],
            ]
        };
        let ints = |x| [vec![falling(x, (4, o), 0)], vec![rising(x, (4, o), 0)]];
        match (part, q) {
            // 02: "operator 12 at step offset 0 takes b. Operator 13 still
            // gives nothing there."
            (Step, 0) => {
                gives(Record::arrow(BOOL, 0, 2), part, q, &bools(2, 0));
                gives(Record::arrow(INT, 1, 3), part, q, &ints((3, 0)));
                gives(Record::arrow_pre(BOOL, 0, 2), part, q, &[]);
                gives(Record::arrow_pre(INT, 1, 3), part, q, &[]);
            }
            (Base, 0) => {
                for operator in [Record::arrow, Record::arrow_pre] {
                    gives(operator(BOOL, 0, 2), part, q, &bools(0, 0));
                    gives(operator(INT, 1, 3), part, q, &ints((1, 0)));
                }
            }
            _ => {
                gives(Record::arrow(BOOL, 0, 2), part, q, &bools(2, q));
                gives(Record::arrow_pre(BOOL, 0, 2), part, q, &bools(2, q - 1));
                gives(Record::arrow_pre(BOOL, 0, 6), part, q, &bools(6, q - 1));
                gives(Record::arrow_pre(BOOL, 0, 4), part, q, &bools(4, q - 1));
                gives(Record::arrow(INT, 1, 3), part, q, &ints((3, o)));
                gives(Record::arrow_pre(INT, 1, 3), part, q, &ints((3, o - 1)));
                gives(Record::arrow_pre(INT, 1, 7), part, q, &ints((7, o - 1)));
                gives(Record::arrow_pre(INT, 1, 4), part, q, &ints((4, o - 1)));
            }
        }
    }
}

/// Whether stream 4 has, at depth 3 and this part and offset, the two clauses
/// in which t is this stream at this offset. It has both or neither.
#[track_caller]
fn takes(record: Record, part: Part, q: u8, (stream, offset): (u16, u8)) -> bool {
    let mut certificate = constant_certificate(5, 3);
    let clauses = if record.type_byte == BOOL {
        let (s, t) = (lit(4, q.into()), lit(stream, offset.into()));
        [vec![opp(s), t], vec![s, opp(t)]]
    } else {
        let mut terms = [(4, q, 1), (stream, offset, -1)];
        terms.sort_unstable_by_key(|(stream, offset, _)| (*offset, *stream));
        let at_most = Constraint::new(&terms, 0);
        certificate.constraints = vec![at_most, at_most.times(-1)];
        [vec![on(0)], vec![on(1)]]
    };
    let answers = [0, 1].map(|r| {
        let line = Line::equation(4, q.into(), r, &clauses[usize::from(r)]);
        trial(&node(record), &certificate, part, line)
    });
    assert!(answers == [Ok(()); 2] || answers == [Err(17); 2]);
    answers == [Ok(()); 2]
}

/// The operand that operator 12 or 13 of a and b takes, and its offset.
fn operand(operator: u8, part: Part, q: u8, a: u16, b: u16) -> Option<(u16, u8)> {
    match (operator, part, q) {
        (_, Base, 0) => Some((a, 0)),
        (12, _, _) => Some((b, q)),
        _ => q.checked_sub(1).map(|before| (b, before)),
    }
}

#[test]
fn arrows_take_one_operand_at_one_offset() {
    let mut taken = 0;
    for (part, _, q) in offsets() {
        for (type_byte, streams) in [(BOOL, [0, 2, 6]), (INT, [1, 3, 7])] {
            let [a, b, _] = streams;
            for arrow in [Record::arrow, Record::arrow_pre] {
                let record = arrow(type_byte, a, b);
                let chosen = operand(record.operator, part, q, a, b);
                for t in streams.iter().flat_map(|t| [0, 1, 2, 3].map(|o| (*t, o))) {
                    assert_eq!(takes(record, part, q, t), chosen == Some(t));
                }
                taken += usize::from(chosen.is_some());
            }
        }
    }
    // Two parts, four offsets, two types, two operators, but for 13 at step
    // offset 0.
    assert_eq!(taken, 2 * 4 * 2 * 2 - 2);
}

/// 14: "{s ≤ a} {s ≤ b} {a ≤ s, b ≤ s}"; 15 is the mirror.
#[test]
fn lesser_and_greater() {
    for (part, q, o) in offsets() {
        let (x, y, s, z) = ((1, o), (3, o), (4, o), (7, o));
        let mirrored: [(Operator, [Bound; 2]); 2] = [
            (Record::lesser, [falling, rising]),
            (Record::greater, [rising, falling]),
        ];
        for (operator, [outer, inner]) in mirrored {
            let clauses = [
                vec![outer(x, s, 0)],
                vec![outer(y, s, 0)],
                vec![inner(x, s, 0), inner(y, s, 0)],
            ];
            gives(operator(1, 3), part, q, &clauses);
            let turned = [
                vec![outer(y, s, 0)],
                vec![outer(x, s, 0)],
                vec![inner(y, s, 0), inner(x, s, 0)],
            ];
            gives(operator(3, 1), part, q, &turned);
            // A higher stream stands after s in its constraint.
            let higher = [
                vec![outer(x, s, 0)],
                vec![inner(s, z, 0)],
                vec![inner(x, s, 0), outer(s, z, 0)],
            ];
            gives(operator(1, 7), part, q, &higher);
        }
    }
}

#[test]
fn the_lesser_of_a_stream_and_itself() {
    // Clauses 0 and 1 have the same content; clause 2 has its one twice.
    for (operator, sign) in [(Record::lesser(1, 1), 1), (Record::greater(1, 1), -1)] {
        let node = node(operator);
        let mut certificate = constant_certificate(5, 1);
        certificate.constraints = vec![
            Constraint::new(&[(1, 0, -sign), (4, 0, sign)], 0),
            Constraint::new(&[(1, 0, sign), (4, 0, -sign)], 0),
        ];
        let answer = |r, literals: &[u16]| {
            let line = Line::equation(4, 0, r, literals);
            trial(&node, &certificate, Step, line)
        };
        assert_eq!([0, 1].map(|r| answer(r, &[on(0)])), [Ok(()); 2]);
        assert_eq!([0, 1].map(|r| answer(r, &[on(1)])), [Err(17); 2]);
        assert_eq!(answer(2, &[on(1), on(1)]), Ok(()));
        assert_eq!(answer(2, &[on(1)]), Err(17));
        assert_eq!(answer(2, &[on(0), on(0)]), Err(17));
    }
}

#[test]
fn content_is_compared_not_the_atom() {
    // The same constraint twice, and a multiple: any will do. Another bound,
    // another offset, a term less or more will not.
    let node = node(Record::at_most(1, 3));
    let mut certificate = constant_certificate(5, 3);
    certificate.constraints = vec![
        Constraint::new(&[(1, 1, 1), (3, 1, -1)], 0),
        Constraint::new(&[(1, 1, 1), (3, 1, -1)], 0),
        Constraint::new(&[(1, 1, 1), (3, 1, -1)], 1),
        Constraint::new(&[(1, 2, 1), (3, 2, -1)], 0),
        Constraint::new(&[(1, 1, 2), (3, 1, -2)], 0),
        Constraint::new(&[(1, 1, 1)], 0),
        Constraint::new(&[(1, 1, 1), (3, 1, -1), (4 + 3, 1, 1)], 0),
    ];
    let answer = |i| {
        let line = Line::equation(4, 1, 0, &[opp(lit(4, 1)), on(i)]);
        trial(&node, &certificate, Step, line)
    };
    assert_eq!([0, 1, 4].map(answer), [Ok(()); 3]);
    assert_eq!([2, 3, 5, 6].map(answer), [Err(17); 4]);
    // A bool literal where a constraint belongs.
    let line = Line::equation(4, 1, 0, &[opp(lit(4, 1)), lit(0, 1)]);
    assert_eq!(trial(&node, &certificate, Step, line), Err(17));
}

/// The values of some instants, from instant 0 on.
fn run(random: &mut Random, file: &[u8], instants: usize) -> Vec<Vec<i64>> {
    let node = node::read(file).unwrap();
    let mut session = Session::new();
    begin(&mut session, file).unwrap();
    let mut rows = Vec::new();
    for _ in 0..instants {
        let inputs: Vec<i64> = node
            .inputs()
            .iter()
            .map(|stream| match node.types()[usize::from(*stream)] {
                Type::Bool => random.input(BOOL),
                Type::Int => random.input(INT),
            })
            .collect();
        let mut values = vec![0; node.count()];
        if instant(&mut session, &inputs, &mut values).is_err() {
            break;
        }
        rows.push(values);
    }
    rows
}

/// Whether an item holds where offset 0 is row 0.
fn holds(item: &Item, rows: &[Vec<i64>]) -> bool {
    let value = |number: u16| rows[usize::from(number / 64)][usize::from(number % 64)];
    match item {
        Item::Literal(literal) => {
            let value = value(literal.number() / 2);
            value == i64::from(!literal.is_negated())
        }
        Item::Constraint(constraint) => {
            let terms = constraint.terms().iter();
            let products = terms.map(|t| i128::from(t.coefficient) * i128::from(value(t.variable)));
            products.sum::<i128>() <= i128::from(constraint.bound())
        }
    }
}

/// Whether all clauses of stream p at offset q hold.
fn all_hold(file: &[u8], part: Part, p: u16, q: u8, rows: &[Vec<i64>]) -> bool {
    let node = node::read(file).unwrap();
    (0..)
        .map_while(|r| clause(&node, part, p, q, r))
        .all(|clause| clause.items().iter().any(|item| holds(item, rows)))
}

/// What the step says of operator 12 at offset 0 holds from instant 1 on, and
/// not at instant 0, which the base covers.
#[test]
fn the_step_begins_after_instant_0() {
    let file = node(Record::arrow(BOOL, 0, 2)).bytes();
    let inputs = [1, 0, 0, 0, 0, 0];
    let mut session = Session::new();
    begin(&mut session, &file).unwrap();
    let rows = [0, 1].map(|_| {
        let mut values = vec![0; 8];
        instant(&mut session, &inputs, &mut values).unwrap();
        values
    });
    assert_eq!(rows.each_ref().map(|row| row[4]), [1, 0]);
    let at = |part, start: usize| all_hold(&file, part, 4, 0, &rows[start..]);
    assert_eq!([at(Base, 0), at(Base, 1)], [true, false]);
    assert_eq!([at(Step, 0), at(Step, 1)], [false, true]);
}

#[test]
fn the_solution_satisfies_every_clause_and_no_other_value_does() {
    let mut random = Random::new(20);
    let mut cells = 0;
    for size in (3..12).cycle().take(3_000) {
        let file = random::node(&mut random, size).bytes();
        let node = node::read(&file).unwrap();
        let rows = run(&mut random, &file, 5);
        for (q, start) in (0..rows.len()).flat_map(|q| [(q, 0), (q, 1), (q, 2)]) {
            let Some(row) = rows.get(start..).filter(|rows| q < rows.len()) else {
                continue;
            };
            let part = if start == 0 { Base } else { Step };
            for p in 0..node.count() {
                let (stream, offset) = (u16::try_from(p).unwrap(), u8::try_from(q).unwrap());
                assert!(all_hold(&file, part, stream, offset, row));
                if clause(&node, part, stream, offset, 0).is_some() {
                    cells += 1;
                    let mut wrong = row.to_vec();
                    wrong[q][p] = match node.types()[p] {
                        Type::Bool => 1 - wrong[q][p],
                        Type::Int => wrong[q][p] ^ 1,
                    };
                    assert!(!all_hold(&file, part, stream, offset, &wrong));
                }
            }
        }
    }
    assert!(cells > 50_000, "{cells}");
}
