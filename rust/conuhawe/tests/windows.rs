//! The windows of a certificate's parts: the base covers instants 0 to k, and
//! the step begins after the first instant.

use conuhawe::{check, Accepted, Place, Refusal};
use reference::build::proof::Proof;
use reference::build::{lit, opp, CertificateFile, NodeFile, Record, BOOL};

/// The line that has the base's clause of stream 2, and the step's.
const ARROW: [usize; 2] = [7, 13];

/// 0 and 1 are true, 2 is one of them by operator 12, and 3, the property, is
/// true -> pre 2.
fn node() -> NodeFile {
    let truth = Record::constant(BOOL, 1);
    let arrow = Record::arrow(BOOL, 0, 1);
    NodeFile::new(vec![truth, truth, arrow, Record::arrow_pre(BOOL, 0, 2)], 3)
}

/// 3 at offset 1 is 2 at offset 0, which is 0 in the base and 1 in the step.
fn certificate() -> CertificateFile {
    let clause = |stream, offset, operand| [lit(stream, offset), opp(lit(operand, 0))];
    let mut base = Proof::new(0);
    let fails = base.fails(3, 0..=1);
    let now = base.equation(3, 0, 1, &clause(3, 0, 0));
    let left = base.join(fails, now, opp(lit(3, 0)));
    let truth = base.equation(0, 0, 0, &[lit(0, 0)]);
    let left = base.join(left, truth, opp(lit(0, 0)));
    let before = base.equation(3, 1, 1, &clause(3, 1, 2));
    let left = base.join(left, before, opp(lit(3, 1)));
    let arrow = base.equation(2, 0, 1, &clause(2, 0, 0));
    let left = base.join(left, arrow, opp(lit(2, 0)));
    base.join(left, truth, opp(lit(0, 0)));
    let mut step = Proof::new(base.lines.len());
    let fails = step.fails(3, 1..=1);
    let before = step.equation(3, 1, 1, &clause(3, 1, 2));
    let left = step.join(fails, before, opp(lit(3, 1)));
    let arrow = step.equation(2, 0, 1, &clause(2, 0, 1));
    let left = step.join(left, arrow, opp(lit(2, 0)));
    let truth = step.equation(1, 0, 0, &[lit(1, 0)]);
    step.join(left, truth, opp(lit(1, 0)));
    CertificateFile {
        depth: 1,
        base: base.lines,
        step: step.lines,
        ..CertificateFile::default()
    }
}

fn answer(node: &NodeFile, certificate: &CertificateFile) -> Result<Accepted, Refusal> {
    check(&node.bytes(), &certificate.bytes())
}

fn refused(number: usize, line: usize) -> Result<Accepted, Refusal> {
    let place = Place::Line(line);
    Err(Refusal { number, place })
}

#[test]
fn operator_12_takes_b_where_the_step_begins() {
    let accepted = Accepted {
        depth: 1,
        base: 10,
        step: 7,
    };
    assert_eq!(answer(&node(), &certificate()), Ok(accepted));
}

#[test]
fn operator_12_takes_no_other_operand() {
    let [base, step] = ARROW;
    let mut wrong = certificate();
    wrong.step[step - wrong.base.len()].literals[1] = opp(lit(0, 0));
    assert_eq!(answer(&node(), &wrong), refused(17, step));
    let mut wrong = certificate();
    wrong.base[base].literals[1] = opp(lit(1, 0));
    assert_eq!(answer(&node(), &wrong), refused(17, base));
}

#[test]
fn operator_13_gives_nothing_where_the_step_begins() {
    let mut node = node();
    node.records[2] = Record::arrow_pre(BOOL, 0, 1);
    assert_eq!(answer(&node, &certificate()), refused(17, ARROW[1]));
}

#[test]
fn the_base_ends_at_k() {
    let mut wrong = certificate();
    let line = 5;
    assert_eq!(wrong.base[line].q, 1);
    wrong.base[line].q = 2;
    assert_eq!(answer(&node(), &wrong), refused(17, line));
}
