//! Equation lines whose constraints are multiplied through.

use conuhawe::{check, Accepted, Place, Refusal};
use reference::build::{orders, CertificateFile, Constraint};

const ACCEPTED: Accepted = Accepted {
    depth: 1,
    base: 23,
    step: 12,
};

fn answer(certificate: &CertificateFile) -> Result<Accepted, Refusal> {
    check(&orders::node().bytes(), &certificate.bytes())
}

#[test]
fn a_multiple_is_accepted() {
    for factors in [[1, 1], [2, 2], [2, 3], [1, 1_000_000], [1_000_000_000; 2]] {
        assert_eq!(answer(&orders::certificate(factors)), Ok(ACCEPTED));
    }
}

#[test]
fn what_is_no_multiple_is_refused() {
    // Constraint 0 is v − u at most −1, and line 3 the first that it is in.
    let refusal = Refusal {
        number: 17,
        place: Place::Line(3),
    };
    let sum = |u, v, bound| Constraint::new(&[(0, 0, u), (1, 0, v)], bound);
    for wrong in [
        Constraint::new(&[], 0),
        sum(2, -2, 2),
        sum(-2, 2, -1),
        sum(-2, 1, -2),
        sum(-2, 3, -2),
    ] {
        let mut certificate = orders::certificate([2, 2]);
        certificate.constraints[0] = wrong;
        assert_eq!(answer(&certificate), Err(refusal), "{wrong:?}");
    }
}
