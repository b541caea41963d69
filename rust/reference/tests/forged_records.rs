//! Turns from records that no turn gave: the lines below were never checked,
//! and nothing of them is looked at but the literals of those that are cited.

mod common;
#[path = "common/turns.rs"]
mod model;

use common::two_bands;
use model::{accepted, line_mut, lines, refused, told, turned, unfinished, Files};
use reference::answer::Place::{self, Base, Step};
use reference::build::proof::resolvent;
use reference::build::random::Random;
use reference::build::{lit, opp, CertificateFile, Line};
use reference::certificate::check;

/// The lines of the two bands' certificate.
const ALL: usize = 35;
/// Count bytes of more literals than there is room for.
const OVER: [u8; 5] = [13, 14, 128, 200, 255];

fn files() -> Files {
    let (node, certificate) = two_bands();
    (node.bytes(), certificate)
}

#[test]
fn a_fault_below_the_record_is_not_seen() {
    let (node, mut certificate) = files();
    certificate.base[4].p = 4;
    certificate.step[3].kind = 0;
    let files = (node, certificate);
    assert_eq!(turned(&files, 0, ALL), refused(0, 19, Place::Line(4)));
    assert_eq!(turned(&files, 4, 1), refused(4, 19, Place::Line(4)));
    assert_eq!(turned(&files, 5, ALL), refused(5, 16, Place::Line(26)));
    assert_eq!(turned(&files, 5, 21), unfinished(5, 21));
    assert_eq!(turned(&files, 26, 1), refused(26, 16, Place::Line(26)));
    for line in 27..=ALL {
        let wanted = accepted(&files.1, line, ALL - line);
        assert_eq!(turned(&files, line, ALL), wanted);
    }
}

/// The line with all but its literals and their count as it should not be.
fn spoiled(line: &Line) -> Line {
    Line {
        kind: 77,
        p: 60_000,
        q: 60_001,
        r: 60_002,
        multipliers: [u32::MAX; 12],
        ..*line
    }
}

/// The joins of a turn find the literals of the lines below, whatever else
/// these hold.
#[test]
fn of_a_cited_line_the_literals_alone_are_read() {
    let (node, certificate) = files();
    for first in 0..=ALL {
        let mut spoilt = certificate.clone();
        for at in 0..first {
            let line = line_mut(&mut spoilt, at);
            *line = spoiled(line);
        }
        let files = (node.clone(), spoilt);
        let wanted = accepted(&certificate, first, ALL - first);
        assert_eq!(turned(&files, first, ALL), wanted);
        let at = first.saturating_sub(1);
        if first > 0 {
            assert_eq!(turned(&files, at, ALL), refused(at, 16, Place::Line(at)));
        }
    }
}

/// Twelve literals of the two bands, and then four more.
fn literals() -> [u16; 16] {
    std::array::from_fn(|i| {
        let i = u16::try_from(i).unwrap();
        lit(i % 6, i / 6 % 2) + i / 12
    })
}

/// A base of four lines: one that counts `count` literals, of which it has
/// twelve, then one with the opposite of the first of them, then their join on
/// it with these literals, line 2, and one more.
fn joined(count: u8, multiplier: u32, literals: &[u16]) -> Files {
    let (node, _) = files();
    let all = self::literals();
    let long = Line {
        count,
        multipliers: [multiplier; 12],
        ..Line::join(0, 0, 0, &all[..12])
    };
    let short = Line::join(0, 0, 0, &[opp(all[0])]);
    let certificate = CertificateFile {
        depth: 1,
        base: vec![
            long,
            short,
            Line::join(0, 1, all[0], literals),
            Line::default(),
        ],
        ..CertificateFile::default()
    };
    (node, certificate)
}

#[test]
fn a_cited_line_has_the_literals_it_counts_up_to_twelve() {
    let all = literals();
    let refusal = refused(2, 19, Place::Line(2));
    for count in 1..=12 {
        let counted = &all[1..usize::from(count)];
        let passed = turned(&joined(count, 0, counted), 2, 1);
        assert_eq!(passed, unfinished(2, 1));
        if let [fewer @ .., _] = counted {
            assert_eq!(turned(&joined(count, 0, fewer), 2, 1), refusal);
        }
    }
}

#[test]
fn a_count_over_twelve_is_as_twelve() {
    let all = literals();
    for count in OVER {
        for more in 12..=13 {
            let passed = turned(&joined(count, 0, &all[1..more]), 2, 1);
            assert_eq!(passed, unfinished(2, 1));
        }
        for at in 1..12 {
            let mut fewer = all[1..12].to_vec();
            fewer.remove(at - 1);
            let wanted = refused(2, 19, Place::Line(2));
            assert_eq!(turned(&joined(count, 0, &fewer), 2, 1), wanted);
        }
        // The line itself is refused once it is checked.
        let files = joined(count, 0, &all[1..12]);
        assert_eq!(turned(&files, 0, 1), refused(0, 16, Place::Line(0)));
    }
}

/// The multipliers stand where a thirteenth literal would: none is looked at,
/// neither as one that the join lacks nor as the one it is on.
#[test]
fn nothing_past_the_twelfth_literal_is_read() {
    let all = literals();
    for count in OVER {
        let twice = u32::from(all[15]) * 65_537;
        for multiplier in [u32::MAX, 65_535, twice] {
            let files = joined(count, multiplier, &all[1..12]);
            assert_eq!(turned(&files, 2, 1), unfinished(2, 1));
        }
        let (node, mut certificate) = joined(count, twice, &all[..12]);
        certificate.base[1].literals[0] = opp(all[15]);
        certificate.base[2].r = all[15];
        let mut files = (node, certificate);
        let wanted = refused(2, 19, Place::Line(2));
        assert_eq!(turned(&files, 2, 1), wanted);
        // As the twelfth it would do.
        files.1.base[0].literals[11] = all[15];
        assert_eq!(turned(&files, 2, 1), unfinished(2, 1));
    }
}

#[test]
fn a_cited_line_that_counts_no_literals_has_none() {
    let all = literals();
    let files = joined(0, 0, &all[..12]);
    assert_eq!(turned(&files, 2, 1), refused(2, 19, Place::Line(2)));
    assert_eq!(turned(&joined(1, 0, &[]), 2, 1), unfinished(2, 1));
}

/// 21 takes the count bytes of all lines as they are: 0 is a line without
/// literals, though some stand there, and 200 is none.
#[test]
fn refusal_21_looks_at_the_counts_of_unchecked_lines() {
    let (node, mut certificate) = files();
    for at in [22, 34] {
        line_mut(&mut certificate, at).count = 200;
    }
    let mut files = (node, certificate);
    assert_eq!(turned(&files, ALL, 0), refused(ALL, 21, Base));
    files.1.base[7].count = 0;
    assert_ne!(files.1.base[7].literals, [0; 12]);
    assert_eq!(turned(&files, ALL, 0), refused(ALL, 21, Step));
    files.1.step[0].count = 0;
    assert_eq!(turned(&files, ALL, 0), accepted(&files.1, ALL, 0));
    assert!(check(&files.0, &files.1.bytes()).is_err());
}

/// Nothing of the lines is right, and yet a record at the end is accepted: 02
/// has no such acceptance in the demands.
#[test]
fn a_record_at_the_end_is_believed() {
    let (node, mut certificate) = files();
    for at in 0..ALL {
        *line_mut(&mut certificate, at) = Line::default();
    }
    let files = (node, certificate);
    for line in 0..ALL {
        let wanted = refused(line, 16, Place::Line(line));
        assert_eq!(turned(&files, line, ALL), wanted);
    }
    assert_eq!(turned(&files, ALL, 0), accepted(&files.1, ALL, 0));
}

/// Where the record is doesn't change which lines a join may cite: those of its
/// own part that are lower than itself.
#[test]
fn cited_lines_are_lower_ones_of_the_same_part() {
    let (_, certificate) = files();
    let try_at = |at: usize, p, q| {
        let mut changed = files();
        let line = line_mut(&mut changed.1, at);
        (line.p, line.q) = (p, q);
        let turned = turned(&changed, at, 1);
        assert_eq!(turned, told(&changed, at, 1), "{at} {p} {q}");
        turned == unfinished(at, 1)
    };
    // The base has lines with the very same literals as the step's first two.
    assert_eq!(certificate.base[11].clause(), certificate.step[0].clause());
    assert_eq!(certificate.base[12].clause(), certificate.step[1].clause());
    assert!(try_at(25, 24, 23));
    for (p, q) in [(12, 23), (24, 11), (12, 11), (25, 23), (24, 25), (24, 34)] {
        assert!(!try_at(25, p, q), "{p} {q}");
    }
    assert!(try_at(13, 12, 11));
    for (p, q) in [(24, 11), (12, 23), (24, 23), (13, 11), (12, 65_535)] {
        assert!(!try_at(13, p, q), "{p} {q}");
    }
}

/// A join with itself would be right, were it lower: its literals are kept.
#[test]
fn a_join_does_not_cite_itself() {
    let one = lit(1, 0);
    for (at, lower) in [(1, 0), (22, 21), (24, 23), (34, 33)] {
        let mut files = files();
        for number in [lower, at] {
            let numbered = u16::try_from(number).unwrap();
            let line = Line::join(numbered, numbered, one, &[one, opp(one)]);
            *line_mut(&mut files.1, number) = line;
        }
        let refusal = refused(at, 19, Place::Line(at));
        assert_eq!(turned(&files, at, 1), refusal);
        let line = line_mut(&mut files.1, at);
        (line.p, line.q) = (line.p - 1, line.q - 1);
        let passed = turned(&files, at, 1);
        assert_eq!(passed, told(&files, at, 1));
        assert_ne!(passed, refusal);
    }
}

/// A line of any content whose literals are mostly some of a few.
fn any_line(random: &mut Random) -> Line {
    let number = |random: &mut Random| u16::from_le_bytes([random.byte(), random.byte()]);
    let count = match random.below(4) {
        0 => random.byte(),
        1 => 12,
        _ => u8::try_from(random.below(5)).unwrap(),
    };
    let mut line = Line {
        kind: random.byte(),
        count,
        p: number(random),
        q: number(random),
        r: number(random),
        ..Line::default()
    };
    for literal in &mut line.literals {
        *literal = match random.below(150) {
            0 => number(random),
            _ => literals()[random.below(3)] ^ u16::from(random.byte() & 1),
        };
    }
    for multiplier in &mut line.multipliers {
        let bytes = [0; 4].map(|_: u8| random.byte());
        *multiplier = u32::from_le_bytes(bytes);
    }
    line
}

/// A join of two of the lines below line `at`, mostly of its part and with what
/// it needs.
fn any_join(random: &mut Random, lines: &[Line], first: usize, at: usize) -> Line {
    let from = if random.below(9) == 0 { 0 } else { first };
    let cited = [0, 1].map(|_| from + random.below(at + 1 - from));
    let [p, q] = cited.map(|number| lines[number].clause());
    let r = random.pick(p).unwrap_or(0);
    let mut literals = resolvent(p, q, r);
    if random.below(4) == 0 {
        literals.pop();
    }
    let [p, q] = cited.map(|number| u16::try_from(number).unwrap());
    Line::join(p, q, r, &literals)
}

/// A join after lines of any content: the turn is as its rule tells, and does
/// not panic.
#[test]
fn joins_of_lines_of_any_content() {
    let mut random = Random::new(93);
    let (node, _) = files();
    let (mut passed, mut over, mut refusals) = (0, 0, 0);
    for _ in 0..30_000 {
        let [base, step] = [0, 1].map(|_| 2 + random.below(5));
        let mut certificate = CertificateFile {
            depth: 1,
            base: (0..base).map(|_| any_line(&mut random)).collect(),
            step: (0..step).map(|_| any_line(&mut random)).collect(),
            ..CertificateFile::default()
        };
        let at = 1 + random.below(base + step - 1);
        let first = if at < base { 0 } else { base };
        let join = any_join(&mut random, &lines(&certificate), first, at);
        *line_mut(&mut certificate, at) = join;
        let files = (node.clone(), certificate);
        let turned = turned(&files, at, 1);
        assert_eq!(turned, told(&files, at, 1));
        let cited = [join.p, join.q].map(|n| lines(&files.1)[usize::from(n)].count);
        if turned == refused(at, 19, Place::Line(at)) {
            refusals += 1;
        } else if turned == unfinished(at, 1) {
            passed += 1;
            over += usize::from(cited.iter().any(|count| *count > 12));
        }
    }
    assert!(passed > 2_000, "{passed}");
    assert!(over > 1_000, "{over}");
    assert!(refusals > 10_000, "{refusals}");
}
