//! A turn told in the words of its rule, over certificates that are still in
//! their fields, and what the tests of turns share.

#![allow(dead_code)]

use reference::answer::{Accepted, Place, Refusal, Verdict};
use reference::build::proof::resolvent;
use reference::build::{opp, CertificateFile, Line};
use reference::certificate::check;
use reference::certificate::turns::{turn, Answer, Progress, Turned};

/// The files of a turn: the node's bytes, and the certificate in its fields.
pub type Files = (Vec<u8>, CertificateFile);

/// A turn on these files.
pub fn turned((node, certificate): &Files, line: usize, quota: usize) -> Turned {
    turn(node, &certificate.bytes(), Progress { line }, quota)
}

/// What a turn from `line` gives that is not refused.
pub fn moved(line: usize, checked: usize, answer: Answer) -> Turned {
    Turned {
        answer,
        progress: Progress {
            line: line + checked,
        },
        checked,
    }
}

/// What a turn from `line` gives that leaves lines.
pub fn unfinished(line: usize, checked: usize) -> Turned {
    moved(line, checked, Answer::Unfinished)
}

/// What a turn from `line` gives that accepts the certificate.
pub fn accepted(certificate: &CertificateFile, line: usize, checked: usize) -> Turned {
    let count = |lines: &[Line]| u16::try_from(lines.len()).unwrap();
    let accepted = Accepted {
        depth: certificate.depth,
        base: count(&certificate.base),
        step: count(&certificate.step),
    };
    moved(line, checked, Answer::Accepted(accepted))
}

/// What a turn from `line` gives that is refused: the record unmoved, and 0.
pub fn refused(line: usize, number: u8, place: Place) -> Turned {
    let refusal = Refusal::new(number, place);
    moved(line, 0, Answer::Refused(refusal))
}

/// The answer of one call.
pub fn answer(verdict: Verdict) -> Answer {
    verdict.map_or_else(Answer::Refused, Answer::Accepted)
}

/// The lines of both parts.
pub fn lines(certificate: &CertificateFile) -> Vec<Line> {
    [&certificate.base[..], &certificate.step].concat()
}

/// The line of this number.
pub fn line_mut(certificate: &mut CertificateFile, number: usize) -> &mut Line {
    match number.checked_sub(certificate.base.len()) {
        Some(number) => &mut certificate.step[number],
        None => &mut certificate.base[number],
    }
}

/// The certificate without its lines.
fn without_lines(certificate: &CertificateFile) -> CertificateFile {
    CertificateFile {
        base: Vec::new(),
        step: Vec::new(),
        ..certificate.clone()
    }
}

/// The refusal that comes before all lines, if there is one: without lines
/// there is 21 else.
fn refusal_before_lines((node, certificate): &Files) -> Option<Refusal> {
    let refusal = check(node, &without_lines(certificate).bytes()).unwrap_err();
    (refusal.number != 21).then_some(refusal)
}

/// The number by which a line is refused in these files, if it is. The line is
/// checked as the only one of its certificate; where it is a join, which finds
/// no lines there, the lines that it cites are looked up here.
pub fn refusal_of_line(files: &Files, number: usize) -> Option<u8> {
    let (node, certificate) = files;
    let mut alone = without_lines(certificate);
    let line = lines(certificate)[number];
    let is_base = number < certificate.base.len();
    let part = if is_base {
        &mut alone.base
    } else {
        &mut alone.step
    };
    part.push(line);
    let refusal = check(node, &alone.bytes()).unwrap_err();
    match (refusal.number, refusal.place) {
        (21, _) => None,
        (19, Place::Line(0)) => (!is_join(certificate, number)).then_some(19),
        (number, Place::Line(0)) => Some(number),
        _ => panic!("{refusal} of one line"),
    }
}

/// 01: "p and q are lower lines of the same part; literal r stands in p, its
/// opposite in q. Each literal of p but r, and of q but the opposite, stands in
/// this line." Of a cited line at most twelve literals are looked at, and
/// nothing else.
fn is_join(certificate: &CertificateFile, number: usize) -> bool {
    let lines = lines(certificate);
    let base = certificate.base.len();
    let first = if number < base { 0 } else { base };
    let lower = &lines[first..number];
    let cited = |n: u16| lower.get(usize::from(n).checked_sub(first)?);
    let Line { p, q, r, .. } = lines[number];
    let (Some(p), Some(q)) = (cited(p), cited(q)) else {
        return false;
    };
    let left = resolvent(p.clause(), q.clause(), r);
    p.clause().contains(&r)
        && q.clause().contains(&opp(r))
        && left.iter().all(|l| lines[number].clause().contains(l))
}

/// A turn by its rule, step by step.
pub fn told(files: &Files, from: usize, quota: usize) -> Turned {
    let (_, certificate) = files;
    let lines = lines(certificate);
    if let Some(refusal) = refusal_before_lines(files) {
        return refused(from, refusal.number, refusal.place);
    }
    if from > lines.len() {
        return refused(from, 55, Place::File);
    }
    let mut next = from;
    while next < lines.len() && next - from < quota {
        if let Some(number) = refusal_of_line(files, next) {
            return refused(from, number, Place::Line(next));
        }
        next += 1;
    }
    let parts = [
        (&certificate.base, Place::Base),
        (&certificate.step, Place::Step),
    ];
    let open = |part: &[Line]| part.iter().all(|line| line.count != 0);
    match parts.into_iter().find(|(part, _)| open(part)) {
        _ if next < lines.len() => unfinished(from, next - from),
        Some((_, place)) => refused(from, 21, place),
        None => accepted(certificate, from, next - from),
    }
}
