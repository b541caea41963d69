//! A certificate checked in turns: what a record and a quota do, the refusals
//! and where they leave the record, and lists of turns on the same two files.
//! Records that no turn gave are in `forged_records.rs`, files that change
//! between turns in `changed_files.rs`.

mod common;
#[path = "common/examples.rs"]
mod examples;
#[path = "common/turns.rs"]
mod model;

use common::{constant_certificate, patched_back, two_bands, with_base_lines};
use model::{
    accepted, answer, line_mut, lines, moved, refusal_of_line, refused, told, turned, unfinished,
    Files,
};
use reference::answer::Place::{self, Base, File, Step};
use reference::answer::Refusal;
use reference::build::random::{damage, Random};
use reference::build::{Constraint, Line, NodeFile, Record, INT};
use reference::certificate::check;
use reference::certificate::turns::{turn, turns_begin, Answer, Progress, Turned};
use std::collections::BTreeSet;

/// The lines of the two bands' certificate, 23 of the base and 12 of the step.
const ALL: usize = 35;
/// 2^64 − 1.
const MOST: usize = usize::MAX;
/// Quotas at each limit.
const QUOTAS: [usize; 9] = [0, 1, 7, ALL - 1, ALL, ALL + 1, MOST / 2, MOST - 1, MOST];

/// 01's two bands.
fn files() -> Files {
    let (node, certificate) = two_bands();
    (node.bytes(), certificate)
}

/// The two bands with a line exchanged for another.
fn with_line(number: usize, line: Line) -> Files {
    let (node, mut certificate) = files();
    *line_mut(&mut certificate, number) = line;
    (node, certificate)
}

/// A line refused by each number, whatever the node and the certificate.
fn faults() -> [(u8, Line); 6] {
    [
        (16, Line::default()),
        (17, Line::equation(65_535, 0, 0, &[])),
        (18, Line::property(9, &[])),
        (19, Line::join(65_535, 65_535, 0, &[])),
        (20, Line::arithmetic(&[])),
        (22, Line::cut(0, &[])),
    ]
}

#[test]
fn a_begun_record_is_at_line_0() {
    assert_eq!(turns_begin(), Progress { line: 0 });
    assert_eq!(u64::try_from(MOST), Ok(u64::MAX));
}

#[test]
fn a_quota_below_all_leaves_lines() {
    let files = files();
    assert_eq!(lines(&files.1).len(), ALL);
    for quota in 0..ALL {
        assert_eq!(turned(&files, 0, quota), unfinished(0, quota));
    }
}

#[test]
fn a_quota_of_all_or_more_checks_all() {
    let files = files();
    let wanted = accepted(&files.1, 0, ALL);
    assert_eq!(
        wanted.answer.to_string(),
        "accepted depth 1 base 23 step 12"
    );
    for quota in [ALL, ALL + 1, MOST / 2, MOST - 1, MOST] {
        assert_eq!(turned(&files, 0, quota), wanted);
    }
}

/// A record and a quota may add up to more than 2^64 − 1.
#[test]
fn all_that_are_left_is_fewer_than_the_quota() {
    let files = files();
    for line in 0..=ALL {
        for quota in [ALL, MOST - ALL, MOST - line, MOST - 1, MOST] {
            let wanted = accepted(&files.1, line, ALL - line);
            assert_eq!(turned(&files, line, quota), wanted, "{line} {quota}");
        }
    }
}

/// 02: "Quota 0 checks no line."
#[test]
fn quota_0_checks_no_line() {
    for (number, fault) in faults() {
        for at in [0, 4, 22, 23, 34] {
            let files = with_line(at, fault);
            assert_eq!(turned(&files, at, 0), unfinished(at, 0));
            let refusal = refused(at, number, Place::Line(at));
            assert_eq!(turned(&files, at, 1), refusal);
        }
    }
}

#[test]
fn a_turn_at_the_end_is_final() {
    let files = files();
    for quota in QUOTAS {
        let wanted = accepted(&files.1, ALL, 0);
        assert_eq!(turned(&files, ALL, quota), wanted);
    }
}

#[test]
fn a_certificate_without_lines_is_final_at_once() {
    let (node, mut certificate) = files();
    certificate.base.clear();
    certificate.step.clear();
    let files = (node, certificate);
    for quota in QUOTAS {
        assert_eq!(turned(&files, 0, quota), refused(0, 21, Base));
        assert_eq!(turned(&files, 1, quota), refused(1, 55, File));
    }
}

/// The base's last line is then the last of all.
#[test]
fn a_certificate_without_step_lines_is_final_after_the_base() {
    let (node, mut certificate) = files();
    certificate.step.clear();
    let files = (node, certificate);
    assert_eq!(turned(&files, 0, 22), unfinished(0, 22));
    for quota in [23, 24, MOST] {
        assert_eq!(turned(&files, 0, quota), refused(0, 21, Step));
    }
}

#[test]
fn a_line_at_fault_is_refused_by_the_turn_that_reaches_it() {
    for (number, fault) in faults() {
        for at in [0, 1, 4, 22, 23, 25, 34] {
            let files = with_line(at, fault);
            let refusal = |line| refused(line, number, Place::Line(at));
            for quota in 0..=at {
                assert_eq!(turned(&files, 0, quota), unfinished(0, quota));
            }
            for quota in [at + 1, at + 2, ALL, MOST] {
                assert_eq!(turned(&files, 0, quota), refusal(0));
                for line in 0..=at {
                    assert_eq!(turned(&files, line, quota), refusal(line));
                }
            }
        }
    }
}

/// The lines before the first at fault are not counted, and the record stays
/// before them.
#[test]
fn a_refused_turn_moves_past_no_line() {
    let files = with_line(4, Line::default());
    let refusal = |line| refused(line, 16, Place::Line(4));
    assert_eq!(turned(&files, 0, 7), refusal(0));
    assert_eq!(turned(&files, 2, 7), refusal(2));
    // A smaller quota moves on again.
    assert_eq!(turned(&files, 2, 2), unfinished(2, 2));
    assert_eq!(turned(&files, 4, 1), refusal(4));
}

#[test]
fn the_first_line_at_fault_is_named() {
    let (node, mut certificate) = with_line(30, Line::default());
    certificate.base[9].kind = 6;
    certificate.base[12].p = 99;
    let files = (node, certificate);
    assert_eq!(turned(&files, 0, MOST), refused(0, 16, Place::Line(9)));
    assert_eq!(turned(&files, 9, MOST), refused(9, 16, Place::Line(9)));
    assert_eq!(turned(&files, 10, MOST), refused(10, 17, Place::Line(12)));
    assert_eq!(turned(&files, 13, MOST), refused(13, 16, Place::Line(30)));
}

/// The two bands without the last line of one part or of both, and where 21
/// then is.
fn open() -> [(Files, Place); 3] {
    let (node, certificate) = files();
    let mut base = certificate.clone();
    base.base.pop();
    for line in base.step.iter_mut().filter(|line| line.kind == 3) {
        line.p -= 1;
        line.q -= 1;
    }
    let mut both = base.clone();
    both.step.pop();
    let mut step = certificate;
    step.step.pop();
    let of = |certificate| (node.clone(), certificate);
    [(of(base), Base), (of(step), Step), (of(both), Base)]
}

#[test]
fn refusal_21_comes_with_the_last_line() {
    for (files, place) in open() {
        let count = lines(&files.1).len();
        for line in 0..=count {
            for quota in 0..count - line {
                assert_eq!(turned(&files, line, quota), unfinished(line, quota));
            }
            for quota in [count - line, count - line + 1, MOST] {
                assert_eq!(turned(&files, line, quota), refused(line, 21, place));
            }
        }
    }
}

/// Where a line of the last turn is at fault, 21 is not reached.
#[test]
fn refusal_21_comes_after_the_lines() {
    for (mut files, place) in open() {
        let last = lines(&files.1).len() - 1;
        line_mut(&mut files.1, last).kind = 0;
        for line in 0..=last {
            let wanted = refused(line, 16, Place::Line(last));
            assert_eq!(turned(&files, line, MOST), wanted);
        }
        let end = last + 1;
        assert_eq!(turned(&files, end, MOST), refused(end, 21, place));
    }
}

/// 21 is over the lines of all turns: those of the last alone may all have
/// literals.
#[test]
fn a_part_may_end_in_an_earlier_turn() {
    let (node, certificate) = files();
    let more = certificate.base[0];
    let mut longer = with_base_lines(&certificate, &[more; 3]);
    longer.step.extend([longer.step[0]; 4]);
    let files = (node, longer);
    let count = ALL + 7;
    for first in 0..=count {
        let wanted = accepted(&files.1, first, count - first);
        assert_eq!(turned(&files, first, MOST), wanted);
    }
}

/// 02: "Errors: 55, progress past the last line".
#[test]
fn refusal_55_one_past_the_end_and_at_the_greatest() {
    let files = files();
    for line in [ALL + 1, ALL + 2, 65_536, MOST / 2, MOST - 1, MOST] {
        for quota in QUOTAS {
            assert_eq!(turned(&files, line, quota), refused(line, 55, File));
        }
    }
    for line in [0, ALL - 1, ALL] {
        for quota in QUOTAS {
            let Turned { answer, .. } = turned(&files, line, quota);
            assert!(!matches!(answer, Answer::Refused(_)), "{line} {quota}");
        }
    }
}

/// All lines are at fault and no part ends: 55 comes first.
#[test]
fn refusal_55_comes_before_16_and_21() {
    let (node, mut certificate) = files();
    for at in 0..ALL {
        *line_mut(&mut certificate, at) = Line {
            count: 1,
            ..Line::default()
        };
    }
    let files = (node, certificate);
    for quota in QUOTAS {
        for line in [ALL + 1, MOST] {
            assert_eq!(turned(&files, line, quota), refused(line, 55, File));
        }
        assert_eq!(turned(&files, ALL, quota), refused(ALL, 21, Base));
    }
    assert_eq!(turned(&files, 0, 1), refused(0, 16, Place::Line(0)));
}

/// Node files refused by each number of a node's, with their places.
fn refused_nodes() -> Vec<(Vec<u8>, Refusal)> {
    let (node, _) = two_bands();
    let good = node.bytes();
    let with = |change: &dyn Fn(&mut NodeFile)| {
        let mut node = node.clone();
        change(&mut node);
        node.bytes()
    };
    let record = |number, i| Refusal::new(number, Place::Record(i));
    vec![
        (good[good.len() - 15..].to_vec(), Refusal::file(1)),
        (patched_back(&good, 14, &[2]), Refusal::file(2)),
        (patched_back(&good, 12, &[0]), Refusal::file(3)),
        (good[1..].to_vec(), Refusal::file(4)),
        (with(&|n| n.records[3].operator = 16), record(5, 3)),
        (with(&|n| n.records[3].a = 6), record(6, 3)),
        (with(&|n| n.records[3].a = 4), record(23, 3)),
        (with(&|n| n.records[1].type_byte = INT), record(7, 3)),
        (
            with(&|n| {
                n.records.push(Record::constant(INT, 1));
                n.property = 6;
            }),
            record(8, 6),
        ),
    ]
}

/// Certificates refused before their lines, with their places.
fn refused_certificates() -> Vec<(Vec<u8>, Refusal)> {
    let (_, certificate) = two_bands();
    let good = certificate.bytes();
    let mut constrained = certificate;
    constrained.constraints = vec![Constraint::new(&[], 0); 3];
    constrained.constraints[2].count = 9;
    let constraint = Refusal::new(15, Place::Constraint(2));
    vec![
        (good[good.len() - 15..].to_vec(), Refusal::file(11)),
        (patched_back(&good, 14, &[1]), Refusal::file(12)),
        (patched_back(&good, 13, &[9]), Refusal::file(13)),
        (good[1..].to_vec(), Refusal::file(14)),
        (constrained.bytes(), constraint),
    ]
}

/// Every turn is refused by what comes before the lines, whatever its record,
/// one past the last line too, and its quota, 0 too.
#[test]
fn all_that_comes_before_the_lines_is_checked_in_every_turn() {
    let (node, certificate) = two_bands();
    let (node, certificate) = (node.bytes(), certificate.bytes());
    let mut met = Vec::new();
    let mut try_all = |node: &[u8], certificate: &[u8], refusal: Refusal| {
        met.push(refusal.number);
        assert_eq!(check(node, certificate), Err(refusal));
        for line in [0, 1, 5, ALL - 1, ALL, ALL + 1, MOST] {
            for quota in QUOTAS {
                let wanted = refused(line, refusal.number, refusal.place);
                let told = turn(node, certificate, Progress { line }, quota);
                assert_eq!(told, wanted);
            }
        }
    };
    for (node, refusal) in refused_nodes() {
        try_all(&node, &certificate, refusal);
        // The node's comes first.
        try_all(&node, &[], refusal);
    }
    for (certificate, refusal) in refused_certificates() {
        try_all(&node, &certificate, refusal);
    }
    let met: BTreeSet<u8> = met.into_iter().collect();
    let wanted: BTreeSet<u8> = (1..=8).chain(11..=15).chain([23]).collect();
    assert_eq!(met, wanted);
}

/// With faults in the lines too, 15 comes before 55 and 55 before 16.
#[test]
fn refusal_55_comes_after_15_and_before_16() {
    let (node, mut certificate) = with_line(0, Line::default());
    certificate.constraints = vec![Constraint::new(&[], i64::MAX)];
    let mut files = (node, certificate);
    let constraint = Place::Constraint(0);
    for line in [0, ALL + 1, MOST] {
        assert_eq!(turned(&files, line, 1), refused(line, 15, constraint));
    }
    files.1.constraints.clear();
    for line in [ALL + 1, MOST] {
        assert_eq!(turned(&files, line, 1), refused(line, 55, File));
    }
    assert_eq!(turned(&files, 0, 1), refused(0, 16, Place::Line(0)));
}

/// Every record and every quota that a short certificate knows apart, each
/// told by the rule.
#[test]
fn each_turn_is_as_its_rule_tells() {
    let mut all = vec![files()];
    all.extend(open().into_iter().map(|(files, _)| files));
    for (_, fault) in faults() {
        all.extend([0, 4, 22, 23, 34].map(|at| with_line(at, fault)));
    }
    for files in all {
        let count = lines(&files.1).len();
        for line in (0..=count + 2).chain([MOST - 1, MOST]) {
            for quota in [0, 1, 2, 7, 11, 12, 23, count - 1, count, count + 1, MOST] {
                let wanted = told(&files, line, quota);
                assert_eq!(turned(&files, line, quota), wanted, "{line} {quota}");
            }
        }
    }
}

/// One turn from a begun record with everything is one call.
#[test]
fn one_call_is_one_turn() {
    for (node, certificate) in examples::certified() {
        let files = (node.bytes(), certificate);
        let count = lines(&files.1).len();
        for quota in [count, count + 1, MOST] {
            assert_eq!(turned(&files, 0, quota), accepted(&files.1, 0, count));
        }
        let one = answer(check(&files.0, &files.1.bytes()));
        assert_eq!(turned(&files, 0, MOST), moved(0, count, one));
    }
}

/// Turns of the same quota: as many as it takes, and one more.
#[test]
fn turns_of_1_and_of_7_lines() {
    for (node, certificate) in examples::certified() {
        let files = (node.bytes(), certificate);
        let count = lines(&files.1).len();
        for quota in [1, 7] {
            let mut line = 0;
            while count - line > quota {
                assert_eq!(turned(&files, line, quota), unfinished(line, quota));
                line += quota;
            }
            let last = accepted(&files.1, line, count - line);
            assert_eq!(turned(&files, line, quota), last);
            let again = accepted(&files.1, count, 0);
            assert_eq!(turned(&files, count, quota), again);
        }
    }
}

/// The longest certificate has 818 lines.
#[test]
fn the_longest_certificate_in_turns() {
    let (node, mut certificate) = files();
    let more = certificate.step[0];
    certificate.step.resize(818 - 23, more);
    let files = (node, certificate);
    assert_eq!(turned(&files, 0, 817), unfinished(0, 817));
    assert_eq!(turned(&files, 817, 1), accepted(&files.1, 817, 1));
    assert_eq!(turned(&files, 0, 818), accepted(&files.1, 0, 818));
    assert_eq!(turned(&files, 819, 1), refused(819, 55, File));
}

/// At each depth the step's joins cite lines of earlier turns.
#[test]
fn each_depth_in_turns_of_one_line() {
    for depth in 1..=8 {
        let certificate = constant_certificate(3, depth);
        let files = (common::comparing_node().bytes(), certificate);
        let count = lines(&files.1).len();
        for line in 0..count {
            assert_eq!(refusal_of_line(&files, line), None);
            let turned = turned(&files, line, 1);
            let last = line + 1 == count;
            assert_eq!(turned.answer == Answer::Unfinished, !last);
            assert_eq!((turned.progress.line, turned.checked), (line + 1, 1));
        }
    }
}

/// A quota: often small, at times 0, at times more than all.
fn quota(random: &mut Random) -> usize {
    match random.below(8) {
        0 => 0,
        1 => random.below(1_000),
        2 => usize::try_from(random.bits()).unwrap(),
        _ => random.below(9),
    }
}

/// Turns from a begun record, each taking the record that the turn before gave,
/// some of them after the final answer. That answer is that of one call, and on
/// acceptance the numbers add to all lines. Gives it, if there is one.
fn run(random: &mut Random, node: &[u8], certificate: &[u8]) -> Option<Answer> {
    let one = answer(check(node, certificate));
    let mut progress = turns_begin();
    let (mut sum, mut last) = (0, None);
    for _ in 0..1 + random.below(60) {
        let before = progress;
        let turned = turn(node, certificate, progress, quota(random));
        progress = turned.progress;
        sum += turned.checked;
        assert_eq!(progress.line, before.line + turned.checked);
        assert_eq!(progress.line, sum);
        if turned.answer == Answer::Unfinished {
            assert!(!matches!(last, Some(Answer::Accepted(_))));
            continue;
        }
        assert_eq!(turned.answer, one);
        last = Some(one);
        match one {
            Answer::Accepted(all) => assert_eq!(sum, usize::from(all.base) + usize::from(all.step)),
            _ => assert_eq!((turned.checked, progress), (0, before)),
        }
    }
    last
}

/// 02: "the final answer equals that of one call, and on acceptance the numbers
/// add to all lines of both parts".
#[test]
fn lists_of_turns_on_the_same_files() {
    let mut random = Random::new(91);
    for (node, certificate) in examples::certified() {
        let (node, certificate) = (node.bytes(), certificate.bytes());
        let lists = (0..40).map(|_| run(&mut random, &node, &certificate));
        let accepted = lists.flatten().count();
        assert!(accepted > 10, "{accepted}");
    }
}

/// The same on files that are damaged: each refusal is met in the midst of
/// lists, and there are lists that end without one.
#[test]
fn lists_of_turns_on_damaged_files() {
    let mut random = Random::new(92);
    let pairs: Vec<(Vec<u8>, Vec<u8>)> = examples::certified()
        .into_iter()
        .map(|(node, certificate)| (node.bytes(), certificate.bytes()))
        .collect();
    let (mut met, mut open) = (BTreeSet::new(), 0);
    for i in 0..30_000 {
        let (mut node, mut certificate) = pairs[random.below(pairs.len())].clone();
        if i % 8 == 0 {
            damage(&mut random, &mut node);
        } else {
            damage(&mut random, &mut certificate);
        }
        match run(&mut random, &node, &certificate) {
            Some(Answer::Refused(refusal)) => drop(met.insert(refusal.number)),
            Some(_) => drop(met.insert(0)),
            None => open += 1,
        }
    }
    let wanted: BTreeSet<u8> = (0..=8).chain(11..=23).collect();
    assert_eq!(met, wanted);
    assert!(open > 100, "{open}");
}

/// After an accepted turn a further one is accepted with 0 lines; after a
/// refused one a smaller quota may be unfinished again.
#[test]
fn turns_after_the_final_one() {
    let good = files();
    let mut line = 0;
    for (quota, checked) in [(30, 30), (30, 5), (30, 0), (0, 0), (MOST, 0)] {
        let turned = turned(&good, line, quota);
        assert_eq!(turned.checked, checked);
        line = turned.progress.line;
    }
    assert_eq!(line, ALL);
    let wrong = with_line(25, Line::default());
    assert_eq!(turned(&wrong, 20, 9), refused(20, 16, Place::Line(25)));
    assert_eq!(turned(&wrong, 20, 5), unfinished(20, 5));
    assert_eq!(turned(&wrong, 25, 0), unfinished(25, 0));
    assert_eq!(turned(&wrong, 25, 1), refused(25, 16, Place::Line(25)));
}

#[test]
fn answers_are_said_as_those_of_one_call() {
    let said = |files: &Files, line| turned(files, line, 30).answer.to_string();
    assert_eq!(said(&files(), 4), "unfinished");
    assert_eq!(said(&files(), 5), "accepted depth 1 base 23 step 12");
    assert_eq!(said(&files(), 36), "refused 55 file");
    assert_eq!(said(&with_line(4, faults()[3].1), 4), "refused 19 line 4");
}
