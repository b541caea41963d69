//! Turns whose files change in between. 02: "Each line that a turn moves past
//! meets its rules in that turn's files."

mod common;
#[path = "common/examples.rs"]
mod examples;
#[path = "common/turns.rs"]
mod model;

use common::two_bands;
use model::{accepted, line_mut, lines, refusal_of_line, refused, told, turned, unfinished, Files};
use reference::answer::Place::{self, Base, File};
use reference::build::random::Random;
use reference::build::{Constraint, Line, Record, INT};
use reference::certificate::check;
use reference::certificate::turns::{turns_begin, Answer};

/// The lines of the two bands' certificate.
const ALL: usize = 35;

fn files() -> Files {
    let (node, certificate) = two_bands();
    (node.bytes(), certificate)
}

/// Each of two certificates has a line at fault in the half that is checked in
/// the other: every turn passes, and neither file would by one call.
#[test]
fn each_turn_looks_at_its_own_files_alone() {
    let [mut early, mut late] = [files(), files()];
    early.1.base[4].p = 4;
    late.1.step[3].p = 26;
    assert_eq!(turned(&late, 0, 20), unfinished(0, 20));
    assert_eq!(turned(&early, 20, ALL), accepted(&early.1, 20, 15));
    assert_eq!(turned(&early, 0, 20), refused(0, 19, Place::Line(4)));
    assert_eq!(turned(&late, 20, ALL), refused(20, 17, Place::Line(26)));
    for (node, certificate) in [early, late] {
        assert!(check(&node, &certificate.bytes()).is_err());
    }
}

#[test]
fn refusal_55_where_the_lines_have_become_fewer() {
    let (node, mut certificate) = files();
    let longer = (node.clone(), certificate.clone());
    certificate.step.truncate(9);
    let shorter = (node, certificate);
    let line = turned(&longer, 0, 33).progress.line;
    assert_eq!(turned(&shorter, line, 1), refused(33, 55, File));
    assert_eq!(
        turned(&shorter, 32, 1).answer.to_string(),
        "refused 21 step"
    );
    // The first file goes on from where it was.
    assert_eq!(turned(&longer, line, 1), unfinished(33, 1));
}

#[test]
fn an_end_is_none_where_the_lines_have_become_more() {
    let (node, mut certificate) = files();
    let shorter = (node.clone(), certificate.clone());
    certificate.step.push(certificate.step[0]);
    certificate.step.push(Line::default());
    let longer = (node, certificate);
    assert_eq!(turned(&shorter, 0, ALL), accepted(&shorter.1, 0, ALL));
    assert_eq!(turned(&longer, ALL, 1), unfinished(ALL, 1));
    assert_eq!(turned(&longer, ALL, 2), refused(ALL, 16, Place::Line(36)));
}

/// A line more in the base and one fewer in the step: the same bytes in front
/// of the trailer, and line 23 stands in the other part.
#[test]
fn the_parts_are_those_of_the_turn_s_trailer() {
    let before = files();
    let (node, mut certificate) = files();
    certificate.base.push(certificate.step.remove(0));
    let after = (node, certificate);
    assert_eq!(lines(&before.1), lines(&after.1));
    assert_eq!(turned(&before, 0, 23), unfinished(0, 23));
    assert_eq!(turned(&before, 23, 3), unfinished(23, 3));
    assert_eq!(turned(&after, 23, 3), refused(23, 18, Place::Line(23)));
    assert_eq!(turned(&after, 24, 3), refused(24, 19, Place::Line(25)));
    assert_eq!(turned(&after, ALL, 0), accepted(&after.1, ALL, 0));
}

/// An equation line is that of the node at hand.
#[test]
fn the_equations_are_those_of_the_turn_s_node() {
    let (mut node, certificate) = two_bands();
    let before = (node.bytes(), certificate.clone());
    node.records[4] = Record::or(0, 3);
    let after = (node.bytes(), certificate);
    assert_eq!(after.1.base[3].p, 4);
    assert_eq!(turned(&before, 0, 4), unfinished(0, 4));
    assert_eq!(turned(&after, 0, 4), refused(0, 17, Place::Line(3)));
    assert_eq!(turned(&before, 3, 1), unfinished(3, 1));
    assert_eq!(turned(&after, 4, 1), unfinished(4, 1));
    assert_eq!(turned(&after, 4, 2), refused(4, 17, Place::Line(5)));
}

/// A file that is refused before its lines refuses the turn, and the record
/// goes on with the one that is not.
#[test]
fn a_refused_file_leaves_the_record_for_the_next() {
    let good = files();
    let (node, mut certificate) = files();
    certificate.constraints = vec![Constraint::new(&[(0, 0, 1)], 0)];
    let wrong = (node, certificate);
    let mut typed = two_bands().0;
    typed.records[5].type_byte = INT;
    let untyped = (typed.bytes(), good.1.clone());
    for line in (0..ALL).step_by(8) {
        let refusal = refused(line, 15, Place::Constraint(0));
        assert_eq!(turned(&wrong, line, 8), refusal);
        let refusal = refused(line, 7, Place::Record(5));
        assert_eq!(turned(&untyped, line, 8), refusal);
        let next = turned(&good, line, 8).progress.line;
        assert_eq!(next, ALL.min(line + 8));
    }
    assert_eq!(turned(&good, ALL, 0), accepted(&good.1, ALL, 0));
    let refusal = refused(ALL, 15, Place::Constraint(0));
    assert_eq!(turned(&wrong, ALL, 0), refusal);
}

/// A part without an end where the turn is final, though it had one before.
#[test]
fn the_ends_are_those_of_the_last_turn_s_file() {
    let (node, certificate) = files();
    let mut open = certificate.clone();
    open.base[22] = open.base[0];
    let (closed, open) = ((node.clone(), certificate), (node, open));
    assert_eq!(turned(&closed, 0, 30), unfinished(0, 30));
    assert_eq!(turned(&open, 30, 5), refused(30, 21, Base));
    assert_eq!(turned(&open, 0, 30), unfinished(0, 30));
    assert_eq!(turned(&closed, 30, 5), accepted(&closed.1, 30, 5));
}

/// A line of the certificate changed in one field, or put in place of another.
fn change(random: &mut Random, files: &mut Files) {
    let all = lines(&files.1);
    let other = all[random.below(all.len())];
    let line = line_mut(&mut files.1, random.below(all.len()));
    match random.below(9) {
        0 => line.kind = u8::try_from(random.below(7)).unwrap(),
        1 => line.count = line.count.wrapping_add(1),
        2 => line.count = line.count.wrapping_sub(1),
        3 => line.p = other.p,
        4 => line.q = other.q,
        5 => line.r ^= 1,
        6 => line.literals[random.below(3)] ^= 1,
        7 => line.multipliers[random.below(3)] = 1,
        _ => *line = other,
    }
}

/// Files that differ in a few lines, or in which part some are, or that are
/// another node's.
fn variants(random: &mut Random, all: &[Files], own: &Files) -> Vec<Files> {
    let mut variants = vec![own.clone(), own.clone()];
    for _ in 0..3 {
        let mut changed = own.clone();
        change(random, &mut changed);
        variants.push(changed);
    }
    let mut moved = own.clone();
    moved.1.base.extend(moved.1.step.drain(..1));
    variants.push(moved);
    variants.push((all[random.below(all.len())].0.clone(), own.1.clone()));
    variants
}

/// Each turn takes the record that the turn before gave and any of the files.
/// The lines it moves past are right by themselves in these files, and the turn
/// is as its rule tells.
#[test]
fn lists_of_turns_on_files_that_change() {
    let mut random = Random::new(94);
    let certified = examples::certified().into_iter();
    let all: Vec<Files> = certified.map(|(node, c)| (node.bytes(), c)).collect();
    let (mut past, mut final_of_refused) = (0, 0);
    for round in 0..600 {
        let variants = variants(&mut random, &all, &all[round % all.len()]);
        let mut line = turns_begin().line;
        for _ in 0..12 {
            let files = &variants[random.below(variants.len())];
            let quota = random.below(20);
            let turned = turned(files, line, quota);
            for number in line..turned.progress.line {
                assert_eq!(refusal_of_line(files, number), None);
            }
            assert_eq!(turned, told(files, line, quota));
            past += turned.checked;
            line = turned.progress.line;
            if matches!(turned.answer, Answer::Accepted(_)) {
                let one = check(&files.0, &files.1.bytes());
                final_of_refused += usize::from(one.is_err());
            }
        }
    }
    assert!(past > 10_000, "{past}");
    assert!(final_of_refused > 20, "{final_of_refused}");
}
