//! Certificates checked in turns: what a turn costs beside its lines.

use super::{check, lines, measure, rounds, summary, verdict, Run, CHECKERS};
use differential::checker::{Checker, Progress, Stage, Turned};
use differential::largest;
use differential::random::Random;
use reference::build::renumber::Renumbering;
use reference::build::NodeFile;
use std::hint::black_box;

/// How many lines a certificate has.
const LINES: usize = 800;
/// The most lines that a turn of one line may cost, beside the checks before
/// lines.
const AIM: f64 = 3.0;
/// How many constraints the checks before lines are measured with.
const CONSTRAINTS: [usize; 4] = [0, 16, 64, 256];

/// A node file and a certificate file.
type Files<'a> = (&'a [u8], &'a [u8]);

/// A turn from a line.
fn turn(checker: &dyn Checker, files: Files, line: usize, quota: usize) -> Turned {
    let (node, certificate) = black_box(files);
    let (progress, quota) = black_box((Progress { line }, quota));
    black_box(checker.turn(node, certificate, progress, quota))
}

/// Turns of one line from a begun record until the answer is final. Gives the
/// line that they come to.
fn line_by_line(checker: &dyn Checker, files: Files) -> usize {
    let mut line = checker.turns_begin().line;
    loop {
        let turned = turn(checker, files, line, 1);
        line = turned.progress.line;
        if turned.answer != Stage::Unfinished {
            return line;
        }
    }
}

/// Certificates of 800 lines, in one call and in turns. The last turn also looks
/// for a line without literals in each part, for 21.
pub fn in_turns(random: &mut Random) {
    for kind in largest::IN_TURNS {
        let node = largest::node(random, kind.ints, false);
        let certificate = largest::certificate(random, &node, 2, kind, LINES);
        let certificate = largest::closed_last(&node, certificate);
        assert_eq!(lines(&certificate), LINES, "{}", kind.name);
        verdict(kind.name, &node, &certificate);
        let files = (&node.bytes()[..], &certificate.bytes()[..]);
        all_turns(kind.name, files);
        for (what, line, quota) in [
            ("a turn of 0 at line 400", LINES / 2, 0),
            ("a turn of 1 at line 400", LINES / 2, 1),
            ("the last turn, of 1", LINES - 1, 1),
            ("a turn of 0 at the end", LINES, 0),
        ] {
            measure(&format!("{}: {what}", kind.name), 1, &|checker| {
                turn(checker, files, line, quota);
            });
        }
        CHECKERS.iter().for_each(|by| a_turn(*by, kind.name, files));
    }
}

/// All lines, one a turn.
fn all_turns(kind: &str, files: Files) {
    let all = |by: &&dyn Checker| line_by_line(*by, files) == LINES;
    assert!(CHECKERS.iter().all(all), "{kind}");
    measure(&format!("{kind}: 800 turns of 1"), LINES, &|checker| {
        line_by_line(checker, files);
    });
}

/// What a turn of one line costs, over all lines, beside the checks before
/// lines, which a turn of none is, and a line, which is one call without these
/// checks.
fn a_turn(checker: &dyn Checker, kind: &str, files: Files) {
    let rounds = rounds(&[
        Box::new(|| check(checker, files.0, files.1)),
        Box::new(|| {
            line_by_line(checker, files);
        }),
        Box::new(|| {
            turn(checker, files, LINES / 2, 0);
        }),
    ]);
    let costs = |cost: fn([f64; 3]) -> f64| {
        let own = rounds.iter().map(|round| {
            let (turn, before) = (round[1] / LINES as f64, round[2]);
            let line = (round[0] - before) / LINES as f64;
            cost([turn, before, line])
        });
        summary(own.collect())
    };
    let [turn, ..] = costs(|[turn, ..]| turn * 1e9);
    let [before, ..] = costs(|[_, before, _]| before * 1e9);
    let [line, ..] = costs(|[.., line]| line * 1e9);
    let [more, low, high] = costs(|[turn, before, line]| (turn - before) / line);
    let [both, ..] = costs(|[turn, before, line]| turn / (before + line));
    let kept = if more <= AIM { "kept" } else { "not kept" };
    println!(
        "{:<40} {:<10} {turn:.1} ns, {before:.1} before lines, {line:.1} a line: before lines and \
         {more:.2} lines ({low:.2} to {high:.2}), aim {AIM}: {kept}; \
         {both:.2} of before lines and one",
        format!("{kind}: a turn of 1, of 800"),
        checker.name(),
    );
}

/// The checks before lines, which a turn of none is: by the streams of a node in
/// record order, of 64 with the last record first too, and by constraints, each
/// of eight terms.
pub fn before_lines(random: &mut Random) {
    for size in [6, 16, 32, 64] {
        let node = largest::small(random, size);
        by_constraints(random, &format!("{size} streams"), &node);
    }
    let node = largest::small(random, 64);
    let other = Renumbering::reversed(64).node(&node);
    by_constraints(random, "64 streams, last first", &other);
}

/// A row for each checker, a column for each count of constraints.
fn by_constraints(random: &mut Random, what: &str, node: &NodeFile) {
    let file = node.bytes();
    let certificates = CONSTRAINTS.map(|count| largest::constrained(random, node, count).bytes());
    for &checker in CHECKERS {
        let none = |certificate: &[u8]| turn(checker, (&file, certificate), 0, 0);
        let run = |certificate| -> Run {
            assert_eq!(none(certificate).answer, Stage::Unfinished, "{what}");
            Box::new(move || {
                none(certificate);
            })
        };
        let rounds = rounds(&certificates.each_ref().map(|bytes| run(bytes)));
        let column = |(i, count): (usize, &usize)| {
            let own = rounds.iter().map(|round| round[i] * 1e6);
            format!("{count}: {:.2} us", summary(own.collect())[0])
        };
        let columns: Vec<String> = CONSTRAINTS.iter().enumerate().map(column).collect();
        println!(
            "{:<40} {:<10} by constraints {}",
            format!("before lines: {what}"),
            checker.name(),
            columns.join(", ")
        );
    }
}
