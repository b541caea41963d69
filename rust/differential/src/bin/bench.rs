//! Times of each checker on the same input in the same run: verdicts on large
//! and small certificates, instants of a node of 64 streams, its trials and
//! commits, cuts beside arithmetic lines, equation lines with multiplied
//! constraints beside the same lines without, instants of the same node in
//! other orders, instants of lessers and greaters, tables of ranges, turns, and
//! look-ups. A library from before 02's S-11 has no look-ups and is not linked.
//! Nodes, inputs and lines are those that were drawn before S-4, when the base
//! ended at k − 1: each certificate has an equation and a join more, two property
//! lines (or last lines) less, and not-prop at k in the base's property lines.
//!
//! `cargo run --offline --release --bin bench`; with
//! `--no-default-features` the reference alone. The checkers take turns in
//! many short rounds; a ratio is that of one round, so that what else the
//! machine does meets both. Printed are medians, with the middle half.

#[path = "bench/look_ups.rs"]
mod look_ups;
#[path = "bench/turns.rs"]
mod turns;

use differential::alike::{alike, Alike};
use differential::by_reference::Reference;
use differential::checker::{Checker, Record};
use differential::draft::MAX_BLOCKS;
use differential::largest;
use differential::listed::Listed;
use differential::random::Random;
use reference::build::renumber::Renumbering;
use reference::build::{CertificateFile, Line, NodeFile, BOOL};
use std::hint::black_box;
use std::time::Instant;

/// How many rounds each input is measured.
const ROUNDS: usize = 201;
/// How long one measurement takes at least, in seconds.
const LEAST: f64 = 0.001;
/// How many instants a measured pass has.
const INSTANTS: usize = 200;

const CHECKERS: &[&dyn Checker] = &[
    &Reference,
    #[cfg(feature = "proved")]
    &differential::proved::Proved,
];

/// How many runs fill the least time.
fn runs(run: &dyn Fn()) -> u32 {
    let mut runs = 1;
    while seconds(run, runs) * f64::from(runs) < LEAST {
        runs *= 2;
    }
    runs
}

/// Seconds that one of some runs takes.
fn seconds(run: &dyn Fn(), runs: u32) -> f64 {
    let since = Instant::now();
    (0..runs).for_each(|_| run());
    since.elapsed().as_secs_f64() / f64::from(runs)
}

/// The median, and the ends of the middle half.
fn summary(mut numbers: Vec<f64>) -> [f64; 3] {
    numbers.sort_by(f64::total_cmp);
    [2, 1, 3].map(|quarters| numbers[quarters * (numbers.len() - 1) / 4])
}

/// Something that is measured.
type Run<'a> = Box<dyn Fn() + 'a>;

/// The seconds that each takes in each round, one after the other.
fn rounds(all: &[Run]) -> Vec<Vec<f64>> {
    let all: Vec<_> = all.iter().map(|run| (run, runs(run))).collect();
    let round = |_| {
        let each = all.iter().map(|(run, runs)| seconds(run, *runs));
        each.collect()
    };
    (0..ROUNDS).map(round).collect()
}

/// Measures all checkers and prints a line for each.
fn measure(what: &str, per: usize, run: &dyn Fn(&dyn Checker)) {
    let by = |checker: &'static dyn Checker| -> Run { Box::new(move || run(checker)) };
    let rounds = rounds(&CHECKERS.iter().copied().map(by).collect::<Vec<_>>());
    for (i, checker) in CHECKERS.iter().enumerate() {
        let ratios = rounds.iter().map(|round| round[i] / round[0]);
        let [ratio, low, high] = summary(ratios.collect());
        let own = rounds.iter().map(|round| round[i] * 1e6);
        let [median, least, most] = summary(own.collect());
        println!(
            "{what:<40} {:<10} {median:>8.2} us ({least:.2} to {most:.2}) {:>7.1} ns each, \
             ratio {ratio:.2} ({low:.2} to {high:.2})",
            checker.name(),
            median * 1e3 / per as f64
        );
    }
}

/// Certificates of about 800 and of 80 lines, of each kind.
fn verdicts(random: &mut Random) {
    for kind in largest::KINDS {
        let node = largest::node(random, kind.ints, false);
        let large = largest::as_before(random, &node, 2, kind, MAX_BLOCKS);
        let small = largest::as_before(random, &node, 2, kind, 80);
        verdict(kind.name, &node, &large);
        verdict(kind.name, &node, &small);
        a_line(kind.name, &node, &small);
    }
}

/// How many lines a certificate has.
fn lines(certificate: &CertificateFile) -> usize {
    certificate.base.len() + certificate.step.len()
}

/// The verdict on a certificate.
fn verdict(kind: &str, node: &NodeFile, certificate: &CertificateFile) {
    let (count, constraints) = (lines(certificate), certificate.constraints.len());
    let what = format!("{kind}: {count} lines, {constraints} constraints");
    let (node, certificate) = (node.bytes(), certificate.bytes());
    let accepted = |by: &&dyn Checker| by.check(&node, &certificate).is_ok();
    assert!(CHECKERS.iter().all(accepted));
    measure(&what, count, &|checker| check(checker, &node, &certificate));
}

fn check(checker: &dyn Checker, node: &[u8], certificate: &[u8]) {
    let _ = black_box(checker.check(black_box(node), black_box(certificate)));
}

/// What a line costs in a certificate, and in one that has the same lines nine
/// times over.
fn a_line(kind: &str, node: &NodeFile, small: &CertificateFile) {
    let node = node.bytes();
    let often = repeated(small, 9);
    let (few, many) = (lines(small), lines(&often));
    let files = [&repeated(small, 0), small, &often].map(CertificateFile::bytes);
    for &checker in CHECKERS {
        assert!(checker.check(&node, &files[2]).is_ok());
        let Costs {
            a_line: [once, often],
            ratio: [ratio, low, high],
        } = costs(checker, &node, &files, [few, many]);
        println!(
            "{:<40} {:<10} {once:.1} ns a line of {few}, {often:.1} of {many}: \
             ratio {ratio:.2} ({low:.2} to {high:.2})",
            format!("{kind}: the same lines"),
            checker.name(),
        );
    }
}

/// What lines cost in two certificates.
struct Costs {
    /// Nanoseconds a line, the medians.
    a_line: [f64; 2],
    /// The second's over the first's in the same round, with the middle half.
    ratio: [f64; 3],
}

/// The costs of so many lines in the second and the third file, without what
/// the first costs, which has none of them.
fn costs(checker: &dyn Checker, node: &[u8], files: &[Vec<u8>; 3], lines: [usize; 2]) -> Costs {
    let rounds = rounds(
        &files
            .each_ref()
            .map(|file| -> Run { Box::new(move || check(checker, node, file)) }),
    );
    let costs = |i: usize| {
        let lines = lines[i] as f64;
        rounds
            .iter()
            .map(move |round| (round[i + 1] - round[0]) * 1e9 / lines)
    };
    let ratios = costs(0).zip(costs(1)).map(|(first, second)| second / first);
    Costs {
        a_line: [0, 1].map(|i| summary(costs(i).collect())[0]),
        ratio: summary(ratios.collect()),
    }
}

/// What a cut costs beside the arithmetic line with the same literals, by
/// literals and terms of each. A cut may cost 1.2 of it.
fn cuts(random: &mut Random) {
    for (literals, terms) in [(12, 8), (3, 2), (2, 2)] {
        let Alike {
            node,
            none,
            arithmetic,
            cuts,
            lines,
        } = alike(random, literals, terms);
        let size = format!("{literals} by {terms}");
        verdict(&format!("sums {size}"), &node, &arithmetic);
        verdict(&format!("cuts {size}"), &node, &cuts);
        let files = [none, arithmetic, cuts].map(|certificate| certificate.bytes());
        for &checker in CHECKERS {
            let Costs {
                a_line: [sum, cut],
                ratio: [ratio, low, high],
            } = costs(checker, &node.bytes(), &files, [lines; 2]);
            println!(
                "{:<40} {:<10} {cut:.1} ns a cut of {lines}, {sum:.1} an arithmetic line: \
                 ratio {ratio:.2} ({low:.2} to {high:.2})",
                format!("cuts {size}: beside arithmetic"),
                checker.name(),
            );
        }
    }
}

/// What an equation line costs where its constraint is multiplied through,
/// beside the same line where it is not.
fn factors(random: &mut Random) {
    let kind = largest::OF_INTS;
    let node = largest::node(random, kind.ints, false);
    let plain = largest::as_before(random, &node, 2, kind, MAX_BLOCKS);
    verdict(kind.name, &node, &plain);
    for factor in [2, 1_000_000] {
        let name = format!("times {factor}");
        let multiplied = plain.clone().times(factor);
        verdict(&name, &node, &multiplied);
        let files = [&repeated(&plain, 0), &plain, &multiplied].map(CertificateFile::bytes);
        for &checker in CHECKERS {
            let Costs {
                a_line: [once, times],
                ratio: [ratio, low, high],
            } = costs(checker, &node.bytes(), &files, [lines(&plain); 2]);
            println!(
                "{:<40} {:<10} {times:.1} ns a line, {once:.1} without a factor: \
                 ratio {ratio:.2} ({low:.2} to {high:.2})",
                format!("{name}: the same lines"),
                checker.name(),
            );
        }
    }
}

/// A certificate whose parts have the same lines some times over.
fn repeated(certificate: &CertificateFile, times: usize) -> CertificateFile {
    let (base, step) = (&certificate.base, &certificate.step);
    let mut all = certificate.clone();
    all.base = repeated_part(base, times, 0, 0);
    all.step = repeated_part(step, times, base.len(), times * base.len());
    all
}

/// A part's lines some times over, where its line 0 was one number and is
/// another: joins cite the lines of their own time.
fn repeated_part(part: &[Line], times: usize, was: usize, is: usize) -> Vec<Line> {
    let time = |time: usize| {
        let moved = (is + time * part.len() - was) as u16;
        part.iter().map(move |line| {
            let mut line = *line;
            if line.kind == 3 {
                line.p += moved;
                line.q += moved;
            }
            line
        })
    };
    (0..times).flat_map(time).collect()
}

/// The reader on 64 streams.
fn reading(random: &mut Random) {
    let node = largest::node(random, 5, false).bytes();
    measure("reading 64 streams", 64, &|checker| {
        let _ = black_box(checker.read(black_box(&node)));
    });
}

/// A pass of a node of 64 streams.
fn instants(what: &str, node: &NodeFile, inputs: &[i64]) {
    let file = node.bytes();
    let all = |by: &&dyn Checker| answered(*by, &file, inputs) == INSTANTS;
    assert!(CHECKERS.iter().all(all), "{what}");
    measure(what, INSTANTS, &|checker| {
        black_box(answered(checker, black_box(&file), black_box(inputs)));
    });
}

/// A call on a session's record, which is told whether it was answered.
type Call<'a> = &'a dyn Fn(&dyn Checker, &mut Record) -> bool;

/// Many of a call on one record, begun on a node.
fn calls(what: &str, file: &[u8], call: Call) {
    let answered = |by: &dyn Checker| {
        let mut record = Record::new();
        let _ = by.begin(&mut record, black_box(file));
        (0..INSTANTS).filter(|_| call(by, &mut record)).count()
    };
    assert!(
        CHECKERS.iter().all(|by| answered(*by) == INSTANTS),
        "{what}"
    );
    measure(what, INSTANTS, &|checker| {
        black_box(answered(checker));
    });
}

/// Trials, none of them committed; commits, each of a trial that is held from
/// the start, all of its values 0; and trials with their commits.
fn trials(node: &NodeFile, inputs: &[i64]) {
    let file = node.bytes();
    let trial = |by: &dyn Checker, record: &mut Record| {
        let mut values = [0; 64];
        by.trial(record, black_box(inputs), &mut values).is_ok()
    };
    calls("200 trials of 64 streams", &file, &trial);
    calls("200 commits of 64 streams", &file, &|by, record| {
        record.held = true;
        by.commit(record).is_ok()
    });
    let both: Call = &|by, record| trial(by, record) && by.commit(record).is_ok();
    calls("200 trials with their commits", &file, both);
}

/// The same pass with the last record first, and with the property first, a
/// stream that came late and needs another now. The inputs are all the same
/// number.
fn orders(node: &NodeFile, inputs: &[i64]) {
    let size = node.records.len() as u16;
    let numbered = (0..size).zip(&node.records);
    let bools = numbered.filter(|(_, record)| record.type_byte == BOOL && record.operator >= 2);
    let late = bools.map(|(stream, _)| stream).max().unwrap_or(0);
    for (what, other) in [
        ("last record first", Renumbering::reversed(size)),
        ("property first", Renumbering::first(late, size)),
    ] {
        let what = format!("200 instants, {what}");
        let mut node = node.clone();
        node.property = late;
        instants(&what, &other.node(&node), inputs);
    }
}

/// A pass of lessers and greaters.
fn extremes(random: &mut Random) {
    let node = largest::extremes(random);
    let inputs: Vec<i64> = (0..7).map(|_| random.spread()).collect();
    instants("200 instants, lessers and greaters", &node, &inputs);
}

/// The check of a table of 64 ranges that lists its node, and of one whose last
/// ends are wrong.
fn tables(random: &mut Random) {
    let Listed { node, ends } = largest::listed(random);
    let file = node.bytes();
    let mut wrong = ends.clone();
    wrong[63] = [1, 0];
    for (what, number, table) in [("", 0, &ends), (", refused with 71", 71, &wrong)] {
        let table = table.as_flattened();
        let answers = |by: &&dyn Checker| {
            let answer = by.ranges(&file, table);
            answer.map_or_else(|refusal| refusal.number, |()| 0) == number
        };
        assert!(CHECKERS.iter().all(answers));
        measure(&format!("ranges of 64 streams{what}"), 64, &|checker| {
            let _ = black_box(checker.ranges(black_box(&file), black_box(table)));
        });
    }
}

/// A node of 64 streams with inputs on which every instant is answered.
fn lasting(random: &mut Random) -> (NodeFile, Vec<i64>) {
    loop {
        let node = largest::node(random, 5, false);
        let count = node
            .records
            .iter()
            .filter(|record| record.operator == 0)
            .count();
        let inputs = vec![1; count];
        if answered(&Reference, &node.bytes(), &inputs) == INSTANTS {
            return (node, inputs);
        }
    }
}

/// A pass on the same inputs; gives how many instants were answered.
fn answered(checker: &dyn Checker, file: &[u8], inputs: &[i64]) -> usize {
    let (mut record, mut values) = (Record::new(), [0; 64]);
    let _ = checker.begin(&mut record, file);
    let mut call = |_: &usize| checker.instant(&mut record, inputs, &mut values).is_ok();
    (0..INSTANTS).filter(|i| call(i)).count()
}

fn main() {
    let mut random = Random::new(1);
    reading(&mut random);
    verdicts(&mut random);
    let (node, inputs) = lasting(&mut random);
    instants("200 instants of 64 streams", &node, &inputs);
    trials(&node, &inputs);
    cuts(&mut random);
    factors(&mut random);
    orders(&node, &inputs);
    extremes(&mut random);
    tables(&mut random);
    turns::in_turns(&mut random);
    turns::before_lines(&mut random);
    look_ups::look_ups(&mut random);
}
