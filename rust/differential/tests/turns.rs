//! A check split into turns: all give the same answers, records and numbers, and
//! turns on the same files come to what one call says.
//!
//! `DIFFERENTIAL_TURNS` and `DIFFERENTIAL_SEED` make a longer or another run;
//! with `--nocapture` the counts are shown.

use differential::cases::{self, Pair};
use differential::checker::{Progress, Verdict};
use differential::checkers::CHECKERS;
use differential::compare::Origin;
use differential::draft::MAX_BLOCKS;
use differential::pool::{pool, Certified};
use differential::random::Random;
use differential::splits::{with_cited, Splits};
use differential::stages::Stages;
use differential::{forge, largest, miscuts, misfactors, miswindows};
use std::sync::LazyLock;
use std::time::Instant;

static POOL: LazyLock<Vec<Certified>> = LazyLock::new(|| pool(&mut Random::new(7)));

/// A number given in the environment, or else this one.
fn wanted(name: &str, default: u64) -> u64 {
    let given = std::env::var(name).ok();
    given.and_then(|text| text.parse().ok()).unwrap_or(default)
}

fn seed() -> u64 {
    wanted("DIFFERENTIAL_SEED", 1)
}

/// Turns on the cases of the pairs that are compared in one call, until there
/// are as many as wanted.
fn on_cases(what: &str, all: u64, run: impl Fn(&mut Splits, &mut Random, Vec<Pair>)) -> Stages {
    let (since, seed) = (Instant::now(), seed());
    let mut stages = Stages::default();
    for case in 0.. {
        let mut random = Random::of_case(seed, case);
        let drawn = cases::case(&mut random, &POOL);
        let pairs = drawn.into_iter().map(|(pair, _)| pair).collect();
        let mut splits = Splits {
            checkers: CHECKERS,
            origin: Origin { seed, case },
            stages: &mut stages,
        };
        run(&mut splits, &mut random, pairs);
        if stages.total >= all {
            break;
        }
    }
    let seconds = since.elapsed().as_secs_f64();
    println!("{what}, seed {seed}, {seconds:.1} s: {stages}");
    stages
}

/// Every answer and quota was met often enough, 55 at least so many times; where
/// that is none, never.
fn every_answer(stages: &Stages, past: u64) {
    let often = stages.total / 60;
    assert!(stages.unfinished >= often, "{stages}");
    assert!(stages.accepted >= often, "{stages}");
    assert!(stages.at_lines() >= often, "{stages}");
    assert!(stages.late >= often, "{stages}");
    assert!(stages.quotas.iter().min() >= Some(&often), "{stages}");
    assert!(stages.of(55) >= past, "{stages}");
    assert!(past > 0 || stages.of(55) == 0, "{stages}");
    for number in (1..=8).chain(11..=23) {
        let few = stages.total / 10_000;
        assert!(stages.of(number) >= few, "{number}: {stages}");
    }
}

/// Every pair, split at random: the final answer is that of one call.
#[test]
fn splits() {
    let all = wanted("DIFFERENTIAL_TURNS", 160_000);
    let stages = on_cases("splits", all, |splits, random, pairs| {
        for pair in &pairs {
            let _ = splits.split(random, pair);
        }
    });
    every_answer(&stages, 0);
}

/// Records of any line number: all say the same, also line by line.
#[test]
fn forged_records() {
    let all = wanted("DIFFERENTIAL_TURNS", 160_000);
    let stages = on_cases("forged records", all, |splits, random, pairs| {
        for pair in &pairs {
            splits.forged(random, pair);
        }
    });
    every_answer(&stages, stages.total / 40);
}

/// Files that change between the turns: another damaged copy in each, and a
/// certificate for another node.
#[test]
fn changing_files() {
    let all = wanted("DIFFERENTIAL_TURNS", 160_000);
    let stages = on_cases("changing files", all, |splits, random, pairs| {
        splits.changing(random, &pairs);
        let (node, _) = &pairs[random.below(pairs.len())];
        let (_, certificate) = &POOL[random.below(POOL.len())];
        let other = (node.clone(), certificate.bytes());
        splits.changing(random, &[pairs[pairs.len() - 1].clone(), other]);
    });
    every_answer(&stages, stages.total / 400);
}

/// A forged argument, or a proof among lines of some kind, one of them spoiled
/// as often as not; and the number that refuses it.
fn spoiled(random: &mut Random, case: u64) -> Option<(Certified, Option<u8>)> {
    let which = case as usize / 4;
    let (pair, number) = match case % 4 {
        0 => {
            let (node, certificate, number) = forge::forgery(random);
            (Some((node, certificate)), Some(number))
        }
        1 => {
            let way = miscuts::WAYS.get(which % (2 * miscuts::WAYS.len()));
            (cases::among_cuts(random, way), way.map(|way| way.number))
        }
        2 => {
            let way = misfactors::WAYS.get(which % (2 * misfactors::WAYS.len()));
            (cases::among_factors(random, way), way.map(|way| way.number))
        }
        _ => {
            let way = miswindows::WAYS.get(which % (2 * miswindows::WAYS.len()));
            (cases::among_windows(random, way), way.map(|way| way.number))
        }
    };
    Some((pair?, number))
}

/// The number of a refusal, if there is one.
fn number(verdict: Verdict) -> Option<u8> {
    verdict.err().map(|refusal| refusal.number)
}

/// Forged arguments, and spoiled cuts, factors and windows, whichever turn comes
/// to the line: refused by the way's number.
#[test]
fn spoiled_lines() {
    let mut stages = Stages::default();
    for case in 0..6_000 {
        let mut random = Random::of_case(24, case);
        let Some(((node, certificate), expected)) = spoiled(&mut random, case) else {
            continue;
        };
        let origin = Origin { seed: 24, case };
        let mut splits = Splits {
            checkers: CHECKERS,
            origin,
            stages: &mut stages,
        };
        let pair = (node.bytes(), certificate.bytes());
        let verdict = splits.split(&mut random, &pair);
        assert_eq!(number(verdict), expected, "{origin:?}");
    }
    println!("spoiled lines: {stages}");
    for number in [17, 18, 19, 20, 22] {
        assert!(stages.of(number) >= 200, "{number}: {stages}");
    }
    assert!(stages.accepted >= 2_000 && stages.late >= 4_000, "{stages}");
}

/// A join reads the lines that it cites as they stand, also those that a record
/// which no turn gave has skipped: at most twelve literals, whatever the count.
#[test]
fn cited_lines() {
    let mut stages = Stages::default();
    let (mut passed, mut refused) = (0, 0);
    for case in 0..12_000 {
        let mut random = Random::of_case(26, case);
        let (node, certificate) = &POOL[random.below(POOL.len())];
        let mut pair = (node.bytes(), certificate.bytes());
        let Some((line, count)) = with_cited(&mut random, &mut pair.1) else {
            continue;
        };
        let mut splits = Splits {
            checkers: CHECKERS,
            origin: Origin { seed: 26, case },
            stages: &mut stages,
        };
        let turned = splits.turn(&pair, Progress { line }, 1);
        if count > 12 {
            *[&mut refused, &mut passed][turned.checked] += 1;
        }
    }
    println!("cited lines: {stages}; over 12 {passed} passed, {refused} refused");
    assert!(passed >= 2_000 && refused >= 2_000, "{passed} {refused}");
    assert!(stages.of(19) >= refused, "{stages}");
}

/// Certificates that leave no room for one line more.
#[test]
fn largest_files() {
    let mut stages = Stages::default();
    let mut random = Random::new(25);
    let kinds = [&largest::KINDS[..], &[largest::CUTS, largest::OF_INTS]].concat();
    for (case, kind) in (0u64..).zip(kinds) {
        let node = largest::node(&mut random, kind.ints, true);
        let depth = 1 + (case % 8) as u8;
        let certificate = largest::certificate(&mut random, &node, depth, kind, MAX_BLOCKS);
        let pair = (node.bytes(), certificate.bytes());
        let mut splits = Splits {
            checkers: CHECKERS,
            origin: Origin { seed: 25, case },
            stages: &mut stages,
        };
        for _ in 0..8 {
            let verdict = splits.split(&mut random, &pair);
            assert!(verdict.is_ok(), "{}: {verdict:?}", kind.name);
            let wrong = cases::damaged(&mut random, &pair);
            let _ = splits.split(&mut random, &wrong);
            splits.forged(&mut random, &wrong);
        }
    }
    println!("largest: {stages}");
    assert!(stages.accepted >= 48 && stages.at_lines() >= 20, "{stages}");
    assert!(stages.lines >= 48 * 500, "{stages}");
}
