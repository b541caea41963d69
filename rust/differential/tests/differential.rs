//! Two checkers say the same of generated pairs and passes.
//!
//! `DIFFERENTIAL_PAIRS`, `DIFFERENTIAL_EVENTS` and `DIFFERENTIAL_SEED` make
//! a longer or another run; with `--nocapture` the counts are shown.

use differential::by_reference::Reference;
use differential::cases::{self, Expected};
use differential::checker::{Checker, Record};
use differential::checkers::{CHECKERS, ON_SESSIONS};
use differential::compare::{self, Origin};
use differential::damage::{lines, Layout};
use differential::draft::{Draft, MAX_BLOCKS};
use differential::events::{Event, Events};
use differential::pool::{pool, Certified};
use differential::random::Random;
use differential::reorder::renumbering;
use differential::tally::Tally;
use differential::{forge, largest, miscuts, misfactors, misrecords, passes, rests};
use reference::build::proof::{two_bands_certificate, two_bands_node};
use reference::build::renumber::Renumbering;
use reference::build::{multiples, CertificateFile};
use std::collections::BTreeMap;
use std::sync::LazyLock;
use std::time::Instant;

static POOL: LazyLock<Vec<Certified>> = LazyLock::new(|| pool(&mut Random::new(7)));

/// A number given in the environment, or else this one.
fn wanted(name: &str, default: u64) -> u64 {
    let given = std::env::var(name).ok();
    given.and_then(|text| text.parse().ok()).unwrap_or(default)
}

fn seed() -> u64 {
    wanted("DIFFERENTIAL_SEED", 1)
}

/// A line on the way of a long run.
fn progress(what: &str, since: Instant, done: u64, all: u64, step: &mut u64) {
    if done >= *step {
        let seconds = since.elapsed().as_secs_f64();
        eprintln!("{what}: {done} of {all} in {seconds:.0} s");
        *step += (all / 20).max(500_000);
    }
}

/// Demand 3: where a certificate is accepted the property is 1 at every
/// answered instant, and in every trial.
fn holds(origin: Origin, random: &mut Random, node: &[u8]) {
    let read = reference::node::read(node).expect("an accepted node");
    let mut record = Record::new();
    Reference
        .begin(&mut record, node)
        .expect("an accepted node");
    let mut values = vec![0; read.count()];
    for _ in 0..10 {
        let inputs: Vec<i64> = read.inputs().iter().map(|_| random.of([0, 1])).collect();
        let answer = match random.below(4) {
            0 => Reference.instant(&mut record, &inputs, &mut values),
            _ => Reference.trial(&mut record, &inputs, &mut values),
        };
        if answer.is_ok() {
            let property = values[usize::from(read.property())];
            assert_eq!(property, 1, "{origin:?}: accepted, and fails");
        }
        if random.once_in(2) {
            let _ = Reference.commit(&mut record);
        }
    }
}

/// Compares a pair, asks for what its generator says, and counts it.
fn checked(
    origin: Origin,
    random: &mut Random,
    ((node, certificate), expected): (cases::Pair, Expected),
    tally: &mut Tally,
) {
    let verdict = compare::pair(CHECKERS, origin, &node, &certificate);
    let told = match expected {
        Expected::Accepted => verdict.is_ok(),
        Expected::Refused(number) => verdict.is_err_and(|refusal| refusal.number == number),
        Expected::Unknown => true,
    };
    let files = || (compare::hex(&node), compare::hex(&certificate));
    assert!(
        told,
        "{origin:?}: {expected:?}, but {verdict:?}\n{:?}",
        files()
    );
    if verdict.is_ok() && random.once_in(4) {
        holds(origin, random, &node);
    }
    tally.verdict(verdict, &node, &certificate);
}

#[test]
fn pairs() {
    let all = wanted("DIFFERENTIAL_PAIRS", 220_000);
    let (since, seed) = (Instant::now(), seed());
    let (mut tally, mut step) = (Tally::default(), 500_000);
    for case in 0.. {
        let origin = Origin { seed, case };
        let mut random = Random::of_case(seed, case);
        for pair in cases::case(&mut random, &POOL) {
            checked(origin, &mut random, pair, &mut tally);
        }
        progress("pairs", since, tally.total, all, &mut step);
        if tally.total >= all {
            break;
        }
    }
    println!(
        "pairs, seed {seed}, {:.1} s: {tally}",
        since.elapsed().as_secs_f64()
    );
    for number in (1..=8).chain(11..=23) {
        assert!(tally.of(number) >= all / 2_000, "{number}: {tally}");
    }
    assert!(tally.of(23) >= all / 50, "{tally}");
    assert!(tally.reordered >= all / 20, "{tally}");
    for kind in 1..=5 {
        assert!(tally.of_kind(kind) >= all / 4, "kind {kind}: {tally}");
    }
    for operator in 1..=15 {
        let passed = tally.of_operator(operator);
        assert!(passed >= all / 20, "operator {operator}: {tally}");
    }
    for depth in 1..=8 {
        assert!(tally.of_depth(depth) >= all / 500, "depth {depth}: {tally}");
    }
    assert!(tally.longest > 500, "{tally}");
    assert!(tally.multiplied >= all / 40, "{tally}");
    assert!(tally.of(17) >= all / 40, "{tally}");
    both_windows(&tally, all);
}

/// Accepted certificates use what the parts' windows have at their ends: at
/// every depth the step rests on operator 12 at its first offset.
fn both_windows(tally: &Tally, all: u64) {
    assert!(tally.arrows >= all / 50, "{tally}");
    assert!(tally.ends >= all / 4, "{tally}");
    for depth in 1..=8 {
        let rests = tally.rests_of_depth(depth);
        assert!(rests >= all / 1_000, "depth {depth}: {tally}");
    }
}

/// Lists of events: beginnings, trials, commits and instant's calls.
#[test]
fn sessions() {
    let all = wanted("DIFFERENTIAL_EVENTS", 600_000);
    let (since, seed) = (Instant::now(), seed());
    let (mut events, mut step) = (Events::default(), 500_000);
    for case in 0.. {
        let origin = Origin { seed, case };
        let mut random = Random::of_case(!seed, case);
        let calls = random.within(1, 40);
        passes::pass(ON_SESSIONS, origin, &mut random, calls, &mut events);
        progress("events", since, events.calls, all, &mut step);
        if events.calls >= all {
            break;
        }
    }
    println!(
        "events, seed {seed}, {:.1} s: {events}",
        since.elapsed().as_secs_f64()
    );
    every_event(&events, all);
    for way in misrecords::WAYS {
        assert!(events.of_way(way.name) >= all / 400, "{}", way.name);
    }
    assert!(events.reordered >= all / 10, "{events}");
}

/// Each event was met with each of its numbers often enough, with a trial held
/// before it and without, and with no other number.
fn every_event(events: &Events, all: u64) {
    for held in [false, true] {
        let met = |event, numbers: &[u8]| events.of(event, held, numbers);
        for event in [Event::Instant, Event::Trial] {
            assert_eq!(events.numbers(event, held), [0, 30, 31, 32, 33, 34]);
            let refused = (30..=34).map(|number| met(event, &[number]));
            assert!(refused.min() >= Some(all / 400), "{event:?}: {events}");
            assert!(met(event, &[0]) >= all / 20, "{event:?}: {events}");
        }
        let after_30 = if held { 0 } else { 35 };
        let mut numbers = [30, after_30];
        numbers.sort_unstable();
        assert_eq!(events.numbers(Event::Commit, held), numbers);
        assert!(met(Event::Commit, &[after_30]) >= all / 20, "{events}");
        assert!(met(Event::Commit, &[30]) >= all / 400, "{events}");
        for numbers in [&[0][..], &[1, 2, 3, 4, 5, 6, 7, 8], &[23]] {
            assert!(met(Event::Begin, numbers) >= all / 400, "{events}");
        }
    }
}

/// Every field of a small pair, the notes in front of it as well as not, at
/// each value worth trying.
#[test]
fn every_field() {
    let mut tally = Tally::default();
    let mut random = Random::new(3);
    let counter = POOL
        .iter()
        .find(|(_, c)| c.constraints.len() > 4)
        .expect("one");
    let held = POOL.iter().find(|pair| has_equation_of(pair, 14));
    let held = held.expect("one");
    let late = POOL.iter().find(|pair| has_first_arrow(pair));
    let late = late.expect("one");
    let two_bands = (two_bands_node(), two_bands_certificate());
    let by_cuts = (
        multiples::node(2, 7),
        multiples::certificate(2, 7, 1, multiples::bounds(2, 7)),
    );
    let multiplied = multiplied(counter);
    let reversed = [&two_bands, counter].map(reversed);
    let [bands, count] = &reversed;
    for (node, certificate) in [
        &two_bands,
        counter,
        held,
        late,
        &by_cuts,
        &multiplied,
        bands,
        count,
    ] {
        let (node, certificate) = (node.bytes(), certificate.bytes());
        let layout = Layout::of_node(&node);
        for wrong in each_value(layout, &node) {
            let pair = ((wrong, certificate.clone()), Expected::Unknown);
            checked(Origin { seed: 3, case: 0 }, &mut random, pair, &mut tally);
        }
        let layout = Layout::of_certificate(layout.blocks() - 1, &certificate);
        for wrong in each_value(layout, &certificate) {
            let pair = ((node.clone(), wrong), Expected::Unknown);
            checked(Origin { seed: 3, case: 1 }, &mut random, pair, &mut tally);
        }
    }
    println!("every field: {tally}");
    assert!(tally.of(22) >= 50, "{tally}");
    assert!(tally.of(23) >= 50 && tally.reordered >= 50, "{tally}");
    assert!(tally.multiplied >= 50, "{tally}");
    assert!(tally.of_operator(14) >= 1_000, "{tally}");
    assert!(tally.arrows >= 300, "{tally}");
}

/// Whether a certificate's step rests on operator 12 at offset 0.
fn has_first_arrow((node, certificate): &Certified) -> bool {
    rests::on_first_arrow(&node.records, &certificate.bytes())
}

/// Whether a certificate has an equation line of this operator.
fn has_equation_of((node, certificate): &Certified, operator: u8) -> bool {
    let CertificateFile { base, step, .. } = certificate;
    let mut equations = base.iter().chain(step).filter(|line| line.kind == 1);
    equations.any(|line| node.records[usize::from(line.p)].operator == operator)
}

/// The same argument with constraints multiplied through.
fn multiplied((node, certificate): &Certified) -> Certified {
    let CertificateFile { base, step, .. } = certificate;
    let mut draft = Draft::new(node, certificate.depth);
    draft.factors = Some(Random::new(3));
    draft.import(certificate, base, 0).expect("room");
    draft.begin_step();
    draft.import(certificate, step, base.len()).expect("room");
    (node.clone(), draft.finish())
}

/// The same with the last record first.
fn reversed((node, certificate): &Certified) -> Certified {
    let other = Renumbering::reversed(node.records.len() as u16);
    (other.node(node), other.certificate(certificate))
}

/// The file with each value in each field of each block.
fn each_value(layout: Layout, file: &[u8]) -> Vec<Vec<u8>> {
    let mut files = Vec::new();
    for field in (0..layout.blocks()).flat_map(|block| layout.fields(file, block)) {
        for value in &field.values {
            let mut wrong = file.to_vec();
            field.write(&mut wrong, *value);
            files.push(wrong);
        }
    }
    files
}

/// Every length of a right pair, cut at either end.
#[test]
fn every_length() {
    let mut tally = Tally::default();
    let mut random = Random::new(4);
    let origin = Origin { seed: 4, case: 0 };
    let (node, certificate) = (two_bands_node().bytes(), two_bands_certificate().bytes());
    for length in 0..=certificate.len() {
        let back = certificate.len() - length;
        for part in [&certificate[..length], &certificate[back..]] {
            let pair = ((node.clone(), part.to_vec()), Expected::Unknown);
            checked(origin, &mut random, pair, &mut tally);
        }
    }
    for length in 0..=node.len() {
        for part in [&node[..length], &node[node.len() - length..]] {
            let pair = ((part.to_vec(), certificate.clone()), Expected::Unknown);
            checked(origin, &mut random, pair, &mut tally);
        }
    }
    println!("every length: {tally}");
}

#[test]
fn forged_arguments() {
    let mut tally = Tally::default();
    for case in 0..6_000 {
        let origin = Origin { seed: 5, case };
        let mut random = Random::of_case(5, case);
        let (mut node, mut certificate, number) = forge::forgery(&mut random);
        if case % 2 == 1 {
            let other = renumbering(&mut random, &node);
            (node, certificate) = (other.node(&node), other.certificate(&certificate));
        }
        let pair = (
            (node.bytes(), certificate.bytes()),
            Expected::Refused(number),
        );
        checked(origin, &mut random, pair, &mut tally);
    }
    println!("forged: {tally}");
    assert_eq!(tally.of(0), 0);
    assert!(
        [17, 18, 19, 20, 22]
            .iter()
            .all(|number| tally.of(*number) > 500),
        "{tally}"
    );
}

/// A proof among right cuts is accepted; with a cut spoiled in some way it is
/// refused by the way's number. Each way is met often enough.
#[test]
fn spoiled_cuts() {
    let mut tally = Tally::default();
    let mut met = BTreeMap::new();
    for case in 0..11_000 {
        let origin = Origin { seed: 9, case };
        let mut random = Random::of_case(9, case);
        let way = miscuts::WAYS.get(case as usize % (2 * miscuts::WAYS.len()));
        let Some((node, certificate)) = cases::among_cuts(&mut random, way) else {
            continue;
        };
        let expected = way.map_or(Expected::Accepted, |way| Expected::Refused(way.number));
        let pair = ((node.bytes(), certificate.bytes()), expected);
        checked(origin, &mut random, pair, &mut tally);
        *met.entry(way.map(|way| way.name)).or_insert(0) += 1;
    }
    println!("spoiled cuts: {tally}; {met:?}");
    for way in &miscuts::WAYS {
        assert!(met.get(&Some(way.name)) >= Some(&50), "{}", way.name);
    }
    assert!(tally.of(0) > 4_000 && tally.of(22) > 3_000, "{tally}");
    assert!(tally.of_kind(5) > 50_000, "{tally}");
}

/// A proof among multiplied equation lines is accepted; with a line that goes
/// wrong in some way it is refused by the way's number. Each way is met often
/// enough.
#[test]
fn spoiled_factors() {
    let mut tally = Tally::default();
    let mut met = BTreeMap::new();
    for case in 0..11_000 {
        let origin = Origin { seed: 11, case };
        let mut random = Random::of_case(11, case);
        let way = misfactors::WAYS.get(case as usize % (2 * misfactors::WAYS.len()));
        let Some((node, certificate)) = cases::among_factors(&mut random, way) else {
            continue;
        };
        let expected = way.map_or(Expected::Accepted, |way| Expected::Refused(way.number));
        let pair = ((node.bytes(), certificate.bytes()), expected);
        checked(origin, &mut random, pair, &mut tally);
        *met.entry(way.map(|way| way.name)).or_insert(0) += 1;
    }
    println!("spoiled factors: {tally}; {met:?}");
    for way in &misfactors::WAYS {
        assert!(met.get(&Some(way.name)) >= Some(&50), "{}", way.name);
    }
    assert!(tally.of(0) > 4_000 && tally.of(17) > 3_000, "{tally}");
    assert!(tally.multiplied > 3_000, "{tally}");
}

/// Certificates that leave no room for one line more, and damaged copies.
#[test]
fn largest_files() {
    let mut tally = Tally::default();
    let mut random = Random::new(6);
    let kinds = [&largest::KINDS[..], &[largest::CUTS, largest::OF_INTS]].concat();
    for case in 0..72 {
        let kind = kinds[case % 6];
        let mut node = largest::node(&mut random, kind.ints, case / 12 % 2 == 0);
        if case / 6 % 2 == 1 {
            node = renumbering(&mut random, &node).node(&node);
        }
        let depth = 1 + (case / 6 % 8) as u8;
        let mut certificate = largest::certificate(&mut random, &node, depth, kind, MAX_BLOCKS);
        if case % 6 == 5 {
            certificate = certificate.times(random.of([2, 1_000_000]));
        }
        let mut file = certificate.bytes();
        assert!(file.len() > 64_000, "{}", file.len());
        file.splice(..0, vec![0xA5; 65_535 - file.len()]);
        let origin = Origin {
            seed: 6,
            case: case as u64,
        };
        let pair = (node.bytes(), file);
        for _ in 0..20 {
            let wrong = cases::damaged(&mut random, &pair);
            let wrong = (wrong, Expected::Unknown);
            checked(origin, &mut random, wrong, &mut tally);
        }
        checked(origin, &mut random, (pair, Expected::Accepted), &mut tally);
    }
    println!("largest: {tally}");
    assert_eq!(tally.longest, MAX_BLOCKS as u64);
    assert!(tally.multiplied >= 12, "{tally}");
    assert!(tally.reordered >= 30, "{tally}");
}

/// Where in its window an offset is.
#[derive(Clone, Copy, Debug, PartialEq, Eq, PartialOrd, Ord)]
enum Offset {
    First,
    Between,
    Last,
}

impl Offset {
    const ALL: [Offset; 3] = [Offset::First, Offset::Between, Offset::Last];

    fn of(q: u8, depth: u8) -> Self {
        match q {
            0 => Offset::First,
            _ if q == depth => Offset::Last,
            _ => Offset::Between,
        }
    }
}

/// What a line of kind 1 is of: whether of the step, offset, operator, type
/// and clause.
type Clause = (bool, Offset, u8, u8, u8);

/// The clauses of the list, in both parts and at all offsets.
fn every_clause() -> Vec<Clause> {
    let counts = [
        (1, 0, 1),
        (2, 0, 2),
        (3, 0, 3),
        (4, 0, 3),
        (5, 0, 4),
        (9, 0, 2),
        (10, 0, 3),
    ];
    let ints = [
        (1, 1, 2),
        (6, 1, 2),
        (7, 1, 2),
        (8, 1, 2),
        (14, 1, 3),
        (15, 1, 3),
    ];
    let either = [0, 1].map(|kind| [(11, kind, 4), (12, kind, 2), (13, kind, 2)]);
    let all = counts.into_iter().chain(ints).chain(either.concat());
    let windows = [false, true].map(|step| Offset::ALL.map(|q| (step, q)));
    let listed = windows.as_flattened().iter().flat_map(|&(step, q)| {
        let none = move |op| step && q == Offset::First && op == 13;
        let given = all.clone().filter(move |(op, ..)| !none(*op));
        given.flat_map(move |(op, kind, count)| (0..count).map(move |r| (step, q, op, kind, r)))
    });
    listed.collect()
}

/// Accepted certificates hold every clause of every operator in both parts,
/// at the first and the last offset and between, and joins, arithmetic lines
/// and cuts of 1 to 12 literals.
#[test]
fn coverage() {
    let mut clauses: BTreeMap<Clause, u64> = BTreeMap::new();
    let mut others: BTreeMap<(bool, u8, u8), u64> = BTreeMap::new();
    for case in 0..9_000 {
        let mut random = Random::of_case(8, case);
        let Some(((node, file), Expected::Accepted)) = cases::case(&mut random, &POOL).pop() else {
            continue;
        };
        let Layout::Node(n) = Layout::of_node(&node) else {
            continue;
        };
        let depth = file[file.len() - 13];
        for (step, line) in lines(&file) {
            if line[0] > 1 {
                *others.entry((step, line[0], line[1])).or_default() += 1;
                continue;
            }
            let at = node.len() - 16 - 16 * (n - usize::from(line[2]));
            let q = Offset::of(line[4], depth);
            let clause = (step, q, node[at], node[at + 1], line[6]);
            *clauses.entry(clause).or_default() += 1;
        }
    }
    let met = |clause: &Clause| clauses.get(clause).copied().unwrap_or(0);
    let least = every_clause().into_iter().min_by_key(met).expect("some");
    println!(
        "{} clauses, least {least:?}: {}; {others:?}",
        every_clause().len(),
        met(&least)
    );
    assert!(met(&least) >= 20, "{least:?}");
    assert_eq!(clauses.len(), every_clause().len());
    for step in [false, true] {
        for count in 1..=12 {
            for kind in 3..=5 {
                let met = others.get(&(step, kind, count)).copied();
                assert!(met >= Some(8), "{count} literals in kind {kind}");
            }
        }
    }
}
