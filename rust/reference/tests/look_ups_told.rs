//! Look-ups on random histories beside the same told in the words of 02: every
//! value as a whole number of any size, and what is visited as a set.

#[path = "common/equations.rs"]
mod equations;
#[path = "common/histories.rs"]
mod histories;
#[path = "common/whole.rs"]
mod whole;

use equations::{Pair, Told};
use histories::{any_constant, any_node, input_types, Inputs};
use reference::build::random::Random;
use reference::look_up::look_up;
use std::collections::{BTreeMap, BTreeSet};
use whole::Whole;

/// A history: 0 to 17 instants with their inputs, at times one too many or too
/// few.
fn any_history(random: &mut Random, types: &[u8]) -> (usize, Vec<i64>) {
    let kind = Inputs {
        are_odd: random.below(6) == 0,
        ..Inputs::typed(random)
    };
    let instants = random.below(18);
    let mut inputs = kind.history(random, types, instants);
    match random.below(24) {
        0 => inputs.push(0),
        1 => drop(inputs.pop()),
        _ => {}
    }
    (instants, inputs)
}

/// A number below the limit, at times at it or past it.
fn any_below(random: &mut Random, limit: usize) -> usize {
    match random.below(24) {
        0 => limit,
        1 => limit + random.below(3),
        2 => usize::MAX - random.below(2),
        _ => random.below(limit),
    }
}

/// What a question is answered with, and what more there is to it: values
/// outside the range that are not visited, or one visited and the wanted one
/// inside.
fn kind(told: &Told, stream: usize, instant: usize) -> (u8, &'static str) {
    let is_outside = |last: usize| {
        let mut pairs = told.pairs().filter(|(at, _)| *at <= last);
        pairs.any(|pair| !told.fits(pair))
    };
    let is_deep = |visited: BTreeSet<Pair>| visited.iter().any(|(at, _)| *at < instant);
    match told.answer(stream, instant).map_err(|r| r.number) {
        Ok(_) if is_outside(instant) => (0, "outside, not visited"),
        Ok(_) if is_outside(usize::MAX) => (0, "outside later"),
        Ok(_) => (0, "all inside"),
        Err(34) if told.fits((instant, stream)) => (34, "inside again"),
        Err(34) if is_deep(told.visited(stream, instant)) => (34, "over instants"),
        Err(number) => (number, ""),
    }
}

/// How often each was met.
type Tally<T> = BTreeMap<T, usize>;

/// Asks this many questions on a random history; each is answered as told.
fn ask(random: &mut Random, questions: usize, mut note: impl FnMut(&Told, Pair)) {
    let node = any_node(random);
    let file = node.bytes();
    let (instants, inputs) = any_history(random, &input_types(&node));
    let told = Told::new(&node, instants, &inputs);
    for _ in 0..questions {
        let stream = any_below(random, node.records.len());
        let instant = any_below(random, instants);
        let answer = look_up(&file, instants, &inputs, stream, instant);
        let expected = told.answer(stream, instant);
        assert_eq!(
            answer, expected,
            "{stream} at {instant}, {node:?} {inputs:?}"
        );
        note(&told, (instant, stream));
    }
}

#[test]
fn any_look_up_is_as_told() {
    let mut random = Random::new(110);
    let mut kinds: Tally<(u8, &str)> = Tally::new();
    let mut operators: Tally<(u8, bool)> = Tally::new();
    for _ in 0..16_000 {
        ask(&mut random, 16, |told, (instant, stream)| {
            let kind = kind(told, stream, instant);
            *kinds.entry(kind).or_default() += 1;
            if let (number @ (0 | 34), _) = kind {
                let met = (told.operator(stream), number == 0);
                *operators.entry(met).or_default() += 1;
            }
        });
    }
    let met: Vec<u8> = kinds.keys().map(|(number, _)| *number).collect();
    assert_eq!(met, [0, 0, 0, 31, 33, 34, 34, 34, 65], "{kinds:?}");
    assert!(kinds.values().all(|count| *count > 1_000), "{kinds:?}");
    // Inputs and constants are always inside, all other operators both ways.
    assert_eq!(operators.len(), 2 + 2 * 14, "{operators:?}");
    assert!(operators.values().all(|count| *count > 40), "{operators:?}");
}

/// The numbers that tell the values are right themselves: beside 128 bits, and
/// far past them.
#[test]
fn whole_numbers_are_exact() {
    let mut random = Random::new(111);
    for _ in 0..20_000 {
        let [a, b] = [0; 2].map(|_| random.bits().cast_signed() >> random.below(64));
        let k = any_constant(&mut random);
        let [wide_a, wide_b] = [a, b].map(i128::from);
        let [x, y] = [a, b].map(Whole::from);
        let fitting = |wide: i128| i64::try_from(wide).ok();
        assert_eq!(x.narrow(), Some(a));
        assert_eq!(x.sum(&y).narrow(), fitting(wide_a + wide_b));
        assert_eq!(x.difference(&y).narrow(), fitting(wide_a - wide_b));
        assert_eq!(x.times(k).narrow(), fitting(wide_a * i128::from(k)));
        assert_eq!(x.is_at_most(&y), a <= b);
        // Far up, and back down to the same.
        let far = (0..40).fold(y.clone(), |far, _| far.times(-1_000_000_000));
        let back = far.sum(&x).difference(&far);
        assert_eq!((back == x, back.narrow()), (true, Some(a)));
        assert_eq!(far.is_at_most(&x), b <= 0 && (b < 0 || a >= 0));
    }
}
