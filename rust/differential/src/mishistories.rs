//! Look-ups with something off: each way makes of one in a right history one
//! that is refused.

use crate::histories::{Pass, Question, MOST};
use crate::random::Random;
use reference::build::BOOL;

/// Spoils a look-up in a pass; nothing if it can't.
type Spoil = fn(&mut Random, &Pass, &mut Question) -> Option<()>;

/// A way to spoil a look-up.
pub struct Way {
    /// What is off.
    pub name: &'static str,
    /// The number that refuses it.
    pub number: u8,
    spoil: Spoil,
}

impl Way {
    const fn new(name: &'static str, number: u8, spoil: Spoil) -> Self {
        Way {
            name,
            number,
            spoil,
        }
    }

    /// The look-up so spoiled.
    pub fn spoiled(&self, random: &mut Random, pass: &Pass, right: &Question) -> Option<Question> {
        let mut question = right.clone();
        (self.spoil)(random, pass, &mut question).map(|()| question)
    }
}

/// All ways.
pub const WAYS: [Way; 14] = [
    Way::new("an input more", 31, |random, _, question| {
        question.inputs.push(random.of([0, 1, 2]));
        Some(())
    }),
    Way::new("an input less", 31, |_, _, question| {
        question.inputs.pop().map(|_| ())
    }),
    Way::new("other instants", 31, |random, pass, question| {
        let count = question.instants;
        question.instants = random.of([0, count - 1, count + 1, MOST + 1, usize::MAX]);
        (pass.each() > 0 && question.instants != count).then_some(())
    }),
    Way::new("a product that wraps around", 31, wrapping),
    Way::new("count, bool and instant", 31, |random, pass, question| {
        question.inputs.push(2);
        no_bool(random, pass, question)?;
        question.instant = question.instants;
        Some(())
    }),
    Way::new("no bool", 33, no_bool),
    Way::new("two no bools", 33, |random, pass, question| {
        no_bool(random, pass, question)?;
        no_bool(random, pass, question)
    }),
    Way::new("no bool, and out", 33, |random, pass, question| {
        out(random, pass, question)?;
        no_bool(random, pass, question)
    }),
    Way::new("no bool, and long", 33, |random, pass, question| {
        long(random, pass, question)?;
        no_bool(random, pass, question)
    }),
    Way::new("no instants", 65, |random, _, question| {
        question.inputs.clear();
        question.instants = 0;
        question.instant = random.of([0, question.instant, usize::MAX]);
        Some(())
    }),
    Way::new("17 instants", 65, |random, pass, question| {
        longer(random, pass, question, MOST + 1)
    }),
    Way::new("long", 65, long),
    Way::new("no end of instants", 65, |random, pass, question| {
        question.instants = random.of([MOST + 1, 1 << 32, 1 << 63, usize::MAX]);
        (pass.each() == 0).then_some(())
    }),
    Way::new("out", 65, out),
];

/// A stream or an instant out of the history, the first one as often as others.
fn out(random: &mut Random, pass: &Pass, question: &mut Question) -> Option<()> {
    let far = random.of([63, 64, 1 << 32, usize::MAX]);
    let [streams, instants] = [pass.streams(), question.instants];
    let past = |first: usize| [first, first + 1, far.max(first)];
    match random.below(3) {
        0 => question.stream = random.of(past(streams)),
        1 => question.instant = random.of(past(instants)),
        _ => (question.stream, question.instant) = (streams, instants),
    }
    Some(())
}

/// A history of over 16 instants, at times of some thousands.
fn long(random: &mut Random, pass: &Pass, question: &mut Question) -> Option<()> {
    let count = match random.below(64) {
        0 => random.within(1_000, 5_000),
        1..16 => random.within(MOST + 1, 100),
        _ => random.within(MOST + 1, MOST + 2),
    };
    longer(random, pass, question, count)
}

/// So many instants.
fn longer(random: &mut Random, pass: &Pass, question: &mut Question, count: usize) -> Option<()> {
    while question.instants < count {
        question.inputs.extend(pass.run.inputs(random));
        question.instants += 1;
    }
    Some(())
}

/// A count of instants whose product with the inputs is that of the right one
/// where it is taken at 64 bits.
fn wrapping(random: &mut Random, pass: &Pass, question: &mut Question) -> Option<()> {
    let twos = pass.each().trailing_zeros();
    if pass.each() == 0 || twos == 0 {
        return None;
    }
    let times = random.within(1, (1 << twos) - 1);
    question.instants += times << (usize::BITS - twos);
    Some(())
}

/// A bool input of some instant that is neither 0 nor 1.
fn no_bool(random: &mut Random, pass: &Pass, question: &mut Question) -> Option<()> {
    let given = pass.run.node.records.iter();
    let given = given.filter(|record| record.operator == 0);
    let bools = given.enumerate().filter(|(_, own)| own.type_byte == BOOL);
    let bools: Vec<usize> = bools.map(|(place, _)| place).collect();
    let at = pass.each() * random.below(question.instants) + random.pick(&bools)?;
    question.inputs[at] = random.of([2, 2, -1, 3, 256, 1 << 32, i64::MIN, i64::MAX]);
    Some(())
}
