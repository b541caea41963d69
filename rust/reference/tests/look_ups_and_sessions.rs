//! 02: a look-up "agrees with the session on each instant that the session
//! reaches". Where the session stops with 34 a look-up may still have a value.

#[path = "common/folders.rs"]
mod folders;
#[path = "common/histories.rs"]
mod histories;

use histories::{any_node, input_types, Inputs};
use reference::answer::{Place, Refusal};
use reference::build::proof::two_bands_node;
use reference::build::random::Random;
use reference::build::{NodeFile, Record as R, BOOL, INT};
use reference::history::History;
use reference::look_up::look_up;
use reference::node::{self, Node, Type};
use reference::session::{begin, instant, Record};

/// The values of each instant that a session on the file reaches, and what
/// stopped it before the end of the history, if it was.
fn run(file: &[u8], instants: usize, inputs: &[i64]) -> (Vec<Vec<i64>>, Option<Refusal>) {
    let node = node::read(file).unwrap();
    let mut session = Record::new();
    begin(&mut session, file).unwrap();
    let mut rows = Vec::new();
    for at in 0..instants {
        let count = node.inputs().len();
        let mut values = vec![0; node.count()];
        match instant(&mut session, &inputs[count * at..][..count], &mut values) {
            Ok(()) => rows.push(values),
            Err(refusal) => return (rows, Some(refusal)),
        }
    }
    (rows, None)
}

/// How many look-ups were made, at instants that a session reached and at later
/// ones.
#[derive(Debug, Default)]
struct Tally {
    reached: usize,
    /// Later ones with a value, and with 34.
    later: [usize; 2],
}

/// Looks up every stream at every instant of a typed history and compares it
/// with the session.
fn compare(file: &[u8], instants: usize, inputs: &[i64], tally: &mut Tally) {
    let (rows, stopped) = run(file, instants, inputs);
    let node = node::read(file).unwrap();
    let history = History::new(&node, instants, inputs).unwrap();
    for at in 0..instants {
        for stream in 0..node.count() {
            let answer = look_up(file, instants, inputs, stream, at);
            assert_eq!(answer, history.look_up(stream, at));
            let refused = Refusal::new(34, Place::Record(stream));
            match rows.get(at) {
                Some(values) => {
                    assert_eq!(answer, Ok(values[stream]));
                    tally.reached += 1;
                }
                None => tally.later[usize::from(answer.is_err())] += 1,
            }
            assert!(answer.is_ok() || answer == Err(refused), "{answer:?}");
        }
    }
    // The stream that stopped the session is refused when it is looked up there.
    if let Some(Refusal { number, place }) = stopped {
        let Place::Record(stream) = place else {
            panic!("{place} of {number}")
        };
        let answer = history.look_up(stream, rows.len());
        assert_eq!(answer, Err(Refusal { number: 34, place }));
        assert_eq!(number, 34);
    }
}

#[test]
fn on_each_instant_that_the_session_reaches() {
    let mut random = Random::new(112);
    let mut tally = Tally::default();
    for _ in 0..1_200 {
        let node = any_node(&mut random);
        let instants = random.below(17);
        let kind = Inputs::typed(&mut random);
        let inputs = kind.history(&mut random, &input_types(&node), instants);
        compare(&node.bytes(), instants, &inputs, &mut tally);
    }
    assert!(tally.reached > 60_000, "{tally:?}");
    assert!(tally.later.iter().all(|count| *count > 3_000), "{tally:?}");
}

/// The type bytes of a node's inputs.
fn types(node: &Node) -> Vec<u8> {
    let types = node.inputs().iter().map(|i| node.types()[usize::from(*i)]);
    types
        .map(|own| if own == Type::Bool { BOOL } else { INT })
        .collect()
}

#[test]
fn on_the_nodes_of_all_examples() {
    let mut random = Random::new(113);
    let mut tally = Tally::default();
    let mut nodes = 0;
    for folder in folders::all() {
        let Ok(node) = node::read(&folder.node) else {
            continue;
        };
        nodes += 1;
        for instants in 0..=16 {
            let kind = Inputs::typed(&mut random);
            let inputs = kind.history(&mut random, &types(&node), instants);
            compare(&folder.node, instants, &inputs, &mut tally);
        }
    }
    assert!(nodes >= 18, "{nodes}");
    assert!(tally.reached > 10_000, "{tally:?}");
}

/// A session stops at the first instant with a bool input that is none, if it
/// gets there: the look-up is refused alike, and with 33 though the session
/// stops earlier with 34.
#[test]
fn both_refuse_the_same_input() {
    let mut random = Random::new(114);
    let mut met = [0; 3];
    for _ in 0..6_000 {
        let node = any_node(&mut random);
        let kind = Inputs {
            are_odd: true,
            ..Inputs::typed(&mut random)
        };
        let instants = 1 + random.below(16);
        let inputs = kind.history(&mut random, &input_types(&node), instants);
        let file = node.bytes();
        let (rows, stopped) = run(&file, instants, &inputs);
        let answer = look_up(&file, instants, &inputs, 0, 0);
        let is_33 = answer.is_err_and(|refusal| refusal.number == 33);
        match stopped {
            Some(refusal) if refusal.number == 33 => {
                assert_eq!(answer, Err(refusal));
                met[0] += 1;
            }
            Some(_) => met[1] += usize::from(is_33),
            None => {
                assert_eq!(answer, Ok(rows[0][0]));
                met[2] += 1;
            }
        }
    }
    assert!(met.iter().all(|count| *count > 100), "{met:?}");
}

/// 01: "Inputs 1, 1 give 1, 1, 0, 0, 0, 1."
#[test]
fn two_bands() {
    let file = two_bands_node().bytes();
    for (stream, value) in [1, 1, 0, 0, 0, 1].into_iter().enumerate() {
        assert_eq!(look_up(&file, 1, &[1, 1], stream, 0), Ok(value));
        assert_eq!(look_up(&file, 2, &[0, 1, 1, 1], stream, 1), Ok(value));
    }
}

/// Inputs 4611686018427387903, one more and −4611686018427387904, as 01 has
/// them.
#[test]
fn the_largest_sums() {
    let records = vec![R::input(INT), R::sum(0, 0), R::constant(BOOL, 1)];
    let file = NodeFile::new(records, 2).bytes();
    let sum = |x| look_up(&file, 1, &[x], 1, 0);
    assert_eq!(
        sum(4_611_686_018_427_387_903),
        Ok(9_223_372_036_854_775_806)
    );
    let past = Refusal::new(34, Place::Record(1));
    assert_eq!(sum(4_611_686_018_427_387_904), Err(past));
    assert_eq!(sum(-4_611_686_018_427_387_904), Ok(i64::MIN));
}

/// 0 an int input; 1 false; 2 is three times 0; 3 is twice 0; 4 is 2 if 1, else
/// 0. The session works out all five.
#[test]
fn an_untaken_branch_stops_the_session_alone() {
    let records = vec![
        R::input(INT),
        R::constant(BOOL, 0),
        R::multiple(3, 0),
        R::sum(0, 0),
        R::choice(INT, 1, 2, 0),
    ];
    let file = NodeFile::new(records, 1).bytes();
    let x = i64::MAX;
    let past = |stream| Err(Refusal::new(34, Place::Record(stream)));
    assert_eq!(run(&file, 1, &[x]).1, past(2).err());
    let answers = [0, 1, 2, 3, 4].map(|stream| look_up(&file, 1, &[x], stream, 0));
    assert_eq!(answers, [Ok(x), Ok(0), past(2), past(3), Ok(x)]);
}

/// 0 is 10^9; 1 is 0 -> pre 2; 2 is 10^9 times 1; 3 true. The session stops for
/// ever at instant 1, where 2 is 10^27.
#[test]
fn instants_that_the_session_never_reaches() {
    let records = vec![
        R::constant(INT, 1_000_000_000),
        R::arrow_pre(INT, 0, 2),
        R::multiple(1_000_000_000, 1),
        R::constant(BOOL, 1),
    ];
    let file = NodeFile::new(records, 3).bytes();
    let past = |stream| Err(Refusal::new(34, Place::Record(stream)));
    let (rows, stopped) = run(&file, 16, &[]);
    assert_eq!((rows.len(), stopped), (1, past(2).err()));
    let at = |instant| [0, 1, 2, 3].map(|stream| look_up(&file, 16, &[], stream, instant));
    let (most, square) = (1_000_000_000, 1_000_000_000_000_000_000);
    assert_eq!(at(0), [Ok(most), Ok(most), Ok(square), Ok(1)]);
    assert_eq!(at(1), [Ok(most), Ok(square), past(2), Ok(1)]);
    for instant in 2..16 {
        assert_eq!(at(instant), [Ok(most), past(1), past(2), Ok(1)]);
    }
}
