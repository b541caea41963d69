//! The examples at the top of the repository: the verdict is the one written
//! beside them, and the nodes do what their pages say.

#[path = "common/folders.rs"]
mod folders;

use folders::{all, named, top, Folder};
use reference::answer::Refusal;
use reference::build::random::Random;
use reference::build::{search, BOOL, INT};
use reference::certificate::check;
use reference::look_up::look_up;
use reference::node::{self, Node, Type};
use reference::ranges;
use reference::session::{begin, commit, instant, trial, Record as Session};
use std::fs;
use std::process::Command;

/// The folders that are refused, by name.
const REFUSED: [&str; 7] = [
    "archived-two-bands",
    "forged",
    "forged-flight-list",
    "forged-loop",
    "forged-minutes",
    "forged-pairs",
    "forged-set-up",
];

#[test]
fn every_verdict_is_as_written() {
    for folder in all() {
        let said = match check(&folder.node, &folder.certificate) {
            Ok(accepted) => format!("{accepted}\n"),
            Err(refusal) => format!("{refusal}\n"),
        };
        assert_eq!(said, folder.verdict, "{}", folder.name());
    }
}

/// The table of ranges of an example that has one.
fn table(folder: &Folder) -> Vec<i64> {
    let bytes = fs::read(folder.path.join("table.bin")).unwrap();
    let (numbers, rest) = bytes.as_chunks();
    assert!(rest.is_empty(), "{}", folder.name());
    numbers.iter().copied().map(i64::from_le_bytes).collect()
}

#[test]
fn tables_are_listed_as_written() {
    for (name, wanted) in [
        ("flight-list", "listed"),
        ("forged-flight-list", "refused 72 record 8"),
    ] {
        let folder = named(name);
        let said = match ranges::check(&folder.node, &table(&folder)) {
            Ok(()) => "listed".to_string(),
            Err(refusal) => refusal.to_string(),
        };
        let written = fs::read_to_string(folder.path.join("listed")).unwrap();
        assert_eq!((said.as_str(), written.trim_end()), (wanted, wanted));
    }
}

/// Three bookings of thirty minutes make the forged one's property false.
#[test]
fn the_forged_flight_list_breaks_its_property() {
    let asked = [[30], [30], [30]];
    assert_eq!(run("forged-flight-list", &asked, 16), [1, 1, 0]);
    assert_eq!(run("flight-list", &asked, 16), [1, 1, 1]);
}

#[test]
fn the_program_prints_every_verdict() {
    for folder in all() {
        let mut program = Command::new(env!("CARGO_BIN_EXE_reference-check"));
        let output = program.current_dir(&folder.path).output().unwrap();
        assert!(output.status.success());
        assert_eq!(
            output.stdout,
            folder.verdict.as_bytes(),
            "{}",
            folder.name()
        );
    }
}

#[test]
fn every_page_gives_the_verdict() {
    let page_on_all = fs::read_to_string(top().join("README.md")).unwrap();
    for folder in all() {
        let (name, verdict) = (folder.name(), folder.verdict.trim_end());
        let page = fs::read_to_string(folder.path.join("README.md")).unwrap();
        assert!(page.ends_with(&format!("Verdict: `{verdict}`\n")), "{name}");
        let row = page_on_all
            .lines()
            .find(|line| line.starts_with(&format!("| [{name}]")));
        assert!(
            row.is_some_and(|row| row.ends_with(&format!("| `{verdict}` |"))),
            "{name}"
        );
    }
}

#[test]
fn only_the_forged_are_refused() {
    let folders = all();
    let refused = |folder: &&Folder| !folder.verdict.starts_with("accepted");
    let names: Vec<&str> = folders.iter().filter(refused).map(Folder::name).collect();
    assert_eq!(names, REFUSED);
    assert_eq!(folders.len(), 21);
}

/// 02: "Version 1 files are now refused with 12."
#[test]
fn none_is_of_version_1() {
    let accepted = |folder: &Folder| !REFUSED.contains(&folder.name());
    for folder in all().into_iter().filter(accepted) {
        let mut old = folder.certificate.clone();
        let version = old.len() - 14;
        old[version] = 1;
        let verdict = check(&folder.node, &old);
        assert_eq!(verdict, Err(Refusal::file(12)), "{}", folder.name());
    }
}

/// Inputs for one instant.
fn draw(random: &mut Random, node: &Node) -> Vec<i64> {
    let types = node.inputs().iter().map(|i| node.types()[usize::from(*i)]);
    let drawn = types.map(|own| match own {
        Type::Bool => random.input(BOOL),
        Type::Int => random.input(INT),
    });
    drawn.collect()
}

/// Demand 3, tried: where a certificate is accepted, the property is 1 at
/// every answered instant.
#[test]
fn the_property_of_an_accepted_one_holds() {
    let mut random = Random::new(20);
    let accepted = |folder: &&Folder| !REFUSED.contains(&folder.name());
    for folder in all().iter().filter(accepted) {
        let node = node::read(&folder.node).unwrap();
        for _ in 0..50 {
            let mut session = Session::new();
            begin(&mut session, &folder.node).unwrap();
            for _ in 0..40 {
                let mut values = vec![0; node.count()];
                match instant(&mut session, &draw(&mut random, &node), &mut values) {
                    Ok(()) => assert_eq!(values[usize::from(node.property())], 1),
                    Err(refusal) => assert_eq!(refusal.number, 34),
                }
            }
        }
    }
}

/// The values of a stream of an example, one an instant.
fn run<const N: usize>(name: &str, inputs: &[[i64; N]], stream: usize) -> Vec<i64> {
    let folder = named(name);
    let count = node::read(&folder.node).unwrap().count();
    let mut session = Session::new();
    begin(&mut session, &folder.node).unwrap();
    let values = inputs.iter().map(|inputs| {
        let mut values = vec![0; count];
        instant(&mut session, inputs, &mut values).unwrap();
        values[stream]
    });
    values.collect()
}

#[test]
fn the_second_band_waits_for_the_first() {
    let asked = [[0, 0], [0, 1], [1, 0], [1, 1]];
    assert_eq!(run("two-bands", &asked, 3), [0, 1, 0, 0]);
}

#[test]
fn minutes_are_booked_while_there_are_enough() {
    let asked = [[60], [31], [30], [1], [-5], [5]];
    assert_eq!(run("free-minutes", &asked, 6), [30, 30, 0, 0, 5, 0]);
}

#[test]
fn a_grant_holds_until_release() {
    let asked = [[0, 0], [1, 0], [0, 0], [0, 1], [0, 0], [1, 1], [1, 0]];
    assert_eq!(run("grant", &asked, 5), [0, 1, 1, 0, 0, 0, 1]);
}

#[test]
fn grants_take_turns() {
    let asked = [[1, 1], [1, 1], [0, 1], [1, 0], [1, 0], [1, 1]];
    assert_eq!(run("turns", &asked, 6), [1, 0, 0, 1, 0, 0]);
    assert_eq!(run("turns", &asked, 7), [0, 1, 0, 0, 0, 1]);
}

#[test]
fn a_pass_has_three_grants() {
    let asked = [[1, 0], [1, 0], [0, 0], [1, 0], [1, 0], [1, 1], [1, 0]];
    assert_eq!(run("quota", &asked, 9), [1, 1, 0, 1, 0, 1, 1]);
    assert_eq!(run("quota", &asked, 12), [20, 40, 40, 60, 60, 20, 40]);
}

#[test]
fn crews_hand_their_minutes_over() {
    let given_up = [[0], [0], [1], [0], [0], [0]];
    assert_eq!(run("handover", &given_up, 4), [40, 30, 40, 30, 30, 30]);
    assert_eq!(run("handover", &given_up, 5), [30, 40, 30, 30, 30, 30]);
}

/// The node of handover in another order: `early` is stream 1, `late` 2, and
/// `fine`, first of all, 0.
#[test]
fn the_property_may_stand_first() {
    let given_up = [[0], [0], [1], [0], [0], [0]];
    assert_eq!(run("property-first", &given_up, 0), [1; 6]);
    assert_eq!(
        run("property-first", &given_up, 1),
        run("handover", &given_up, 4)
    );
    assert_eq!(
        run("property-first", &given_up, 2),
        run("handover", &given_up, 5)
    );
    let file = named("property-first").node;
    let node = node::read(&file).unwrap();
    assert_eq!(node.order(), [4, 5, 1, 0, 6, 2, 7, 3]);
}

#[test]
fn the_forged_property_fails() {
    assert_eq!(run("forged", &[[0], [1], [1], [1]], 3), [1, 1, 0, 1]);
}

#[test]
fn no_smaller_depth_is_found() {
    for (name, depth) in [("handover", 2), ("property-first", 2), ("relay", 8)] {
        let node = named(name).node;
        assert!(search::certificate(&node, depth).is_some(), "{name}");
        assert_eq!(search::certificate(&node, depth - 1), None, "{name}");
    }
}

#[test]
fn a_tone_put_one_minute_on_meets_a_booking() {
    let slots = [[1, 0], [1, 0], [-2, -3]];
    assert_eq!(run("pairs-of-minutes", &slots, 9), [1, 1, 1]);
    assert_eq!(run("forged-pairs", &slots, 9), [1, 0, 0]);
}

#[test]
fn minutes_are_booked_while_the_slots_have_room() {
    let asked = [[60], [1], [-10], [11], [10]];
    let halves = [120, 120, 100, 100, 120];
    assert_eq!(run("half-minutes", &asked, 8), halves);
    assert_eq!(run("half-minutes", &asked, 10), [1; 5]);
    assert_eq!(run("forged-minutes", &asked, 8), halves);
    assert_eq!(run("forged-minutes", &asked, 10), [0; 5]);
}

/// The events of a pass: kind, inputs and the length of the lent slice.
fn events(mut bytes: &[u8]) -> Vec<(u16, Vec<i64>, usize)> {
    let mut events = Vec::new();
    while let Some((head, rest)) = bytes.split_first_chunk::<6>() {
        let [kind, count, room] = [0, 2, 4].map(|at| u16::from_le_bytes([head[at], head[at + 1]]));
        let (inputs, rest) = rest.split_at(8 * usize::from(count));
        let inputs = inputs.as_chunks().0.iter().copied().map(i64::from_le_bytes);
        events.push((kind, inputs.collect(), usize::from(room)));
        bytes = rest;
    }
    events
}

/// What is printed of an answer.
fn shown(answer: Result<(), Refusal>, values: &[i64]) -> String {
    match answer {
        Ok(()) => values.iter().fold("answered".to_string(), |line, value| {
            format!("{line} {value}")
        }),
        Err(refusal) => format!("{refusal} kept"),
    }
}

#[test]
fn a_pass_is_as_written() {
    let folder = named("on-duty");
    let mut session = Session::new();
    begin(&mut session, &folder.node).unwrap();
    let mut said = vec!["pass.bin: begun streams 12".to_string()];
    for (kind, inputs, room) in events(&fs::read(folder.path.join("pass.bin")).unwrap()) {
        let mut values = vec![7; room];
        said.push(match kind {
            1 => {
                let answer = trial(&mut session, &inputs, &mut values);
                format!("trial: {}", shown(answer, &values))
            }
            2 => format!("commit: {}", shown(commit(&mut session), &[])),
            _ => shown(instant(&mut session, &inputs, &mut values), &values),
        });
    }
    let written = fs::read_to_string(folder.path.join("says")).unwrap();
    assert_eq!(said, written.lines().collect::<Vec<_>>());
}

/// The numbers of a file, 64 bits each.
fn words(folder: &Folder, file: &str) -> Vec<i64> {
    let bytes = fs::read(folder.path.join(file)).unwrap();
    let (words, rest) = bytes.as_chunks();
    assert!(rest.is_empty(), "{file}");
    words.iter().copied().map(i64::from_le_bytes).collect()
}

#[test]
fn questions_are_answered_as_written() {
    let folder = named("one-value");
    let inputs = words(&folder, "history.bin");
    let numbers = words(&folder, "questions.bin");
    let numbers: Vec<usize> = numbers
        .iter()
        .map(|n| usize::try_from(*n).unwrap())
        .collect();
    let (instants, questions) = numbers.split_first().unwrap();
    let count = inputs.len();
    let mut said = vec![format!("questions.bin: instants {instants} inputs {count}")];
    for [stream, instant] in questions.as_chunks().0 {
        let answer = look_up(&folder.node, *instants, &inputs, *stream, *instant);
        let answer = answer.map_or_else(|r| r.to_string(), |value| format!("value {value}"));
        said.push(format!("stream {stream} instant {instant}: {answer}"));
    }
    let written = fs::read_to_string(folder.path.join("says")).unwrap();
    assert_eq!(said, written.lines().collect::<Vec<_>>());
}

/// The page of one-value: a session answers instant 0 alone.
#[test]
fn a_session_stops_where_look_ups_go_on() {
    let folder = named("one-value");
    let inputs = words(&folder, "history.bin");
    let mut session = Session::new();
    begin(&mut session, &folder.node).unwrap();
    let mut values = [0; 15];
    instant(&mut session, &inputs[..2], &mut values).unwrap();
    let stopped = instant(&mut session, &inputs[2..4], &mut values).unwrap_err();
    assert_eq!(stopped.to_string(), "refused 34 record 7");
    assert_eq!(look_up(&folder.node, 5, &inputs, 12, 2), Ok(8400));
}
