//! The stored passes of `crates/run_passes`: the reference session says of each
//! event what the proved program prints.

use reference::answer::Refusal;
use reference::node;
use reference::session::{begin, commit, instant, trial, Record as Session};
use std::fs;
use std::path::{Path, PathBuf};

/// Where the program's files stand.
fn top() -> PathBuf {
    Path::new(env!("CARGO_MANIFEST_DIR")).join("../../crates/run_passes")
}

/// A call's line: its values, or its refusal, which has to keep the slice.
fn line(answer: Result<(), Refusal>, values: &[i64]) -> String {
    match answer {
        Ok(()) => values
            .iter()
            .fold("answered".to_string(), |line, v| format!("{line} {v}")),
        Err(refusal) => {
            assert!(values.iter().all(|v| *v == 7), "{refusal} wrote the slice");
            format!("{refusal} kept")
        }
    }
}

fn begun(session: &mut Session, file: &[u8]) -> String {
    match begin(session, file) {
        Ok(()) => format!("begun streams {}", node::read(file).unwrap().count()),
        Err(refusal) => refusal.to_string(),
    }
}

/// The lines of one pass: `specs/Pass.antt` there has the format.
fn run(name: &str, node: &[u8], mut bytes: &[u8], lines: &mut Vec<String>) {
    let mut session = Session::new();
    lines.push(format!("{name}: {}", begun(&mut session, node)));
    while bytes.len() >= 6 {
        let field = |at: usize| u16::from_le_bytes([bytes[at], bytes[at + 1]]);
        let (kind, m, r) = (field(0), usize::from(field(2)), usize::from(field(4)));
        if bytes.len() < 6 + 8 * m {
            break;
        }
        let data = &bytes[6..6 + 8 * m];
        bytes = &bytes[6 + 8 * m..];
        let inputs: Vec<i64> = data
            .chunks(8)
            .take(65)
            .map(|c| i64::from_le_bytes(c.try_into().unwrap()))
            .collect();
        let mut values = vec![7; r.min(65)];
        lines.push(match kind {
            1 => {
                let a = trial(&mut session, &inputs, &mut values);
                format!("trial: {}", line(a, &values))
            }
            2 => format!("commit: {}", line(commit(&mut session), &[])),
            3 => format!(
                "beginning: {}",
                begun(&mut session, &data[..r.min(data.len())])
            ),
            _ => {
                let a = instant(&mut session, &inputs, &mut values);
                line(a, &values)
            }
        });
    }
}

#[test]
fn all_stored_passes_are_as_written() {
    let names = fs::read_to_string(top().join("args")).unwrap();
    let names: Vec<&str> = names.lines().collect();
    let mut lines = Vec::new();
    for pair in names.chunks(2) {
        let read = |name: &str| fs::read(top().join("data").join(name)).unwrap_or_default();
        run(pair[1], &read(pair[0]), &read(pair[1]), &mut lines);
    }
    let written = fs::read_to_string(top().join("stdout")).unwrap();
    let written: Vec<&str> = written.lines().collect();
    assert_eq!(lines, written);
    assert_eq!(lines.len(), 1_544);
}
