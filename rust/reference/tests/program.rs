//! The program `reference-check`: one line, exactly as 01 says.

mod common;
#[path = "common/examples.rs"]
mod examples;

use common::{lengthened, patched, two_bands};
use reference::build::search;
use reference::build::{Constraint, INT};
use std::fs;
use std::path::PathBuf;
use std::process::Command;

/// An empty folder of this name.
fn folder(name: &str) -> PathBuf {
    let folder = PathBuf::from(env!("CARGO_TARGET_TMPDIR")).join(name);
    let _ = fs::remove_dir_all(&folder);
    fs::create_dir_all(&folder).unwrap();
    folder
}

/// What the program prints in a folder with these files.
fn printed(name: &str, node: Option<&[u8]>, certificate: Option<&[u8]>) -> String {
    let folder = folder(name);
    for (file, bytes) in [("node.bin", node), ("cert.bin", certificate)] {
        if let Some(bytes) = bytes {
            fs::write(folder.join(file), bytes).unwrap();
        }
    }
    run(&folder)
}

fn run(folder: &PathBuf) -> String {
    let mut program = Command::new(env!("CARGO_BIN_EXE_reference-check"));
    let output = program.current_dir(folder).output().unwrap();
    assert!(output.status.success());
    assert!(output.stderr.is_empty());
    String::from_utf8(output.stdout).unwrap()
}

#[test]
fn the_worked_example() {
    let (node, certificate) = two_bands();
    let line = printed("example", Some(&node.bytes()), Some(&certificate.bytes()));
    assert_eq!(line, "accepted depth 1 base 23 step 12\n");
    let old = certificate.bytes_of_version(1);
    let line = printed("version-1", Some(&node.bytes()), Some(&old));
    assert_eq!(line, "refused 12 file\n");
}

#[test]
fn another_depth() {
    let node = examples::ring(8);
    let found = search::certificate(&node.bytes(), 8).unwrap();
    let line = printed("depth-8", Some(&node.bytes()), Some(&found.bytes()));
    let (base, step) = (found.base.len(), found.step.len());
    assert_eq!(line, format!("accepted depth 8 base {base} step {step}\n"));
}

#[test]
fn an_unopenable_file_is_empty() {
    let (node, certificate) = two_bands();
    let (node, certificate) = (node.bytes(), certificate.bytes());
    assert_eq!(printed("neither", None, None), "refused 1 file\n");
    assert_eq!(
        printed("no-node", None, Some(&certificate)),
        "refused 1 file\n"
    );
    assert_eq!(printed("no-cert", Some(&node), None), "refused 11 file\n");
    let folders = folder("folders");
    fs::create_dir(folders.join("node.bin")).unwrap();
    assert_eq!(run(&folders), "refused 1 file\n");
}

#[test]
fn files_that_are_too_long() {
    let (node, certificate) = two_bands();
    let (node, certificate) = (node.bytes(), certificate.bytes());
    let long = lengthened(&node, 65_536);
    assert_eq!(
        printed("long-node", Some(&long), Some(&certificate)),
        "refused 1 file\n"
    );
    let long = lengthened(&certificate, 300_000);
    assert_eq!(
        printed("long-cert", Some(&node), Some(&long)),
        "refused 11 file\n"
    );
    let fits = lengthened(&certificate, 65_535);
    let line = printed("fits", Some(&node), Some(&fits));
    assert_eq!(line, "accepted depth 1 base 23 step 12\n");
}

#[test]
fn every_kind_of_place() {
    let (node, certificate) = two_bands();
    let print = |name: &str, wrong: &reference::build::CertificateFile| {
        printed(name, Some(&node.bytes()), Some(&wrong.bytes()))
    };
    let typed = patched(&node.bytes(), 3 * 16 + 1, &[INT]);
    let line = printed("record", Some(&typed), Some(&certificate.bytes()));
    assert_eq!(line, "refused 7 record 3\n");
    let mut wrong = certificate.clone();
    wrong.constraints = vec![Constraint::new(&[], 0); 12];
    wrong.constraints[11].count = 1;
    assert_eq!(print("constraint", &wrong), "refused 15 constraint 11\n");
    let mut wrong = certificate.clone();
    wrong.base[4].p = 4;
    assert_eq!(print("line", &wrong), "refused 19 line 4\n");
    let mut wrong = certificate.clone();
    wrong.base.pop();
    wrong.step.clear();
    assert_eq!(print("base", &wrong), "refused 21 base\n");
    let mut wrong = certificate.clone();
    wrong.step.clear();
    assert_eq!(print("step", &wrong), "refused 21 step\n");
}
