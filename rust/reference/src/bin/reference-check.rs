//! 01: "The program reads node.bin and cert.bin (an unopenable file is empty)
//! and prints verdict, depth and the trailer's line counts".

#![forbid(unsafe_code)]

use reference::certificate;
use std::fs::File;
use std::io::{self, Read, Write};
use std::process::ExitCode;

/// One byte more than the longest file: enough to refuse its length.
const ENOUGH: u64 = 65_536;

/// The file's first bytes.
fn read(path: &str) -> io::Result<Vec<u8>> {
    let mut bytes = Vec::new();
    File::open(path)?.take(ENOUGH).read_to_end(&mut bytes)?;
    Ok(bytes)
}

/// 01: "either is one line ended by 0x0A".
fn main() -> ExitCode {
    let node = read("node.bin").unwrap_or_default();
    let certificate = read("cert.bin").unwrap_or_default();
    let line = match certificate::check(&node, &certificate) {
        Ok(accepted) => format!("{accepted}\n"),
        Err(refusal) => format!("{refusal}\n"),
    };
    match io::stdout().write_all(line.as_bytes()) {
        Ok(()) => ExitCode::SUCCESS,
        Err(_) => ExitCode::FAILURE,
    }
}
