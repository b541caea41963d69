//! Prints a listing of a node file and of a certificate file, with the
//! verdict in the last line: `reference-list node.bin [cert.bin]`.

#![forbid(unsafe_code)]

use reference::list;
use std::error::Error;
use std::ffi::OsString;
use std::io::{self, Write};
use std::process::ExitCode;
use std::{env, fs};

/// The file's bytes; an error names the file.
fn read(path: &OsString) -> Result<Vec<u8>, String> {
    fs::read(path).map_err(|error| format!("{}: {error}", path.display()))
}

/// Lists the files named.
fn run(paths: &[OsString]) -> Result<(), Box<dyn Error>> {
    let (node, certificate) = match paths {
        [node] => (read(node)?, None),
        [node, certificate] => (read(node)?, Some(read(certificate)?)),
        _ => return Err("usage: reference-list node.bin [cert.bin]".into()),
    };
    let mut listing = list::files(&node, certificate.as_deref()).join("\n");
    listing.push('\n');
    Ok(io::stdout().write_all(listing.as_bytes())?)
}

fn main() -> ExitCode {
    let paths: Vec<OsString> = env::args_os().skip(1).collect();
    match run(&paths) {
        Ok(()) => ExitCode::SUCCESS,
        Err(error) => {
            eprintln!("reference-list: {error}");
            ExitCode::FAILURE
        }
    }
}
