//! The folders of `examples` at the top of the repository.

#![allow(dead_code)]

use std::fs;
use std::path::{Path, PathBuf};

/// The folder of all examples.
pub fn top() -> PathBuf {
    Path::new(env!("CARGO_MANIFEST_DIR")).join("../../examples")
}

/// A folder with its node file, its certificate file and what is to be said
/// of them.
pub struct Folder {
    pub path: PathBuf,
    pub node: Vec<u8>,
    pub certificate: Vec<u8>,
    pub verdict: String,
}

impl Folder {
    fn read(path: PathBuf) -> Self {
        Folder {
            node: fs::read(path.join("node.bin")).unwrap(),
            certificate: fs::read(path.join("cert.bin")).unwrap(),
            verdict: fs::read_to_string(path.join("verdict")).unwrap(),
            path,
        }
    }

    pub fn name(&self) -> &str {
        self.path.file_name().unwrap().to_str().unwrap()
    }
}

/// The example of this name.
pub fn named(name: &str) -> Folder {
    Folder::read(top().join(name))
}

/// Every example with a node, by name.
pub fn all() -> Vec<Folder> {
    let entries = fs::read_dir(top()).unwrap();
    let paths = entries.map(|entry| entry.unwrap().path());
    let with_node = paths.filter(|path| path.join("node.bin").is_file());
    let mut folders: Vec<Folder> = with_node.map(Folder::read).collect();
    folders.sort_by(|left, right| left.path.cmp(&right.path));
    folders
}
