//! Links `target/staticlib/libcapi.a` of the repository, which `tools/build capi` proves and writes.

use std::env;
use std::path::Path;
use std::process::exit;

fn main() {
    let manifest = env::var("CARGO_MANIFEST_DIR").expect("cargo sets CARGO_MANIFEST_DIR");
    let folder = Path::new(&manifest).join("../../target/staticlib");
    let library = folder.join("libcapi.a");
    println!("cargo::rerun-if-changed={}", library.display());
    if !library.is_file() {
        let path = library.display();
        println!("cargo::error={path} is missing: run `tools/build capi` in the repository");
        exit(1);
    }
    println!("cargo::rustc-link-search=native={}", folder.display());
    println!("cargo::rustc-link-lib=static=capi");
}
