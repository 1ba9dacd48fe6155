//! Makes and links the proved libraries; a fresh clone proves them first.

use std::fs;
use std::path::{Path, PathBuf};
use std::process::Command;
use std::time::SystemTime;

const MADE: [&str; 2] = [
    "../target/staticlib/libembed.a",
    "../target/staticlib/libembed_class.a",
];
const CRATES: &str = "../crates";
/// What a crate is proved and made of; the rest of its folder is made, or says what a program reads and writes.
const PARTS: [&str; 3] = ["src", "specs", "proofs"];
const SCRIPTS: [&str; 3] = ["../crates.txt", "../staticlib", "library"];

fn main() {
    let sources = sources();
    for source in &sources {
        println!("cargo:rerun-if-changed={}", source.display());
    }
    if !up_to_date(&sources) {
        let status = Command::new("./library").status();
        assert!(
            status.is_ok_and(|status| status.success()),
            "./library failed: a library was not proved or not made"
        );
    }
    let root = std::env::var("CARGO_MANIFEST_DIR").expect("cargo names the package's folder");
    println!("cargo:rustc-link-search=native={root}/../target/staticlib");
    println!("cargo:rustc-link-lib=static=embed");
    println!("cargo:rustc-link-lib=static=embed_class");
}

fn sources() -> Vec<PathBuf> {
    let crates = fs::read_dir(CRATES).expect("the crates can be listed");
    let parts = crates
        .flatten()
        .flat_map(|entry| PARTS.map(|part| entry.path().join(part)))
        .filter(|part| part.exists());
    SCRIPTS.iter().map(PathBuf::from).chain(parts).collect()
}

fn up_to_date(sources: &[PathBuf]) -> bool {
    let newest = sources.iter().map(|source| newest(source)).max();
    MADE.iter()
        .all(|made| changed(Path::new(made)).is_some_and(|made| newest <= Some(Some(made))))
}

fn changed(path: &Path) -> Option<SystemTime> {
    fs::metadata(path).ok()?.modified().ok()
}

/// When a file, or anything in a folder, was last altered.
fn newest(path: &Path) -> Option<SystemTime> {
    let inside = fs::read_dir(path).into_iter().flatten().flatten();
    inside
        .map(|entry| newest(&entry.path()))
        .max()
        .flatten()
        .max(changed(path))
}
