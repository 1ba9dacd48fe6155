//! What docs/paper.md and docs/proofs.md cite is there: every file, and every name in one of the files that its row cites.

use std::collections::BTreeSet;
use std::fs;
use std::path::{Path, PathBuf};

/// A row of a table: its line, the names and the files that it cites. The last column has the files.
struct Row {
    line: usize,
    names: BTreeSet<String>,
    files: BTreeSet<String>,
}

#[test]
fn every_file_that_a_page_cites_is_there() {
    for page in pages() {
        for (line, text) in lines(&page) {
            for file in cited(&text).into_iter().filter(|one| is_file(one)) {
                assert!(
                    places(&file).iter().any(|place| place.exists()),
                    "{page}, line {line}: no {file}"
                );
            }
        }
    }
}

/// A statement's proof stands in a file of the same crate, which need not be named beside it.
#[test]
fn every_name_stands_in_a_file_that_its_row_cites() {
    let mut missing = Vec::new();
    let mut looked_up = 0;
    for page in pages() {
        for row in rows(&page) {
            let text: String = row.files.iter().map(|file| text_at(file)).collect();
            let words = words(&text);
            looked_up += row.names.len();
            for name in row.names.iter().filter(|name| !words.contains(*name)) {
                missing.push(format!("{page}, line {}: {name}", row.line));
            }
        }
    }
    assert!(missing.is_empty(), "{missing:#?}");
    assert!(looked_up > 500, "only {looked_up} names were found");
}

fn pages() -> [String; 2] {
    ["docs/paper.md", "docs/proofs.md"].map(str::to_owned)
}

fn root() -> PathBuf {
    Path::new(env!("CARGO_MANIFEST_DIR")).join("..")
}

fn lines(page: &str) -> Vec<(usize, String)> {
    let text = fs::read_to_string(root().join(page)).expect("the page is there");
    (1..).zip(text.lines().map(str::to_owned)).collect()
}

/// The rows that cite files in their last column.
fn rows(page: &str) -> Vec<Row> {
    let tables = lines(page)
        .into_iter()
        .filter(|(_, text)| text.starts_with('|'));
    let rows = tables.map(|(line, text)| {
        let (before, last) = text
            .trim_matches('|')
            .rsplit_once('|')
            .expect("a row has columns");
        let files = cited(last).into_iter().filter(|one| is_file(one)).collect();
        let names = cited(before).into_iter().filter_map(|one| name_in(&one));
        Row {
            line,
            names: names.collect(),
            files,
        }
    });
    rows.filter(|row| !row.files.is_empty()).collect()
}

/// What stands between backticks.
fn cited(text: &str) -> Vec<String> {
    text.split('`')
        .skip(1)
        .step_by(2)
        .map(str::to_owned)
        .collect()
}

fn is_file(one: &str) -> bool {
    !one.contains(' ') && (one.contains('/') || one.ends_with(".antt"))
}

/// A name of code, definition or proof; of `Module.flags` the last part. A crate is no such name.
fn name_in(one: &str) -> Option<String> {
    let name = one.rsplit('.').next()?;
    let is_name = name
        .chars()
        .all(|c| c.is_alphanumeric() || "_'-".contains(c));
    (is_name && !is_file(one) && !root().join("crates").join(name).exists())
        .then(|| name.to_owned())
}

/// Where a file may stand: by its path; in `crates`, `rust` or `samples`; what a crate of a kind has, in the dimmer's; or a page's
/// `Name.antt` in the statements of a crate of theorems.
fn places(file: &str) -> Vec<PathBuf> {
    let folders = ["", "crates", "rust", "samples", "crates/dimmer"];
    let folders = folders.map(|folder| root().join(folder).join(file));
    let theorems = ["promises", "apart", "around"];
    let statements = theorems.map(|name| root().join("crates").join(name).join("specs").join(file));
    folders.into_iter().chain(statements).collect()
}

/// A file's text, all files' of a folder, and with a statement all proofs of its crate.
fn text_at(file: &str) -> String {
    let there = places(file).into_iter().filter(|place| place.exists());
    there
        .map(
            |place| match place.parent().filter(|folder| folder.ends_with("specs")) {
                Some(specs) if file.ends_with(".antt") => {
                    read(&place) + &read(&specs.with_file_name("proofs"))
                }
                _ => read(&place),
            },
        )
        .collect()
}

fn read(place: &Path) -> String {
    if place.is_dir() {
        let files = fs::read_dir(place).expect("the folder can be read");
        return files
            .map(|file| read(&file.expect("it is there").path()))
            .collect();
    }
    let name = place
        .file_stem()
        .map(|stem| stem.to_string_lossy().into_owned());
    let bytes = fs::read(place).unwrap_or_default();
    format!(
        "{} {}\n",
        name.unwrap_or_default(),
        String::from_utf8_lossy(&bytes)
    )
}

fn words(text: &str) -> BTreeSet<String> {
    let is_word = |c: char| c.is_alphanumeric() || "_'-".contains(c);
    text.split(|c| !is_word(c)).map(str::to_owned).collect()
}
