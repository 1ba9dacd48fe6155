//! "That two results allowed by one promise are equal is itself proved": the list of promises that are proved so,
//! `crates/around/specs/OneAnswer.antt`, has every public function, with the promise that stands at the function. What a static
//! library exports has the promise of a function of a library below it, word for word. What a trait gives of a type is listed too.

use std::collections::BTreeSet;
use std::fs;
use std::path::{Path, PathBuf};

/// Public functions that leave something open; docs/DECISIONS.md has the cause of each.
const OPEN: [&str; 3] = ["desk-sit", "desk-teach", "letters-put-text"];

/// A row of what a trait gives of a type: where it is given, by which words, and the definition that the row has to cite for it.
struct Given {
    row: &'static str,
    file: &'static str,
    words: &'static str,
    cited: &'static str,
}

const GIVEN: [Given; 11] = [
    Given {
        row: "wire-equals",
        file: "wire/src/address.rt",
        words: "PartialEq, Eq)]\npub struct Address",
        cited: "equals",
    },
    Given {
        row: "wire-standard",
        file: "wire/src/command.rt",
        words: "from_gives = { λ command1 command. command ≡ standard_of command1 }",
        cited: "standard_of",
    },
    Given {
        row: "wire-extended",
        file: "wire/src/command.rt",
        words: "from_gives = { λ command1 command. command ≡ extended_of command1 }",
        cited: "extended_of",
    },
    Given {
        row: "wire-group-command",
        file: "wire/src/command.rt",
        words: "from_gives = { λ command1 command. command ≡ group_command_of command1 }",
        cited: "group_command_of",
    },
    Given {
        row: "results-number",
        file: "results/src/lib.rt",
        words: "from_gives = { λ outcome number. number ≡ number_of outcome }",
        cited: "number_of",
    },
    Given {
        row: "row-class-number",
        file: "row/src/outcome.rt",
        words: "from_gives = { λ outcome number. number ≡ class_number_of outcome }",
        cited: "class_number_of",
    },
    Given {
        row: "load-fresh-lamp",
        file: "load/src/state.rt",
        words: "is_default = { λ lamp. lamp ≡ fresh_lamp }",
        cited: "fresh_lamp",
    },
    Given {
        row: "load-fresh-sockets",
        file: "load/src/state.rt",
        words: "is_default = { λ sockets. sockets ≡ fresh_sockets }",
        cited: "fresh_sockets",
    },
    Given {
        row: "letters-write-str",
        file: "letters/src/lib.rt",
        words: "ghost write_str_gives = { Lays }",
        cited: "Lays",
    },
    Given {
        row: "dimmer-entry-of",
        file: "dimmer/src/table.rt",
        words: "ghost own = { own }",
        cited: "entry_of",
    },
    Given {
        row: "outlet-entry-of",
        file: "outlet/src/table.rt",
        words: "ghost own = { own }",
        cited: "entry_of",
    },
];

/// A crate, by its line in crates.txt.
struct Crate {
    name: String,
    is_static: bool,
    below: Vec<String>,
}

/// A public function: its name in the list, all of its signature from its name on, and the definitions that its promise cites.
struct Function {
    row: String,
    head: String,
    cited: BTreeSet<String>,
}

#[test]
fn every_public_function_is_listed_with_its_promise() {
    let list = listed();
    let mut rows: BTreeSet<&str> = list.iter().map(|(name, _)| name.as_str()).collect();
    for function in functions() {
        if OPEN.contains(&function.row.as_str()) {
            continue;
        }
        let row = list.iter().find(|(name, _)| *name == function.row);
        let (_, promise) = row.unwrap_or_else(|| panic!("{} is not listed", function.row));
        assert!(
            !function.cited.is_empty(),
            "{} promises nothing",
            function.row
        );
        let missing: Vec<_> = function.cited.difference(promise).collect();
        assert!(
            missing.is_empty(),
            "{} is listed without {missing:?}",
            function.row
        );
        rows.remove(function.row.as_str());
    }
    for given in GIVEN {
        let Given { row, cited, .. } = given;
        assert!(given.stands(), "{row}: {}", given.file);
        let listed = list.iter().find(|(name, _)| name == row);
        let (_, promise) = listed.unwrap_or_else(|| panic!("{row} is not listed"));
        assert!(promise.contains(cited), "{row} is listed without {cited}");
        rows.remove(row);
    }
    assert!(rows.is_empty(), "no such function: {rows:?}");
}

/// What an impl says of a trait's promise is in a row too.
#[test]
fn all_that_traits_give_is_listed() {
    let libraries = crates_listed().into_iter().filter(|one| !one.is_static);
    let mut found = 0;
    for one in libraries {
        for file in sources(&crates().join(one.name).join("src")) {
            for line in read(&file).lines().filter(|line| is_given(line)) {
                let is_listed = GIVEN
                    .iter()
                    .any(|given| file.ends_with(given.file) && line.contains(given.words));
                assert!(is_listed, "{}: {line}", file.display());
                found += 1;
            }
        }
    }
    // all but that of a derive
    assert_eq!(found, GIVEN.len() - 1);
}

/// No crate can depend on a static library, so the list cannot have its functions: each is a function of the list once more.
#[test]
fn every_export_has_the_promise_of_a_function_below() {
    let crates = crates_listed();
    let exporting: Vec<_> = crates.iter().filter(|one| one.is_static).collect();
    assert_eq!(exporting.len(), 2);
    for one in exporting {
        let mut below = Vec::new();
        for name in &one.below {
            below.extend(functions_of(name).into_iter().map(|it| it.head));
        }
        let exports = functions_of(&one.name);
        assert_eq!(exports.len(), 1, "{}", one.name);
        for export in exports {
            let row = export.row;
            assert!(below.contains(&export.head), "{row} promises other things");
        }
    }
}

impl Given {
    fn stands(&self) -> bool {
        read(&crates().join(self.file)).contains(self.words)
    }
}

fn is_given(line: &str) -> bool {
    let Some(said) = line.trim().strip_prefix("ghost ") else {
        return false;
    };
    said.contains("_gives = ") || said.starts_with("is_default = ") || said.starts_with("own = ")
}

/// The rows of the list: the name of each, and the words of its promise.
fn listed() -> Vec<(String, BTreeSet<String>)> {
    let text = read(&crates().join("around/specs/OneAnswer.antt"));
    let (_, list) = text
        .split_once("record EachOnce")
        .expect("the list is there");
    list.split("\n  pub ")
        .skip(1)
        .map(|row| {
            let (name, promise) = row.split_once(" : ").expect("a row has a name");
            (name.to_owned(), words(promise))
        })
        .collect()
}

/// Those of all libraries.
fn functions() -> Vec<Function> {
    let libraries = crates_listed().into_iter().filter(|one| !one.is_static);
    let found: Vec<_> = libraries.flat_map(|one| functions_of(&one.name)).collect();
    assert!(found.len() > 30, "only {} functions found", found.len());
    found
}

fn functions_of(crate_name: &str) -> Vec<Function> {
    let mut found = Vec::new();
    for file in sources(&crates().join(crate_name).join("src")) {
        find_functions(crate_name, &read(&file), &mut found);
    }
    found
}

fn find_functions(crate_name: &str, text: &str, found: &mut Vec<Function>) {
    let imported: BTreeSet<String> = text
        .lines()
        .filter(|line| line.trim_start().starts_with("ghost use "))
        .filter_map(|line| line.split_once('{'))
        .flat_map(|(_, names)| words(names))
        .collect();
    for start in ["pub fn ", "pub extern \"C\" fn "] {
        for (at, _) in text.match_indices(start) {
            let rest = &text[at + start.len()..];
            let name = &rest[..rest.find(['(', '<']).expect("a function has parameters")];
            let head = head_of(rest);
            let promised = words(promise_in(head));
            found.push(Function {
                row: format!("{crate_name}-{name}").replace('_', "-"),
                head: head.to_owned(),
                cited: promised.intersection(&imported).cloned().collect(),
            });
        }
    }
}

/// What stands before the body.
fn head_of(function: &str) -> &str {
    let end = ["\n{\n", "\n    {\n"]
        .iter()
        .filter_map(|body| function.find(body))
        .min()
        .or_else(|| function.find(" {\n"))
        .expect("a function has a body");
    &function[..end]
}

/// What stands between the parameters and the body.
fn promise_in(head: &str) -> &str {
    head.find("ensures").map_or("", |at| &head[at..])
}

/// A name in snake case is one word.
fn words(text: &str) -> BTreeSet<String> {
    text.split(|c: char| !c.is_alphanumeric() && c != '_')
        .filter(|word| !word.is_empty())
        .map(str::to_owned)
        .collect()
}

fn crates() -> PathBuf {
    Path::new(env!("CARGO_MANIFEST_DIR")).join("../crates")
}

fn crates_listed() -> Vec<Crate> {
    let text = read(&crates().join("../crates.txt"));
    text.lines()
        .filter(|line| !line.starts_with('#'))
        .filter_map(|line| line.split_once(':'))
        .map(|(said, below)| {
            let (name, kind) = said.split_once(' ').unwrap_or((said, ""));
            Crate {
                name: name.to_owned(),
                is_static: kind == "staticlib",
                below: below.split_whitespace().map(str::to_owned).collect(),
            }
        })
        .collect()
}

fn sources(folder: &Path) -> Vec<PathBuf> {
    let entries = fs::read_dir(folder).into_iter().flatten().flatten();
    entries
        .map(|entry| entry.path())
        .filter(|path| path.extension().is_some_and(|end| end == "rt"))
        .collect()
}

fn read(path: &Path) -> String {
    fs::read_to_string(path).unwrap_or_else(|error| panic!("{}: {error}", path.display()))
}
