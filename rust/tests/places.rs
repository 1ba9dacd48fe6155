//! The places of an image stand in one file, `crates/image/src/places.rt`. The Rust wrapper and the program `captures` take them
//! from it; the header for C and the definitions have them once more, and must have the same.

use std::collections::BTreeMap;
use std::fs;
use std::path::Path;

/// The numbers of that file that are no places.
const KINDS: [&str; 2] = ["DIMMER", "OUTLET"];

/// The numbers of the header that are none of an image.
const OTHERS: [&str; 3] = ["ROOM", "SEATS", "UNFIT"];

#[test]
fn the_header_has_every_place() {
    let text = read("embed/dreelish.h");
    let mut defined: Places = text
        .lines()
        .filter_map(|line| line.strip_prefix("#define DREELISH_"))
        .filter_map(|line| line.split_once(' '))
        .map(|(name, rest)| (name.to_owned(), number(first_word(rest))))
        .collect();
    for other in OTHERS {
        assert!(defined.remove(other).is_some(), "{other} is not there");
    }
    assert_eq!(defined, places());
}

#[test]
fn the_definitions_have_every_place() {
    let text = read("image/specs/Places.antt");
    let defined: Places = text
        .lines()
        .filter_map(|line| line.split_once(" = "))
        .map(|(name, value)| (name.trim_matches(['«', '»']).to_owned(), number(value)))
        .collect();
    let mut places = places();
    for kind in KINDS {
        assert!(places.remove(kind).is_some(), "{kind} is not there");
    }
    assert_eq!(defined, places);
}

/// The constants by name.
type Places = BTreeMap<String, u64>;

fn places() -> Places {
    let text = read("image/src/places.rt");
    let places: Places = text
        .lines()
        .filter_map(|line| line.strip_prefix("pub const "))
        .map(|line| line.split_once(": ").expect("a constant has a type"))
        .map(|(name, rest)| (name, rest.split_once(" = ").expect("and a value").1))
        .map(|(name, value)| (name.to_owned(), number(value.trim_end_matches(';'))))
        .collect();
    assert!(places.len() > 15, "only {} constants found", places.len());
    places
}

fn first_word(text: &str) -> &str {
    text.split_whitespace().next().unwrap_or(text)
}

fn number(text: &str) -> u64 {
    let value = match text.strip_prefix("0x") {
        Some(digits) => u64::from_str_radix(digits, 16),
        None => text.parse(),
    };
    value.unwrap_or_else(|_| panic!("{text} is no number"))
}

fn read(path: &str) -> String {
    let path = Path::new(env!("CARGO_MANIFEST_DIR"))
        .join("../crates")
        .join(path);
    fs::read_to_string(&path).unwrap_or_else(|error| panic!("{}: {error}", path.display()))
}
