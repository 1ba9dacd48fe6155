//! `bench lines`, the instructor's screen for one module.

use super::*;

/// The lesson of `samples/`, told line by line; the lines were typed from the papers.
const LESSON: &[u8] = include_bytes!("../../../samples/lesson");
const TOLD: &str = include_str!("lesson.lines");

#[test]
fn the_lesson_is_told() {
    for words in [&["lines"][..], &["dimmer", "lines"]] {
        let told = kinds::output_of(words, LESSON);
        assert_eq!(String::from_utf8(told).expect("lines are letters"), TOLD);
    }
}

/// An outlet's lines tell its sockets.
#[test]
fn an_outlet_tells_its_sockets() {
    let told = kinds::output_of(&["outlet", "lines"], &standard(0x0F, 0x11, 0xFF));
    let line = "0 carried out | from AA BB CC to 00 10 3A | direct 11 FF on | reply 00 10 3A AA BB CC 2F 11 FF | read 1 | top on, bottom off\n";
    assert!(
        told.starts_with(line.as_bytes()),
        "{}",
        String::from_utf8_lossy(&told)
    );
}
