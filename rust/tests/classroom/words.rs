//! The words on the command line.

use crate::*;

/// Without it the same messages are answered in frames.
#[test]
fn lines_is_the_instructors_screen() {
    let ping = frame(&direct(HER, 0, 0x0F, 0x00));
    let by_words = |words: &[&str]| {
        let Wrote { output, said } = run(&three_seats(), words, &ping);
        assert_eq!(said, "");
        output
    };
    assert_eq!(by_words(&[]), frame(&reply(0, HER, 0x2F, 0x0F, 0x00)));
    let shown = by_words(&["lines"]);
    assert!(shown.starts_with(b"0 carried out | from AA BB CC to 00 10 3A | direct 0F 00 ping"));
}

/// It says which word there is, and serves nothing.
fn assert_refused(words: &[&str]) {
    let said = refusal(&three_seats(), words);
    assert!(said.contains("lines"), "{words:?}: {said}");
}

#[test]
fn another_word_is_refused() {
    #[rustfmt::skip]
    let others = [
        "frames", "dimmer", "line", "lins", "liness", "Lines", "LINES", "lines ", " lines", "-l", "--lines",
        "", "linesline", "lineslineslines",
    ];
    for word in others {
        assert_refused(&[word]);
    }
}

#[test]
fn two_words_are_refused() {
    for words in [
        &["lines", "lines"][..],
        &["lines", ""],
        &["", "lines"],
        &["lines", "dimmer"],
        &["dimmer", "outlet"],
        &["lines", "lines", "lines"],
    ] {
        assert_refused(words);
    }
}

/// Nothing else is looked at then: that there is no row is not said.
#[test]
fn the_word_comes_before_the_row() {
    let said = refusal(&Folder::without_links(), &["frames"]);
    assert!(said.contains("lines") && !said.contains("row"), "{said}");
}
