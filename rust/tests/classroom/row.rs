//! The file `row`: a module a line, as people write it, and what is said of lines that are bad.

use dreelish_tests::example::{standard, LINKS as SHARE};

use crate::*;

/// Lines that name no module, and are not empty.
#[rustfmt::skip]
const BAD: [&str; 68] = [
    // not all that is asked for
    "00 10 3A", "dimmer", "dimmer ", "\toutlet", "3A", "00 10 3A dimmer",
    // no such kind
    "heater 00 10 3A", "dimmers 00 10 3A", "dimme 00 10 3A", "lamp 00 10 3A", "dimmerx 00 10 3A", "dinner 00 10 3A",
    "di mmer 00 10 3A", "d 00 10 3A", "outlet00 10 3A", "dimmer00 10 3A", "dimmer: 00 10 3A", "\"dimmer\" 00 10 3A",
    "[immer 00 10 3A", "$immer 00 10 3A", "\u{11}immer 00 10 3A",
    // other signs between the words
    "dimmer,00 10 3A", "dimmer 00-10-3A", "dimmer 00:10:3A", "dimmer 00.10.3A", "dimmer 0010 3A", "dimmer 00103A",
    "dimmer 00 10\u{A0}3A", "dimmer 00 10 3A\0", "dimmer\u{B}00 10 3A", "dimmer 00\u{C}10 3A",
    // bytes, too few or too many
    "dimmer 00", "dimmer 00 10", "dimmer 00 10 3A 01", "dimmer 00 10 3A 01 0F", "dimmer 00 10 3A 01 0F C1",
    "outlet 00 10 3A 02 39 C2 00 00", "dimmer 00 10 3A 01 0F C1 00 00 00", "dimmer 00 10 3A dimmer 00 10 3B", "dimmer dimmer 00 10 3A",
    // what is missing stands in the comment
    "dimmer # 00 10 3A", "dimmer 00 10 # 3A", "dimmer 00 10 #3A", "dimmer 00 10 3#A", "outlet 00 10 3A 02 39 C2 # 00",
    // no comment
    "; her dimmer", "// her dimmer", "dimmer 00 10 3A Anna", "dimmer 00 10 3A // Anna",
    // digits, too few or too many, or none
    "dimmer 0 10 3A", "dimmer 00 10 3", "dimmer 000 10 3A", "dimmer 00 10 3AA", "dimmer 00 10 3G", "dimmer 00 10 g3", "dimmer 00 10 3 A",
    "dimmer 00 10 /0", "dimmer 00 10 0:", "dimmer 00 10 @A", "dimmer 00 10 `a", "dimmer 00 10 -1", "dimmer 0x 10 3A",
    // 0D but at the end, and two of it
    "dimmer 00\r 10 3A", "dimmer 00 10 3A\r\r", "dimmer 00 10 3A\r # Anna", "\rdimmer 00 10 3A", "\r\r", "\r ",
];

/// A line that names one.
const GOOD: &str = "dimmer 00 10 3A 01 0F C1 00";

fn with_row(row: impl AsRef<[u8]>) -> Folder {
    Folder::with_links(&SHARE.repeat(16)).and_row(row)
}

/// It names the line, says what it should be, and serves nothing.
fn assert_named(row: impl AsRef<[u8]>, number: usize) {
    let said = refusal(&with_row(&row), &["lines"]);
    let row = row.as_ref().escape_ascii();
    assert!(
        said.starts_with(&format!("row, line {number}: ")),
        "{row}: {said}"
    );
    for expected in ["outlet", "three", "seven", "dimmer 00 10 3A"] {
        assert!(said.contains(expected), "{row}: {said}");
    }
}

#[test]
fn a_bad_line_is_named() {
    for bad in BAD {
        assert_named(format!("dimmer 00 10 3B\n{bad}\noutlet 00 10 3C\n"), 2);
    }
}

/// A blank in place of a letter or a digit, or a digit in place of a blank.
#[test]
fn every_place_of_a_line_counts() {
    for at in 0..GOOD.len() {
        let mut bad = GOOD.as_bytes().to_vec();
        bad[at] = match bad[at] {
            b' ' => b'0',
            _ => b' ',
        };
        assert_named([b"dimmer 00 10 3B\n", &bad[..], b"\n"].concat(), 2);
    }
}

/// Wherever it stands; behind the sixteenth line too, where nobody sits.
#[test]
fn whichever_line_is_bad_is_named() {
    #[rustfmt::skip]
    let places = [(1, 1), (1, 3), (9, 9), (10, 16), (16, 16), (17, 17), (100, 120)];
    for (number, lines) in places {
        let mut row = vec!["dimmer 00 10 3A"; lines];
        row[number - 1] = "dimmer 00 10 3";
        assert_named(row.join("\n"), number);
        assert_named(row.join("\n") + "\n", number);
        assert_named(row.join("\r\n"), number);
    }
}

#[test]
fn the_first_bad_line_is_the_one_named() {
    assert_named("dimmer 00 10 3A\nheater 00 10 3B\n\nheater 00 10 3C\n", 2);
    assert_named("dimmer 00 10 3A\n\nheater 00 10 3B\nheater\n", 3);
}

/// Lines that are skipped count, and so do those of other modules.
#[test]
fn a_bad_line_is_numbered_among_all_lines() {
    for (row, number) in [
        ("# table 1\nheater 00 10 3A\n", 2),
        ("\nheater 00 10 3A\n", 2),
        ("\r\n\t\r\nheater 00 10 3A\r\n", 3),
        (
            "# table 1\n\ndimmer 00 10 3A # Anna\n  # Ben is ill\n\ndimmer 00 10\n# end\n",
            6,
        ),
        ("\u{FEFF}# table 1\ndimmer 00 10 3A\ndimmer 00 10", 3),
        ("dimmer 00 10 3A\n\n\n\nheater", 5),
    ] {
        assert_named(row, number);
    }
    let far = "# nobody\n".repeat(299) + "heater\n";
    assert_named(far, 300);
}

/// The mark that some editors put before all others stands once and whole, at the start of the file; a name may have any letters.
#[test]
fn letters_beyond_ascii_stand_in_comments() {
    assert_named("\u{FEFF}\u{FEFF}dimmer 00 10 3A\n", 1);
    assert_named(" \u{FEFF}dimmer 00 10 3A\n", 1);
    assert_named("dimmer 00 10 3A\n\u{FEFF}dimmer 00 10 3B\n", 2);
    assert_named(b"\xEF\xBBdimmer 00 10 3A\n", 1);
    assert_named(b"\xEF\xBB", 1);
    assert_named(b"\xFF\xFE", 1);
    assert_named(b"dimmer 00 10 3A\n\xFF\xFE\n", 2);
    assert_named("dimmer 00 10 3A\ndimmér 00 10 3A\n", 2);
    let row = "# Jürgens Klasse\ndimmer 00 10 3A # Zoë\n";
    assert_eq!(
        pinged(&Folder::with_links(&SHARE).and_row(row), 0)[0],
        "0 carried out | from AA BB CC to 00 10 3A | direct 0F 00 ping | reply 00 10 3A AA BB CC 2F 0F 00 | read 0 | seat 1 | level 00"
    );
}

/// Whatever lines are skipped before them.
#[test]
fn seats_count_modules() {
    let row = "# table 1\n\ndimmer 00 10 3A # Anna\n# Ben is ill\n# dimmer 00 10 3C\n\t\ndimmer 00 10 3B # Carla\n\n";
    let shown = pinged(&Folder::with_links(&SHARE.repeat(2)).and_row(row), 1);
    assert!(shown[0].contains(" | seat 1 | "), "{}", shown[0]);
    assert!(shown[1].contains(" | seat 2 | "), "{}", shown[1]);
    assert_eq!(
        shown[2..][12..],
        ["seat 1: 1", "seat 2: 1", "every seat: 0"]
    );
}

/// In frames too nothing is served, though the other seats are fit.
#[test]
fn a_bad_line_answers_no_frame() {
    let said = refusal(&with_row("dimmer 00 10 3A\nheater 00 10 3B\n"), &[]);
    assert!(said.starts_with("row, line 2: "), "{said}");
}

/// Asks at each address who is there, in a class of as many seats.
fn who(row: &str, addresses: &[Address]) -> Vec<u8> {
    let ask = |&to| standard(HIM, to, 0x0F, [0x10, 0x00]);
    let messages: Vec<_> = addresses.iter().map(ask).collect();
    let folder = Folder::with_links(&SHARE.repeat(addresses.len())).and_row(row);
    answered(&folder, &messages)
}

/// Rows that all say the same.
#[rustfmt::skip]
const ALIKE: [&str; 33] = [
    // 0A and 0D 0A, an end or none behind the last line
    "dimmer 0A BC DE\noutlet F1 23 45\n",
    "dimmer 0A BC DE\noutlet F1 23 45",
    "dimmer 0A BC DE\r\noutlet F1 23 45\r\n",
    "dimmer 0A BC DE\r\noutlet F1 23 45",
    "dimmer 0A BC DE\noutlet F1 23 45\r",
    // small letters and capital ones
    "dimmer 0a bc de\noutlet f1 23 45\n",
    "dimmer 0a Bc dE\noutlet F1 23 45\n",
    "Dimmer 0A BC DE\nOutlet F1 23 45\n",
    "DIMMER 0a bc de\nOUTLET f1 23 45\n",
    "dImMeR 0A BC DE\noutleT F1 23 45\n",
    // seven bytes that say what three do
    "dimmer 0A BC DE 01 0F C1 00\noutlet F1 23 45 02 39 C2 00\n",
    "dimmer 0a bc de 01 0f c1 00\r\noutlet f1 23 45 02 39 c2 00",
    "dimmer 0A BC DE\noutlet F1 23 45 02 39 c2 00\n",
    // blanks and tabs
    "dimmer  0A  BC  DE\noutlet   F1 23    45\n",
    "dimmer\t0A\tBC\tDE\noutlet\tF1\t23\t45\n",
    "dimmer \t 0A\t BC \tDE\noutlet \t\tF1 23 45\n",
    " dimmer 0A BC DE\n\toutlet F1 23 45\n",
    "dimmer 0A BC DE \noutlet F1 23 45\t\n",
    "   dimmer   0A BC DE   \r\n\t\toutlet\tF1 23 45 \t\r\n",
    "dimmer 0A BC DE 01 0F C1 00 \n outlet F1 23 45  02 39 C2 00",
    // names
    "dimmer 0A BC DE # Anna\noutlet F1 23 45 # Ben\n",
    "dimmer 0A BC DE# Anna\noutlet F1 23 45 #Ben",
    "dimmer 0A BC DE\t#\tAnna # and Carla\r\noutlet F1 23 45 #\r\n",
    "dimmer 0A BC DE # 01 0F C1 00\noutlet F1 23 45 # dimmer 00 10 3A\n",
    "dimmer 0A BC DE # Anna\t\r\r\noutlet F1 23 45 02 39 C2 00#00\n",
    // lines with nothing to read
    "# table 1\ndimmer 0A BC DE\noutlet F1 23 45\n",
    "#\n##\n # # \ndimmer 0A BC DE\n# dimmer 00 10 3A\noutlet F1 23 45\n#",
    "\n\ndimmer 0A BC DE\n\noutlet F1 23 45\n\n\n",
    "\r\ndimmer 0A BC DE\r\n\r\noutlet F1 23 45\r\n\r\n\r",
    " \n\t\ndimmer 0A BC DE\n \t \r\noutlet F1 23 45\n   ",
    // the mark that some editors write first
    "\u{FEFF}dimmer 0A BC DE\noutlet F1 23 45\n",
    "\u{FEFF}# table 1\r\n\r\ndimmer 0A BC DE\r\noutlet F1 23 45",
    "\u{FEFF}\n\tDimmer 0a bc de # Anna\noutlet F1 23 45",
];

#[test]
fn a_row_may_be_written_so_and_so() {
    #[rustfmt::skip]
    let answers = [
        0x02, 0x50, 0x0A, 0xBC, 0xDE, 0x11, 0x22, 0x33, 0x2F, 0x10, 0x00,
        0x02, 0x50, 0x0A, 0xBC, 0xDE, 0x01, 0x0F, 0xC1, 0x8F, 0x01, 0x00,
        0x02, 0x50, 0xF1, 0x23, 0x45, 0x11, 0x22, 0x33, 0x2F, 0x10, 0x00,
        0x02, 0x50, 0xF1, 0x23, 0x45, 0x02, 0x39, 0xC2, 0x8F, 0x01, 0x00,
    ];
    for row in ALIKE {
        let wrote = who(row, &[[0x0A, 0xBC, 0xDE], [0xF1, 0x23, 0x45]]);
        assert_eq!(wrote, answers, "{row:?}");
    }
}

#[test]
fn seven_bytes_are_a_whole_identity() {
    let row =
        "outlet 01 23 45 67 89 AB CD\ndimmer ef 01 23 45 67 89 ab\noutlet cd EF 00 ff 00 FF 77\n";
    #[rustfmt::skip]
    let answers = [
        0x02, 0x50, 0x01, 0x23, 0x45, 0x11, 0x22, 0x33, 0x2F, 0x10, 0x00,
        0x02, 0x50, 0x01, 0x23, 0x45, 0x67, 0x89, 0xAB, 0x8F, 0x01, 0xCD,
        0x02, 0x50, 0xEF, 0x01, 0x23, 0x11, 0x22, 0x33, 0x2F, 0x10, 0x00,
        0x02, 0x50, 0xEF, 0x01, 0x23, 0x45, 0x67, 0x89, 0x8F, 0x01, 0xAB,
        0x02, 0x50, 0xCD, 0xEF, 0x00, 0x11, 0x22, 0x33, 0x2F, 0x10, 0x00,
        0x02, 0x50, 0xCD, 0xEF, 0x00, 0xFF, 0x00, 0xFF, 0x8F, 0x01, 0x77,
    ];
    let addresses = [[0x01, 0x23, 0x45], [0xEF, 0x01, 0x23], [0xCD, 0xEF, 0x00]];
    assert_eq!(who(row, &addresses), answers);
}

/// The word makes the kind: this dimmer says that it is an outlet, and takes per cent all the same.
#[test]
fn the_kind_is_the_words() {
    let folder = Folder::with_links(&SHARE).and_row("dimmer 00 10 3A 02 39 C2 00\n");
    let messages = [direct(HER, 0, 0x39, 0x32), direct(HER, 0, 0x10, 0x00)];
    #[rustfmt::skip]
    let answers = [
        0x02, 0x50, 0x00, 0x10, 0x3A, 0xAA, 0xBB, 0xCC, 0x2F, 0x39, 0x32,
        0x02, 0x50, 0x00, 0x10, 0x3A, 0xAA, 0xBB, 0xCC, 0x2F, 0x10, 0x00,
        0x02, 0x50, 0x00, 0x10, 0x3A, 0x02, 0x39, 0xC2, 0x8F, 0x01, 0x00,
    ];
    assert_eq!(answered(&folder, &messages), answers);
}

/// A row of so many dimmers. The link memory parts into as many fit shares, and into sixteen too.
fn dimmers(lines: u8) -> Folder {
    let links = SHARE.repeat(8 * usize::from(lines));
    Folder::with_links(&links).and_row(row_of("dimmer", lines))
}

/// What the instructor's screen has for a ping to the first seat and for one to the last.
fn pinged(folder: &Folder, last: usize) -> Vec<String> {
    told(folder, &[0, last].map(|seat| direct(HER, seat, 0x0F, 0x00)))
}

#[test]
fn sixteen_lines_are_served() {
    let ping = |seat| direct(HER, seat, 0x0F, 0x00);
    let pings: Vec<_> = (0..16).map(ping).collect();
    let answer = |seat| reply(seat, HER, 0x2F, 0x0F, 0x00);
    let answers: Vec<_> = (0..16).map(answer).collect();
    assert_eq!(answered(&dimmers(16), &pings), frames_of(&answers));
    assert_eq!(
        pinged(&dimmers(16), 15)[1],
        "0 carried out | from AA BB CC to 00 10 49 | direct 0F 00 ping | reply 00 10 49 AA BB CC 2F 0F 00 | read 0 | seat 16 | level 00"
    );
}

/// Every message is 11: no seat of them is asked, and none is shown.
#[test]
fn more_than_sixteen_lines_are_eleven() {
    for lines in [17, 18, 100] {
        let shown = pinged(&dimmers(lines), 16);
        assert_eq!(
            shown[..2],
            [
                "11 unfit row | from AA BB CC to 00 10 3A | direct 0F 00 ping | reply | read 0",
                "11 unfit row | from AA BB CC to 00 10 4A | direct 0F 00 ping | reply | read 0",
            ]
        );
        assert_eq!(shown[2..][11], "11 unfit row: 2");
        let ping = direct(HER, 0, 0x0F, 0x00);
        assert_eq!(answered(&dimmers(lines), &[ping]), []);
    }
}

/// So is one that names no module.
#[test]
fn an_empty_row_is_eleven() {
    let rows = [
        "",
        "\n",
        "\r\n\t\n",
        "# nobody\n",
        "\u{FEFF}",
        "\u{FEFF}\n#",
    ];
    for (links, row) in rows.iter().flat_map(|row| [(&[][..], row), (&SHARE, row)]) {
        let folder = Folder::with_links(links).and_row(row);
        let shown = pinged(&folder, 1);
        assert_eq!(
            shown[..2],
            [
                "11 unfit row | from AA BB CC to 00 10 3A | direct 0F 00 ping | reply | read 0",
                "11 unfit row | from AA BB CC to 00 10 3B | direct 0F 00 ping | reply | read 0",
            ]
        );
        assert_eq!(shown[2..][11..], ["11 unfit row: 2", "every seat: 0"]);
    }
}

#[test]
fn a_missing_row_is_named() {
    for words in [&[][..], &["lines"]] {
        let folder = Folder::with_links(&SHARE);
        let said = refusal(&folder, words);
        assert!(said.starts_with("row: "), "{said}");
        assert!(!folder.row().exists());
    }
}

/// 256 lines of sixteen bytes come to 4,096 and are read; with one byte more they are not, though each of them names a module.
#[test]
fn a_row_over_4096_bytes_is_refused() {
    let lines = "dimmer 00 10 3A\n".repeat(256);
    let shown = pinged(&with_row(&lines), 0);
    assert!(shown[0].starts_with("11 unfit row | "), "{shown:?}");
    let one_more = lines.replacen("\n", "\r\n", 1);
    let bad = "heater\n".repeat(1000);
    let long = lines.repeat(25);
    for (row, length) in [(one_more, 4097), (bad, 7000), (long, 102_400)] {
        assert_eq!(row.len(), length);
        let said = refusal(&with_row(row), &["lines"]);
        assert!(
            said.starts_with("row: ") && said.contains("4,096"),
            "{said}"
        );
    }
}
