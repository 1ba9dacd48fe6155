//! links.bin, missing, too long, or no file at all; and neither file is ever written.

use std::fs;
use std::path::Path;
use std::thread::sleep;
use std::time::{Duration, SystemTime};

use dreelish_tests::class_example::ClassExample;
use dreelish_tests::framing;
use dreelish_tests::paper::links::RECORD;
use dreelish_tests::paper::ModuleKind::Dimmer;
use dreelish_tests::random::Random;

use crate::served::served;
use crate::*;

/// Sixteen shares of 2,048 bytes.
const LONGEST: usize = 32_768;

/// As much link memory as any class can have. No record is an end mark, and she has the first of every share.
fn longest_links() -> Vec<u8> {
    let mut random = Random::new(0, 5);
    let mut links: Vec<u8> = (0..LONGEST).map(|_| random.byte()).collect();
    for record in links.chunks_exact_mut(RECORD) {
        record[0] |= 0x02;
    }
    for share in links.chunks_exact_mut(LONGEST / 16) {
        share[..RECORD].copy_from_slice(&LINKS[..RECORD]);
    }
    links
}

/// All records of a seat.
fn database(seat: usize) -> Vec<u8> {
    let mut data = [0x00; 14];
    data[2..4].copy_from_slice(&[0x0F, 0xFF]);
    extended(HER, seat, [0x2F, 0x00], data)
}

#[test]
fn sixteen_shares_of_2048_are_fit() {
    let links = longest_links();
    let folder = Folder::with_links(&links).and_row(row_of("dimmer", 16));
    let stream = frames_of(&[database(0), database(7), database(15)]);
    let mut classroom = start(&folder, &[]);
    classroom.send(&stream);
    let row = ClassExample::of(&[Dimmer; 16], vec![]).row;
    let mut expected = Vec::new();
    for served in served(&row, &links, &stream) {
        assert_eq!(served.outcome.result, 0);
        expected.extend(framing::frames(&served.reply));
    }
    assert_eq!(expected.len(), 3 * (11 + 256 * 25));
    assert!(classroom.finish() == expected);
}

/// The paper's result for a ping to a class of sixteen with these bytes of link memory, as the instructor's screen has it.
fn result(links: &[u8]) -> String {
    let folder = Folder::with_links(links).and_row(row_of("dimmer", 16));
    let lines = told(&folder, &[direct(HER, 15, 0x0F, 0x00)]);
    let (result, _) = lines[0].split_once(" | ").expect("a line begins with it");
    result.to_owned()
}

#[test]
fn other_lengths_are_eleven() {
    let links = [longest_links(), longest_links(), longest_links()].concat();
    for length in [128, 2048, LONGEST] {
        assert_eq!(result(&links[..length]), "0 carried out", "{length} bytes");
    }
    #[rustfmt::skip]
    let unfit = [
        0, 1, 8, 120, 127, 129, 136, 192, LONGEST - 120, LONGEST - 8, LONGEST - 1,
        LONGEST + 1, LONGEST + 8, LONGEST + 16, LONGEST + 128, 2 * LONGEST, 3 * LONGEST,
    ];
    for length in unfit {
        assert_eq!(result(&links[..length]), "11 unfit row", "{length} bytes");
    }
}

#[test]
fn missing_links_are_eleven() {
    let folder = Folder::without_links().and_row(ROW);
    let ping = [direct(HER, 0, 0x0F, 0x00)];
    assert_eq!(
        told(&folder, &ping)[0],
        "11 unfit row | from AA BB CC to 00 10 3A | direct 0F 00 ping | reply | read 0"
    );
    assert_eq!(answered(&folder, &ping), []);
    assert!(!folder.links().exists());
}

/// Shares go by how many modules there are: what is fit for one is not for two, and comments have no share.
#[test]
fn shares_go_by_the_modules_of_row() {
    let ping = [direct(HER, 0, 0x0F, 0x00)];
    let answer = frame(&reply(0, HER, 0x2F, 0x0F, 0x00));
    let lines: Vec<_> = ROW.lines().collect();
    for (length, served) in [
        (8, [true, false, false]),
        (16, [true, true, false]),
        (24, [true, false, true]),
        (48, [true, true, true]),
        (56, [true, false, false]),
    ] {
        for seats in 1..=3 {
            let links = [0x00; 56];
            let folder =
                Folder::with_links(&links[..length]).and_row(lines[..seats].join("\n\n# next\n"));
            let expected = match served[seats - 1] {
                true => &answer[..],
                false => &[],
            };
            assert_eq!(
                answered(&folder, &ping),
                expected,
                "{length} bytes, {seats} seats"
            );
        }
    }
}

#[test]
fn a_folder_for_links_is_named() {
    for words in [&[][..], &["lines"]] {
        let folder = Folder::without_links().and_row(ROW);
        fs::create_dir(folder.links()).expect("a folder can be made");
        let said = refusal(&folder, words);
        assert!(said.starts_with("links.bin: "), "{said}");
    }
}

#[test]
fn a_folder_for_row_is_named() {
    for words in [&[][..], &["lines"]] {
        let folder = Folder::with_links(&LINKS);
        fs::create_dir(folder.row()).expect("a folder can be made");
        let said = refusal(&folder, words);
        assert!(said.starts_with("row: "), "{said}");
    }
}

/// The write of a record is found by the next message, and in no file.
#[test]
fn neither_file_is_written() {
    let folder = three_seats();
    let files = [folder.links(), folder.row()];
    let before = files.each_ref().map(|file| last_written(file));
    sleep(Duration::from_millis(10));
    let write = extended(
        HER,
        0,
        [0x2F, 0x00],
        [
            0x01, 0x02, 0x0F, 0xF7, 0x08, 0xE2, 0x01, 0x08, 0xB6, 0xEA, 0x00, 0x1B, 0x01, 0x19,
        ],
    );
    let messages = [write, direct(HER, 0, 0x19, 0x00), database(0)];
    #[rustfmt::skip]
    let answers = [
        0x02, 0x50, 0x00, 0x10, 0x3A, 0xAA, 0xBB, 0xCC, 0x2F, 0x2F, 0x00,
        0x02, 0x50, 0x00, 0x10, 0x3A, 0xAA, 0xBB, 0xCC, 0x2F, 0x01, 0x00,
        0x02, 0x50, 0x00, 0x10, 0x3A, 0xAA, 0xBB, 0xCC, 0x2F, 0x2F, 0x00,
        0x02, 0x51, 0x00, 0x10, 0x3A, 0xAA, 0xBB, 0xCC, 0x1F, 0x2F, 0x00,
        0x00, 0x01, 0x0F, 0xFF, 0x00, 0xA2, 0x01, 0xAA, 0xBB, 0xCC, 0x80, 0x1C, 0x01, 0x00,
        0x02, 0x51, 0x00, 0x10, 0x3A, 0xAA, 0xBB, 0xCC, 0x1F, 0x2F, 0x00,
        0x00, 0x01, 0x0F, 0xF7, 0x00, 0xE2, 0x01, 0x08, 0xB6, 0xEA, 0x00, 0x1B, 0x01, 0x00,
        0x02, 0x51, 0x00, 0x10, 0x3A, 0xAA, 0xBB, 0xCC, 0x1F, 0x2F, 0x00,
        0x00, 0x01, 0x0F, 0xEF, 0x00, 0x00, 0x00, 0x00, 0x00, 0x00, 0x00, 0x00, 0x00, 0x00,
    ];
    assert_eq!(answered(&folder, &messages), answers);
    let [links, row] = files
        .each_ref()
        .map(|file| fs::read(file).expect("it is there"));
    assert_eq!(links, LINKS);
    assert_eq!(row, ROW.as_bytes());
    assert_eq!(files.each_ref().map(|file| last_written(file)), before);
}

fn last_written(file: &Path) -> SystemTime {
    let about = fs::metadata(file).expect("it is there");
    about.modified().expect("folders know times")
}
