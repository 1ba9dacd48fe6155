//! `classroom lines`, the instructor's screen. Every expected line was typed from the papers, in the layout that `bench lines` has.

use dreelish_tests::example::{standard, LINKS as SHARE};

use crate::*;

/// The lines for these messages, in their order.
fn assert_told(folder: &Folder, messages_and_lines: &[(Vec<u8>, &str)]) {
    let (messages, lines): (Vec<_>, Vec<_>) = messages_and_lines.iter().cloned().unzip();
    assert_eq!(told(folder, &messages)[..lines.len()], lines);
}

/// His 20 per cent leave her 50 where they are, and so does what he sends to her module.
#[rustfmt::skip]
fn quiet_pupil() -> [(Vec<u8>, &'static str); 7] {
    [
        (
            direct(HER, 0, 0x39, 0x32),
            "0 carried out | from AA BB CC to 00 10 3A | direct 39 32 set per cent | reply 00 10 3A AA BB CC 2F 39 32 | read 1 | seat 1 | level 80",
        ),
        (
            direct(HIM, 1, 0x39, 0x14),
            "0 carried out | from 11 22 33 to 00 10 3B | direct 39 14 set per cent | reply 00 10 3B 11 22 33 2F 39 14 | read 1 | seat 2 | level 33",
        ),
        (
            direct(HER, 0, 0x19, 0x06),
            "0 carried out | from AA BB CC to 00 10 3A | direct 19 06 status | reply 00 10 3A AA BB CC 2F 00 32 | read 1 | seat 1 | level 80",
        ),
        (
            direct(HIM, 0, 0x11, 0x33),
            "6 not linked | from 11 22 33 to 00 10 3A | direct 11 33 on | reply 00 10 3A 11 22 33 AF 11 FF | read 3 | seat 1 | level 80",
        ),
        (
            direct(HIM, 1, 0x13, 0x00),
            "0 carried out | from 11 22 33 to 00 10 3B | direct 13 00 off | reply 00 10 3B 11 22 33 2F 13 00 | read 1 | seat 2 | level 00",
        ),
        (
            direct(HER, 0, 0x19, 0x00),
            "0 carried out | from AA BB CC to 00 10 3A | direct 19 00 status | reply 00 10 3A AA BB CC 2F 00 80 | read 1 | seat 1 | level 80",
        ),
        (
            direct(HIM, 1, 0x19, 0x00),
            "0 carried out | from 11 22 33 to 00 10 3B | direct 19 00 status | reply 00 10 3B 11 22 33 2F 00 00 | read 1 | seat 2 | level 00",
        ),
    ]
}

#[test]
fn the_quiet_pupil_keeps_her_level() {
    assert_told(&three_seats(), &quiet_pupil());
}

/// The seat is the module's number in `row`, wherever it sits.
#[test]
fn seats_are_told_by_their_numbers() {
    let mut row: Vec<_> = ROW.lines().collect();
    row.rotate_left(1);
    let mut links = LINKS;
    links.rotate_left(LINKS.len() / 3);
    let folder = Folder::with_links(&links).and_row(row.join("\n"));
    let (messages, lines): (Vec<_>, Vec<_>) = quiet_pupil().into_iter().unzip();
    let moved = lines.iter().map(|line| match line.contains("seat 1") {
        true => line.replace("seat 1", "seat 3"),
        false => line.replace("seat 2", "seat 1"),
    });
    let moved: Vec<_> = moved.collect();
    assert_eq!(told(&folder, &messages)[..moved.len()], moved);
}

/// Each by its own record: two levels and a socket. Her group has her own seat alone, though all are asked.
#[test]
#[rustfmt::skip]
fn a_broadcast_shows_every_seat() {
    assert_told(&three_seats(), &[
        (
            broadcast(TEACHER, 0x11, 0x01),
            "0 carried out | from 1A 2B 3C to 00 00 01 | broadcast 11 00 on | reply | read 6 | seat 1 | level 60 | seat 2 | level 40 | seat 3 | top off, bottom on",
        ),
        (
            broadcast(HER, 0x11, 0x01),
            "0 carried out | from AA BB CC to 00 00 01 | broadcast 11 00 on | reply | read 7 | seat 1 | level 80 | seat 2 | level 40 | seat 3 | top off, bottom on",
        ),
        (
            direct(HER, 2, 0x11, 0xFF),
            "0 carried out | from AA BB CC to 00 10 3C | direct 11 FF on | reply 00 10 3C AA BB CC 2F 11 FF | read 1 | seat 3 | top on, bottom on",
        ),
        (
            broadcast(TEACHER, 0x11, 0x05),
            "8 no concern of ours | from 1A 2B 3C to 00 00 05 | broadcast 11 00 on | reply | read 9 | seat 1 | level 80 | seat 2 | level 40 | seat 3 | top on, bottom on",
        ),
        (
            broadcast(TEACHER, 0x15, 0x01),
            "8 no concern of ours | from 1A 2B 3C to 00 00 01 | broadcast 15 00 (not listed) | reply | read 0 | seat 1 | level 80 | seat 2 | level 40 | seat 3 | top on, bottom on",
        ),
        (
            broadcast(TEACHER, 0x13, 0x01),
            "0 carried out | from 1A 2B 3C to 00 00 01 | broadcast 13 00 off | reply | read 6 | seat 1 | level 00 | seat 2 | level 00 | seat 3 | top on, bottom off",
        ),
        (
            cleanup(TEACHER, 2, 0x11, 0x01),
            "0 carried out | from 1A 2B 3C to 00 10 3C | cleanup 11 01 on | reply 00 10 3C 1A 2B 3C 6F 11 01 | read 2 | seat 3 | top on, bottom on",
        ),
        (
            cleanup(HER, 2, 0x11, 0x01),
            "6 not linked | from AA BB CC to 00 10 3C | cleanup 11 01 on | reply 00 10 3C AA BB CC EF 11 FF | read 3 | seat 3 | top on, bottom on",
        ),
    ]);
}

/// Where a seat was asked it is shown: with 4, 6 and 7, and not with 1, 3 and 10.
#[test]
#[rustfmt::skip]
fn refusals_show_whom_they_are_by() {
    assert_told(&three_seats(), &[
        (
            direct(HER, 3, 0x11, 0x80),
            "10 nobody's address | from AA BB CC to 00 10 3D | direct 11 80 on | reply | read 0",
        ),
        (
            cleanup(HER, 3, 0x11, 0x01),
            "10 nobody's address | from AA BB CC to 00 10 3D | cleanup 11 01 on | reply | read 0",
        ),
        (
            extended(HER, 0, [0x20, 0x05], [0, 0, 0, 0, 0, 0, 0, 0, 0, 0, 0, 0, 0, 0xDC]),
            "4 bad checksum | from AA BB CC to 00 10 3A | direct 20 05 set flags data 00 00 00 00 00 00 00 00 00 00 00 00 00 DC | reply | read 0 | seat 1 | level 00",
        ),
        (
            extended(HER, 3, [0x20, 0x05], [0, 0, 0, 0, 0, 0, 0, 0, 0, 0, 0, 0, 0, 0xDC]),
            "10 nobody's address | from AA BB CC to 00 10 3D | direct 20 05 set flags data 00 00 00 00 00 00 00 00 00 00 00 00 00 DC | reply | read 0",
        ),
        (
            direct(HER, 0, 0x39, 0x65),
            "7 not listed | from AA BB CC to 00 10 3A | direct 39 65 set per cent | reply 00 10 3A AA BB CC AF 39 FB | read 1 | seat 1 | level 00",
        ),
        (
            direct(HER, 2, 0x39, 0x32),
            "7 not listed | from AA BB CC to 00 10 3C | direct 39 32 (not listed) | reply 00 10 3C AA BB CC AF 39 FB | read 1 | seat 3 | top off, bottom off",
        ),
        (
            direct(HIM, 2, 0x39, 0x32),
            "6 not linked | from 11 22 33 to 00 10 3C | direct 39 32 (not listed) | reply 00 10 3C 11 22 33 AF 39 FF | read 3 | seat 3 | top off, bottom off",
        ),
        (
            standard(HER, [0x00, 0x10, 0x3A], 0x1F, [0x11, 0x80]),
            "1 bad length | from AA BB CC to 00 10 3A | direct 11 80 on | reply | read 0",
        ),
        (
            standard(HER, [0x00, 0x10, 0x3A], 0x2F, [0x11, 0x80]),
            "3 not for us | from AA BB CC to 00 10 3A | other 11 80 | reply | read 0",
        ),
        (
            standard(HER, [0x00, 0x10, 0x3D], 0x8F, [0x11, 0x80]),
            "3 not for us | from AA BB CC to 00 10 3D | other 11 80 | reply | read 0",
        ),
    ]);
}

/// Nobody is asked there, whoever it is for.
#[test]
#[rustfmt::skip]
fn two_of_one_address_are_nine() {
    let folder = Folder::with_links(&LINKS).and_row("dimmer 00 10 3A\noutlet 00 10 3B\noutlet 00 10 3A\n");
    assert_told(&folder, &[
        (
            direct(HER, 0, 0x11, 0x80),
            "9 two of one address | from AA BB CC to 00 10 3A | direct 11 80 on | reply | read 0",
        ),
        (
            direct(HIM, 1, 0x11, 0x80),
            "9 two of one address | from 11 22 33 to 00 10 3B | direct 11 80 on | reply | read 0",
        ),
        (
            direct(HER, 3, 0x0F, 0x00),
            "9 two of one address | from AA BB CC to 00 10 3D | direct 0F 00 ping | reply | read 0",
        ),
        (
            broadcast(TEACHER, 0x11, 0x01),
            "9 two of one address | from 1A 2B 3C to 00 00 01 | broadcast 11 00 on | reply | read 0",
        ),
        (
            standard(HER, [0x00, 0x10, 0x3A], 0x1F, [0x11, 0x80]),
            "9 two of one address | from AA BB CC to 00 10 3A | direct 11 80 on | reply | read 0",
        ),
    ]);
}

/// Before 9, and with no seat either.
#[test]
#[rustfmt::skip]
fn an_unfit_row_is_eleven() {
    let folder = Folder::with_links(&LINKS[1..]).and_row("dimmer 00 10 3A\ndimmer 00 10 3B\noutlet 00 10 3A\n");
    assert_told(&folder, &[
        (
            direct(HER, 0, 0x11, 0x80),
            "11 unfit row | from AA BB CC to 00 10 3A | direct 11 80 on | reply | read 0",
        ),
        (
            broadcast(TEACHER, 0x13, 0x01),
            "11 unfit row | from 1A 2B 3C to 00 00 01 | broadcast 13 00 off | reply | read 0",
        ),
        (
            standard(HER, [0x00, 0x10, 0x3A], 0x2F, [0x11, 0x80]),
            "11 unfit row | from AA BB CC to 00 10 3A | other 11 80 | reply | read 0",
        ),
    ]);
}

/// What was refused before a seat was asked counts for none.
#[test]
fn the_counts_at_the_end() {
    let wrong_sum = [0x00; 14];
    let messages = [
        direct(HER, 0, 0x39, 0x32),
        direct(HIM, 1, 0x39, 0x14),
        direct(HER, 0, 0x19, 0x06),
        direct(HIM, 0, 0x11, 0x33),
        direct(HER, 0, 0x39, 0x65),
        extended(HER, 2, [0x20, 0x05], wrong_sum),
        cleanup(TEACHER, 2, 0x11, 0x01),
        broadcast(TEACHER, 0x11, 0x01),
        broadcast(TEACHER, 0x13, 0x01),
        broadcast(HIM, 0x11, 0x02),
        direct(HER, 3, 0x0F, 0x00),
        standard(HER, [0x00, 0x10, 0x3A], 0x1F, [0x11, 0x80]),
        standard(HER, [0x00, 0x10, 0x3A], 0x2F, [0x11, 0x80]),
        standard(HER, [0x00, 0x00, 0x01], 0xAF, [0x11, 0x80]),
    ];
    assert_eq!(
        told(&three_seats(), &messages)[messages.len()..],
        [
            "0 carried out: 6",
            "1 bad length: 1",
            "2 unfit link memory: 0",
            "3 not for us: 2",
            "4 bad checksum: 1",
            "5 no room: 0",
            "6 not linked: 1",
            "7 not listed: 1",
            "8 no concern of ours: 1",
            "9 two of one address: 0",
            "10 nobody's address: 1",
            "11 unfit row: 0",
            "seat 1: 4",
            "seat 2: 1",
            "seat 3: 2",
            "every seat: 3",
        ]
    );
}

/// With no frame at all they are there too, and so they are where a frame is cut off and dropped.
#[test]
fn counts_of_nothing() {
    let cut = &frame(&direct(HER, 0, 0x0F, 0x00))[..10];
    for stream in [&[][..], cut] {
        let Wrote { output, said } = run(&three_seats(), &["lines"], stream);
        let text = String::from_utf8(output).expect("it is text");
        assert_eq!(text.lines().count(), 16, "{text}");
        assert!(text.lines().all(|line| line.ends_with(": 0")), "{text}");
        assert_eq!(said, "");
    }
}

/// The whole database of 256 records, of which hers is the last, with the seat and the load of the last of sixteen behind it.
#[test]
fn the_longest_line_is_whole() {
    let mut links = [0x02; 16 * 2048];
    links[16 * 2048 - 8..].copy_from_slice(&SHARE[..8]);
    let folder = Folder::with_links(&links).and_row(row_of("outlet", 16));
    let mut get = [0x00; 14];
    get[2..4].copy_from_slice(&[0x0F, 0xFF]);
    let lines = told(&folder, &[extended(HER, 15, [0x2F, 0x00], get)]);
    let fields: Vec<_> = lines[0].split(" | ").collect();
    let &[_, _, _, reply, read, seat, load] = &fields[..] else {
        panic!("{} fields", fields.len());
    };
    assert_eq!(reply.len(), "reply".len() + 3 * 5897);
    assert!(reply.starts_with("reply 00 10 49 AA BB CC 2F 2F 00 00 10 49 AA BB CC 1F 2F 00 00 01 0F FF 00 02 02 02 02 02 02 02 02 00 00 10 49"));
    assert!(reply.ends_with(" 00 01 08 07 00 A2 01 AA BB CC 80 1C 01 00"));
    assert_eq!(
        [read, seat, load],
        ["read 256", "seat 16", "top off, bottom off"]
    );
}

/// Each line is there as soon as its frame is, with its end.
#[test]
fn lines_come_while_input_is_open() {
    let folder = three_seats();
    let mut classroom = start(&folder, &["lines"]);
    for (message, line) in quiet_pupil() {
        classroom.send(&frame(&message));
        let shown = classroom.receive(line.len() + 1);
        assert_eq!(String::from_utf8_lossy(&shown), format!("{line}\n"));
    }
    let counts = classroom.finish();
    assert!(counts.starts_with(b"0 carried out: 6\n"));
}
