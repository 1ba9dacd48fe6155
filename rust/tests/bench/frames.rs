//! Frames whole, in pieces, cut, and with other bytes between them.

use std::thread::sleep;

use dreelish_tests::paper::ModuleKind::Dimmer;
use dreelish_tests::program::expected;

use crate::*;

#[test]
fn all_frames_in_one_write() {
    let written = output(&LINKS, &mixed_stream());
    assert_same(&written, &expected(Dimmer, &LINKS, &mixed_stream()));
}

#[test]
fn one_byte_at_a_time() {
    let folder = Folder::with_links(&LINKS);
    let mut bench = Bench::start(&folder);
    for byte in mixed_stream() {
        bench.send(&[byte]);
        sleep(PAUSE / 2);
    }
    assert_same(&bench.finish(), &expected(Dimmer, &LINKS, &mixed_stream()));
}

/// Every repeat is answered with as many bytes as the first, so each can wait for the one before it.
#[test]
fn split_at_every_position() {
    let folder = Folder::with_links(&LINKS);
    let mut bench = Bench::start(&folder);
    let stream = mixed_stream();
    let length = expected(Dimmer, &LINKS, &stream).len();
    let mut written = Vec::new();
    for at in 1..stream.len() {
        bench.send(&stream[..at]);
        sleep(PAUSE);
        bench.send(&stream[at..]);
        written.extend(bench.receive(length));
    }
    written.extend(bench.finish());
    let whole = stream.repeat(stream.len() - 1);
    assert_same(&written, &expected(Dimmer, &LINKS, &whole));
}

#[test]
fn bytes_between_frames_are_skipped() {
    let folder = Folder::with_links(&LINKS);
    let mut bench = Bench::start(&folder);
    let between: [&[u8]; 12] = [
        &[],
        &[0x02],
        &[0x02, 0x02],
        &[0x02, 0x02, 0x02],
        &[0x02, 0x00],
        &[0x02, 0x4F],
        &[0x02, 0x52, 0x02],
        &[0x50],
        &[0x51],
        &[0x00, 0x50, 0x02],
        &[0xFF, 0x02, 0x15],
        &[0x50, 0x51, 0x50, 0x02, 0x03, 0x51],
    ];
    for garbage in between {
        bench.send(garbage);
        bench.send(&PING);
        assert_same(&bench.receive(PING_ANSWER.len()), &PING_ANSWER);
    }
    bench.send(&[0x02]);
    assert_same(&bench.finish(), &[]);
}

#[test]
fn a_frame_cut_by_the_end_is_dropped() {
    let on = standard(0x0F, 0x11, 0x80);
    for cut in 1..on.len() {
        let stream = [&PING, &on[..cut]].concat();
        assert_same(&output(&LINKS, &stream), &PING_ANSWER);
    }
    let write = write_record_1();
    for cut in [1, 2, 3, 11, 12, 24] {
        let stream = [&PING, &write[..cut]].concat();
        assert_same(&output(&LINKS, &stream), &PING_ANSWER);
    }
}

/// The bytes behind 02 51 belong to that frame, even where they look like a frame and it never ends.
#[test]
fn nothing_is_found_in_a_cut_frame() {
    let stream = [&PING[..], &[0x02, 0x51], &PING].concat();
    assert_same(&output(&LINKS, &stream), &PING_ANSWER);
}

#[test]
fn answers_come_while_input_is_open() {
    let folder = Folder::with_links(&LINKS);
    let mut bench = Bench::start(&folder);
    for level in [0x80, 0x01, 0xFF] {
        bench.send(&standard(0x0F, 0x11, level));
        assert_same(&bench.receive(11), &answer(0x11, level));
        bench.send(&PING);
        assert_same(&bench.receive(11), &PING_ANSWER);
    }
    assert_same(&bench.finish(), &[]);
}

#[test]
fn flags_that_belie_the_frame_get_no_answer() {
    let folder = Folder::with_links(&LINKS);
    let mut bench = Bench::start(&folder);
    bench.send(&standard(0x1F, 0x0F, 0x00));
    let mut get = get_database();
    get[8] = 0x0F;
    bench.send(&get);
    bench.send(&PING);
    assert_same(&bench.finish(), &PING_ANSWER);
}
