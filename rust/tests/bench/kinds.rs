//! The words on the command line: which kind of module sits at the bench.

use std::io::Write;
use std::process::Stdio;

use dreelish_tests::example::STRANGER;
use dreelish_tests::paper::ModuleKind;
use dreelish_tests::program::{command, expected};

use crate::*;

pub fn output_of(words: &[&str], stream: &[u8]) -> Vec<u8> {
    let folder = Folder::with_links(&LINKS);
    let mut bench = Bench::start_command(command(&folder).args(words));
    bench.send(stream);
    bench.finish()
}

#[test]
fn an_outlet_says_who_it_is() {
    let ask = frame(&[&STRANGER[..], &OWN, &[0x0F, 0x10, 0x00]].concat());
    #[rustfmt::skip]
    let id = [
        0x02, 0x50, 0x00, 0x10, 0x3A, 0x11, 0x22, 0x33, 0x2F, 0x10, 0x00,
        0x02, 0x50, 0x00, 0x10, 0x3A, 0x02, 0x39, 0xC2, 0x8F, 0x01, 0x00,
    ];
    assert_same(&output_of(&["outlet"], &ask), &id);
}

#[test]
fn an_outlet_has_two_sockets() {
    let mut bottom_on = [0x00; 14];
    (bottom_on[0], bottom_on[13]) = (0x02, 0xED);
    let sent_and_answered = [
        (standard(0x0F, 0x19, 0x01), answer(0x00, 0x00)),
        (extended(0x11, bottom_on), answer(0x11, 0x00)),
        (standard(0x0F, 0x19, 0x01), answer(0x00, 0x02)),
        (standard(0x0F, 0x11, 0x80), answer(0x11, 0x80)),
        (standard(0x0F, 0x19, 0x01), answer(0x00, 0x03)),
        (standard(0x0F, 0x19, 0x00), answer(0x00, 0xFF)),
    ];
    let (sent, answered): (Vec<_>, Vec<_>) = sent_and_answered.into_iter().unzip();
    assert_same(&output_of(&["outlet"], &sent.concat()), &answered.concat());
}

#[test]
fn an_outlet_answers_random_streams() {
    streams::compare(ModuleKind::Outlet, &["outlet"]);
}

#[test]
fn a_dimmer_needs_no_word() {
    let stream = mixed_stream();
    let by_paper = expected(ModuleKind::Dimmer, &LINKS, &stream);
    assert_same(&output_of(&[], &stream), &by_paper);
    assert_same(&output_of(&["dimmer"], &stream), &by_paper);
}

/// It says which words there are, and serves nothing.
#[test]
fn another_word_is_refused() {
    let words: [&[&str]; 8] = [
        &["heater"],
        &["Outlet"],
        &["outlets"],
        &["dimme"],
        &[""],
        &["lines", "outlet"],
        &["outlet", "line"],
        &["outlet", "lines", "lines"],
    ];
    for word in words {
        let folder = Folder::with_links(&LINKS);
        let mut command = command(&folder);
        command.args(word).stdin(Stdio::piped());
        command.stdout(Stdio::piped()).stderr(Stdio::piped());
        let mut child = command.spawn().expect("bench starts");
        let mut input = child.stdin.take().expect("input is piped");
        // Where the program has ended already nobody reads it.
        let _ = input.write_all(&PING);
        drop(input);
        let output = child.wait_with_output().expect("bench ends");
        assert_same(&output.stdout, &[]);
        let said = String::from_utf8(output.stderr).expect("it says it in letters");
        assert_eq!(said.lines().count(), 1, "{word:?}: {said}");
        for listed in ["dimmer", "outlet"] {
            assert!(said.contains(listed), "{word:?}: {said}");
        }
    }
}
