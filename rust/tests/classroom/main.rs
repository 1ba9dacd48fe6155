//! Program `classroom` from end to end: request 5 with "The program". Here stand the class and the runs that the tests share.

mod files;
mod frames;
mod lines;
mod random_lines;
mod row;
mod served;
mod streams;
mod words;

use std::io::Write;
use std::process::Stdio;

use dreelish_tests::class_example::{broadcast, cleanup, direct, extended, reply};
use dreelish_tests::example::{LINKED, STRANGER};
use dreelish_tests::framing::frame;
use dreelish_tests::paper::Address;
use dreelish_tests::program::{Bench, Folder, Program};

/// Two pupils, each linked to a dimmer of their own, and their teacher, who has a group of all seats.
const HER: Address = LINKED;
const HIM: Address = STRANGER;
const TEACHER: Address = [0x1A, 0x2B, 0x3C];

/// Her dimmer, his, and an outlet.
const ROW: &str = "dimmer 00 10 3A\ndimmer 00 10 3B\noutlet 00 10 3C\n";

/// Their shares. At the outlet she is a controller, so that it obeys her and not her group; the teacher's group has its bottom socket.
#[rustfmt::skip]
const LINKS: [u8; 72] = [
    0xA2, 0x01, 0xAA, 0xBB, 0xCC, 0x80, 0x1C, 0x01,
    0xA2, 0x01, 0x1A, 0x2B, 0x3C, 0x60, 0x1C, 0x01,
    0x00, 0x00, 0x00, 0x00, 0x00, 0x00, 0x00, 0x00,

    0xA2, 0x01, 0x11, 0x22, 0x33, 0x80, 0x1C, 0x01,
    0xA2, 0x01, 0x1A, 0x2B, 0x3C, 0x40, 0x1C, 0x01,
    0x00, 0x00, 0x00, 0x00, 0x00, 0x00, 0x00, 0x00,

    0xE2, 0x01, 0xAA, 0xBB, 0xCC, 0x80, 0x1C, 0x01,
    0xA2, 0x01, 0x1A, 0x2B, 0x3C, 0x20, 0x1C, 0x02,
    0x00, 0x00, 0x00, 0x00, 0x00, 0x00, 0x00, 0x00,
];

fn three_seats() -> Folder {
    Folder::with_links(&LINKS).and_row(ROW)
}

/// A row of so many modules of one kind, the first of them at the address of her dimmer and each other at the next one.
fn row_of(kind: &str, lines: u8) -> String {
    let line = |seat| format!("{kind} 00 10 {:02X}\n", 0x3A + seat);
    (0..lines).map(line).collect()
}

/// The stream of these messages.
fn frames_of(messages: &[Vec<u8>]) -> Vec<u8> {
    messages.iter().flat_map(|message| frame(message)).collect()
}

fn start(folder: &Folder, words: &[&str]) -> Bench {
    Bench::start_command(Program::Classroom.command(folder).args(words))
}

/// What a program writes, and what it says on standard error.
struct Wrote {
    output: Vec<u8>,
    said: String,
}

/// Starts the program with `words` and gives it a short stream and then the end of input.
fn run(folder: &Folder, words: &[&str], stream: &[u8]) -> Wrote {
    let mut command = Program::Classroom.command(folder);
    command.args(words).stdin(Stdio::piped());
    command.stdout(Stdio::piped()).stderr(Stdio::piped());
    let mut child = command.spawn().expect("classroom starts");
    let mut input = child.stdin.take().expect("input is piped");
    // Where the program has ended already nobody reads it.
    let _ = input.write_all(stream);
    drop(input);
    let output = child.wait_with_output().expect("classroom ends");
    Wrote {
        output: output.stdout,
        said: String::from_utf8(output.stderr).expect("it says it in letters"),
    }
}

/// The frames that it answers with; nothing may be wrong.
fn answered(folder: &Folder, messages: &[Vec<u8>]) -> Vec<u8> {
    let Wrote { output, said } = run(folder, &[], &frames_of(messages));
    assert_eq!(said, "");
    output
}

/// The lines of the instructor's screen, those of the messages first; nothing may be wrong.
fn told(folder: &Folder, messages: &[Vec<u8>]) -> Vec<String> {
    let Wrote { output, said } = run(folder, &["lines"], &frames_of(messages));
    assert_eq!(said, "");
    let text = String::from_utf8(output).expect("it is text");
    assert!(text.ends_with('\n'), "the last line ends too");
    text.lines().map(str::to_owned).collect()
}

/// What it says where it serves nothing, which is one line. The instructor's screen would show at least the counts if it did.
fn refusal(folder: &Folder, words: &[&str]) -> String {
    let ping = frame(&direct(HER, 0, 0x0F, 0x00));
    let Wrote { output, said } = run(folder, words, &ping);
    assert!(output.is_empty(), "served: {}", output.escape_ascii());
    assert!(
        said.ends_with('\n') && said.lines().count() == 1,
        "said: {said:?}"
    );
    said
}
