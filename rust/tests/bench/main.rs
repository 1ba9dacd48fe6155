//! Program `bench` from end to end: "The program". Here stand the frames that the tests share.

mod frames;
mod kinds;
mod lines;
mod links;
mod output;
mod state;
mod streams;

use std::time::Duration;

use dreelish_tests::example::{LINKED, LINKS};
use dreelish_tests::framing::frame;
use dreelish_tests::program::{Bench, Folder};

const OWN: [u8; 3] = [0x00, 0x10, 0x3A];

/// The example that ends "The program".
const PING: [u8; 11] = [
    0x02, 0x50, 0xAA, 0xBB, 0xCC, 0x00, 0x10, 0x3A, 0x0F, 0x0F, 0x00,
];
const PING_ANSWER: [u8; 11] = [
    0x02, 0x50, 0x00, 0x10, 0x3A, 0xAA, 0xBB, 0xCC, 0x2F, 0x0F, 0x00,
];

/// Long enough for the program to read what came before.
const PAUSE: Duration = Duration::from_millis(10);

fn standard(flags: u8, command1: u8, command2: u8) -> Vec<u8> {
    frame(&[&LINKED[..], &OWN, &[flags, command1, command2]].concat())
}

fn answer(command1: u8, command2: u8) -> Vec<u8> {
    frame(&[&OWN[..], &LINKED, &[0x2F, command1, command2]].concat())
}

fn extended(command1: u8, data: [u8; 14]) -> Vec<u8> {
    frame(&[&LINKED[..], &OWN, &[0x1F, command1, 0x00], &data].concat())
}

/// The write of the paper's second checksum, over record 1.
fn write_record_1() -> Vec<u8> {
    let data = [
        0x01, 0x02, 0x0F, 0xF7, 0x08, 0xE2, 0x01, 0x08, 0xB6, 0xEA, 0x00, 0x1B, 0x01, 0x19,
    ];
    extended(0x2F, data)
}

fn get_database() -> Vec<u8> {
    let mut data = [0x00; 14];
    data[2..4].copy_from_slice(&[0x0F, 0xFF]);
    extended(0x2F, data)
}

/// Some frames that leave their mark, with bytes between them that belong to none.
fn mixed_stream() -> Vec<u8> {
    [
        standard(0x0F, 0x11, 0x80),
        vec![0x02, 0x15],
        write_record_1(),
        standard(0x0F, 0x19, 0x00),
        vec![0x02],
        get_database(),
        PING.to_vec(),
    ]
    .concat()
}

/// What a program over `links` writes when it gets `stream` at once and then the end of input.
fn output(links: &[u8], stream: &[u8]) -> Vec<u8> {
    let folder = Folder::with_links(links);
    let mut bench = Bench::start(&folder);
    bench.send(stream);
    bench.finish()
}

/// Equal bytes; else the place where they part.
fn assert_same(written: &[u8], expected: &[u8]) {
    let same = written.iter().zip(expected).take_while(|(a, b)| a == b);
    let at = same.count();
    assert!(
        written == expected,
        "{} bytes written, {} expected, parting at {at}:\nwritten  {:02X?}\nexpected {:02X?}",
        written.len(),
        expected.len(),
        &written[at..written.len().min(at + 64)],
        &expected[at..expected.len().min(at + 64)],
    );
}

#[test]
fn ping_is_answered_with_any_fit_links() {
    for links in [vec![0x00; 8], LINKS.to_vec(), vec![0xFF; 2048]] {
        assert_same(&output(&links, &PING), &PING_ANSWER);
    }
}
