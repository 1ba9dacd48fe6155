//! `classroom lines` with random classes and streams: every line and every count beside the second reading of the paper.

use dreelish_tests::messages::Class;
use dreelish_tests::paper::hear::hear;
use dreelish_tests::paper::message::Kind;
use dreelish_tests::paper::{Load, Module};
use dreelish_tests::random::Random;

use crate::served::{served, Served};
use crate::streams::{folder_of, random_stream};
use crate::*;

const SEED: u64 = 0x0002_5000_0511;
const RUNS: u64 = 60;
const FRAMES: usize = 60;
const MOST_SEATS: usize = 16;

/// The results as `bench lines` calls them, and those of a class.
const RESULTS: [&str; 12] = [
    "0 carried out",
    "1 bad length",
    "2 unfit link memory",
    "3 not for us",
    "4 bad checksum",
    "5 no room",
    "6 not linked",
    "7 not listed",
    "8 no concern of ours",
    "9 two of one address",
    "10 nobody's address",
    "11 unfit row",
];

#[test]
fn random_classes_are_told_in_lines() {
    println!("seed {SEED:#X}, {RUNS} runs");
    let mut total = 0;
    for number in 0..RUNS {
        total += compare(number);
    }
    println!("{total} lines of frames");
    assert!(total >= 3_000);
}

/// Each run has random numbers of its own, so that it can be run again by itself.
fn compare(number: u64) -> usize {
    let mut random = Random::new(SEED, number);
    let class = Class::classroom(&mut random);
    let stream = random_stream(&mut random, class.clone(), FRAMES);
    let served = served(&class.row, &class.links, &stream);
    let folder = folder_of(&class, &mut random);
    let mut classroom = start(&folder, &["lines"]);
    classroom.send(&stream);
    let text = String::from_utf8(classroom.finish()).expect("it is text");
    let mut lines = text.lines();
    for (at, (served, line)) in served.iter().zip(&mut lines).enumerate() {
        let (start, end) = around_the_name(served);
        let name = line.strip_prefix(&start);
        let name = name.and_then(|rest| rest.strip_suffix(&end));
        assert!(
            name.is_some_and(|name| !name.contains('|')),
            "seed {SEED:#X}, run {number}, frame {at}\nwritten  {line}\nexpected {start} ..{end}",
        );
    }
    let counts: Vec<_> = lines.collect();
    let expected = counts_of(&served, class.row.len());
    assert_eq!(counts, expected, "seed {SEED:#X}, run {number}");
    served.len()
}

/// All of a line but what the command is called: what stands before it and what stands behind it.
fn around_the_name(served: &Served) -> (String, String) {
    let message = served.message;
    let result = RESULTS[usize::from(served.outcome.result)];
    let (from, to) = (digits(&message[..3]), digits(&message[3..6]));
    let asked = match hear(message) {
        Ok(heard) => format!("{}{}", name(heard.kind), digits(&message[7..9])),
        Err(_) => String::new(),
    };
    let data = match &message[9..] {
        [] => String::new(),
        data => format!(" data{}", digits(data)),
    };
    let (reply, read) = (digits(&served.reply), served.outcome.read);
    let seats: String = served
        .seats()
        .into_iter()
        .map(|seat| format!(" | seat {} | {}", seat + 1, load(&served.row[seat])))
        .collect();
    (
        format!("{result} | from{from} to{to} | {asked}"),
        format!("{data} | reply{reply} | read {read}{seats}"),
    )
}

fn name(kind: Kind) -> &'static str {
    match kind {
        Kind::Direct => "direct",
        Kind::Cleanup => "cleanup",
        Kind::Broadcast => "broadcast",
    }
}

fn load(module: &Module) -> String {
    let switch = |is_on| if is_on { "on" } else { "off" };
    match module.load {
        Load::Lamp(lamp) => format!("level {:02X}", lamp.level),
        Load::Sockets(sockets) => {
            let (top, bottom) = (switch(sockets.top), switch(sockets.bottom));
            format!("top {top}, bottom {bottom}")
        }
    }
}

/// A blank before each byte.
fn digits(bytes: &[u8]) -> String {
    bytes.iter().map(|byte| format!(" {byte:02X}")).collect()
}

/// By result, by seat, and for every seat; of a row over sixteen no seat is served, and none is listed.
fn counts_of(served: &[Served], seats: usize) -> Vec<String> {
    let count = |wanted: &dyn Fn(&Served) -> bool| {
        let wanted = served.iter().filter(|served| wanted(served));
        wanted.count()
    };
    let results = RESULTS.iter().enumerate().map(|(result, name)| {
        let count = count(&|served| usize::from(served.outcome.result) == result);
        format!("{name}: {count}")
    });
    let listed = if seats > MOST_SEATS { 0 } else { seats };
    let seats = (0..listed).map(|seat| {
        let count = count(&|served| !served.is_to_all() && served.seats() == [seat]);
        format!("seat {}: {count}", seat + 1)
    });
    let to_all = count(&|served| served.is_to_all());
    results
        .chain(seats)
        .chain([format!("every seat: {to_all}")])
        .collect()
}
