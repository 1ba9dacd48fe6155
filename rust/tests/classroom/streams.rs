//! Random classes and random streams, held against the second reading of the paper frame after frame.

use std::collections::BTreeSet;

use dreelish_tests::framing;
use dreelish_tests::messages::{message, pieces, stream, that_fits, Class};
use dreelish_tests::paper::{self, Identity, Module, ModuleKind, LONGEST_REPLY};
use dreelish_tests::random::Random;
use dreelish_tests::tally::Tally;

use crate::served::{served, Served};
use crate::*;

const SEED: u64 = 0x0002_5000_0510;
/// Each with a class of its own.
const RUNS: u64 = 300;
const FRAMES: usize = 40;

/// How often what came up.
struct Counts {
    tally: Tally,
    seats: BTreeSet<usize>,
    of_both_kinds: usize,
    answered: usize,
    short_lines: usize,
    long_lines: usize,
}

#[test]
fn random_classes_answer_random_streams() {
    println!("seed {SEED:#X}, {RUNS} runs");
    let mut counts = Counts {
        tally: Tally::of_classroom(),
        seats: BTreeSet::new(),
        of_both_kinds: 0,
        answered: 0,
        short_lines: 0,
        long_lines: 0,
    };
    for number in 0..RUNS {
        compare(number, &mut counts);
    }
    let (total, answered) = (counts.tally.total(), counts.answered);
    println!(
        "{total} frames, {answered} of them answered\n{}",
        counts.tally
    );
    let (short, long) = (counts.short_lines, counts.long_lines);
    println!("lines of three bytes: {short}, of seven: {long}");
    println!("classes of both kinds: {}", counts.of_both_kinds);
    assert!((0..=18).all(|seats| counts.seats.contains(&seats)));
    assert!(total >= 10_000 && answered >= 5_000);
    counts.tally.assert_at_least(50, 10);
    assert!(short >= 500 && long >= 500 && counts.of_both_kinds >= 100);
}

/// Each run has random numbers of its own, so that it can be run again by itself.
fn compare(number: u64, counts: &mut Counts) {
    println!("run {number}");
    let mut random = Random::new(SEED, number);
    let class = Class::classroom(&mut random);
    count_row(&class.row, counts);
    let stream = random_stream(&mut random, class.clone(), FRAMES);
    let served = served(&class.row, &class.links, &stream);
    let folder = folder_of(&class, &mut random);
    let mut classroom = start(&folder, &[]);
    let (mut sent, mut done) = (0, 0);
    for piece in pieces(&mut random, &stream) {
        classroom.send(piece);
        sent += piece.len();
        // a frame is answered as soon as the last byte of it has come
        while done < framing::messages(&stream[..sent]).len() {
            let Served {
                message,
                outcome,
                reply,
                ..
            } = &served[done];
            let expected = framing::frames(reply);
            let written = classroom.receive(expected.len());
            assert!(
                written == expected,
                "seed {SEED:#X}, run {number}, frame {done}, {message:02X?}, {outcome:?}\nwritten  {written:02X?}\nexpected {expected:02X?}",
            );
            counts.tally.count(message, outcome.result);
            counts.answered += usize::from(!expected.is_empty());
            done += 1;
        }
    }
    assert_eq!(done, served.len());
    assert_eq!(classroom.finish(), [], "seed {SEED:#X}, run {number}");
}

fn count_row(row: &[Module], counts: &mut Counts) {
    counts.seats.insert(row.len());
    let of = |kind| row.iter().any(|module| module.kind() == kind);
    counts.of_both_kinds += usize::from(of(ModuleKind::Dimmer) && of(ModuleKind::Outlet));
    let short = row.iter().filter(|module| is_the_benchs(module)).count();
    counts.short_lines += short;
    counts.long_lines += row.len() - short;
}

pub fn folder_of(class: &Class, random: &mut Random) -> Folder {
    Folder::with_links(&class.links).and_row(written(&class.row, random))
}

/// The file of a row: three bytes where the rest is the bench's, seven else; blanks, letters, comments and ends of lines of any sort.
fn written(row: &[Module], random: &mut Random) -> String {
    let mut text = String::from(random.pick(&["", "\u{FEFF}"]));
    for module in row {
        if random.per_cent(20) {
            text.push_str(random.pick(&[
                "\n",
                " \t\r\n",
                "# table 1\n",
                "\t# dimmer 00 10 3A\r\n",
            ]));
        }
        let line = line(module);
        let line = match random.per_cent(50) {
            true => line.to_uppercase(),
            false => line.to_lowercase(),
        };
        text.push_str(random.pick(&["", " ", "\t"]));
        text.push_str(&line.replace(' ', random.pick(&[" ", "  ", "\t", " \t "])));
        text.push_str(random.pick(&["", " ", "\t", " # Anna", "# Ben, 2b"]));
        text.push_str(random.pick(&["\n", "\r\n"]));
    }
    if random.per_cent(30) {
        text.truncate(text.trim_end().len());
    }
    text
}

fn line(module: &Module) -> String {
    let Identity {
        address: [a0, a1, a2],
        category,
        subcategory,
        firmware,
        hardware,
    } = module.identity;
    let kind = match module.kind() {
        ModuleKind::Dimmer => "dimmer",
        ModuleKind::Outlet => "outlet",
    };
    let address = format!("{kind} {a0:02X} {a1:02X} {a2:02X}");
    match is_the_benchs(module) {
        true => address,
        false => {
            format!("{address} {category:02X} {subcategory:02X} {firmware:02X} {hardware:02X}")
        }
    }
}

/// Whether it is in all but its address.
fn is_the_benchs(module: &Module) -> bool {
    let bench = Identity {
        address: module.identity.address,
        ..module.kind().bench()
    };
    module.identity == bench
}

/// Frames of all kinds of messages; `class` goes along so that the messages suit.
pub fn random_stream(random: &mut Random, mut class: Class, frames: usize) -> Vec<u8> {
    stream(random, frames, |random| {
        let message = that_fits(random, |random| {
            let seat = class.any_seat(random);
            message(random, seat)
        });
        let mut room = [0; LONGEST_REPLY];
        paper::class_step(&mut class.row, &mut class.links, &message, &mut room);
        message
    })
}
