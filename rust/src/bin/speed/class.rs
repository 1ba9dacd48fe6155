//! Messages to a class.

use std::hint::black_box;
use std::time::{Duration, Instant};

use dreelish_tests::class_example::{broadcast, direct, ClassExample};
use dreelish_tests::example::LINKED;
use dreelish_tests::library;
use dreelish_tests::paper::links::RECORD;
use dreelish_tests::paper::{self, ModuleKind, LONGEST_REPLY};

use crate::{full_links, measure};

/// In each share.
const RECORDS: usize = 16;
const SEATS: usize = 16;

pub fn print() {
    println!(
        "\nA class of {SEATS} dimmers with {RECORDS} records each; messages a second as above.\n"
    );
    println!("message                                library         Rust  library/Rust");
    for (name, message) in [
        ("linked, 11 80, to seat 0", direct(LINKED, 0, 0x11, 0x80)),
        ("linked, 11 80, to seat 15", direct(LINKED, 15, 0x11, 0x80)),
        (
            "broadcast, half of the seats act",
            broadcast(LINKED, 0x11, 0x01),
        ),
    ] {
        let (library, rust) = speeds(&class(SEATS, message));
        let ratio = library / rust;
        println!("{name:<35} {library:>12.0} {rust:>12.0} {ratio:>13.2}");
    }
    print_by_seats();
}

/// What the other seats cost a message that is for one.
fn print_by_seats() {
    println!("\nLinked, 11 80, in classes of other sizes; nanoseconds a message, library.\n");
    println!("seats  to the first  to the last");
    for seats in [1, 4, 16] {
        let [first, last] = [0, seats - 1].map(|seat| {
            let (library, _) = speeds(&class(seats, direct(LINKED, seat, 0x11, 0x80)));
            1e9 / library
        });
        println!("{seats:>5} {first:>13.1} {last:>12.1}");
    }
}

/// All records are live. The linked sender's is the last in every share, as a responder in the first seat and every other
/// one, and as a controller between them; so every search goes through a whole share.
fn class(seats: usize, message: Vec<u8>) -> ClassExample {
    let mut links = full_links(RECORDS).repeat(seats);
    for share in links.chunks_exact_mut(RECORDS * RECORD).skip(1).step_by(2) {
        share[(RECORDS - 1) * RECORD] |= 0x40;
    }
    ClassExample::of(&vec![ModuleKind::Dimmer; seats], message).links(&links)
}

fn speeds(class: &ClassExample) -> (f64, f64) {
    measure(
        |count| time_library(class, count),
        |count| time_rust(class, count),
    )
}

fn time_library(class: &ClassExample, count: usize) -> Duration {
    let (mut images, seats) = (library::images(&class.row), class.row.len());
    let mut links = class.links.clone();
    let mut room = [0; LONGEST_REPLY];
    let start = Instant::now();
    for _ in 0..count {
        black_box(library::class_step(
            black_box(&mut images),
            seats,
            black_box(&mut links),
            black_box(&class.message),
            black_box(&mut room),
        ));
    }
    start.elapsed()
}

fn time_rust(class: &ClassExample, count: usize) -> Duration {
    let mut row = class.row.clone();
    let mut links = class.links.clone();
    let mut room = [0; LONGEST_REPLY];
    let start = Instant::now();
    for _ in 0..count {
        black_box(paper::class_step(
            black_box(&mut row),
            black_box(&mut links),
            black_box(&class.message),
            black_box(&mut room),
        ));
    }
    start.elapsed()
}
