//! Messages to one module.

use std::hint::black_box;
use std::time::{Duration, Instant};

use dreelish_tests::example::{Example, LINKED, STRANGER};
use dreelish_tests::library;
use dreelish_tests::paper::{self, Module, ModuleKind, LONGEST_REPLY};

use crate::{full_links, measure, REPEATS};

struct Case {
    name: &'static str,
    kind: ModuleKind,
    links: Vec<u8>,
    message: Vec<u8>,
}

pub fn print() {
    println!("Messages a second, one processor, best of {REPEATS} repeats each; library and Rust take turns.");
    println!("The library keeps the module as the bytes of its image, Rust as a struct.\n");
    println!("message                   records      library         Rust  library/Rust");
    for records in [1, 16, 256] {
        for case in cases(records) {
            let (library, rust) = measure(
                |count| time_library(&case, count),
                |count| time_rust(&case, count),
            );
            println!(
                "{:<25} {records:>7} {library:>12.0} {rust:>12.0} {:>13.2}",
                case.name,
                library / rust
            );
        }
    }
}

/// All records are live, and the linked sender's is the last, so that every search goes through all of them.
fn cases(records: usize) -> [Case; 6] {
    let case = |name, kind, example: Example| Case {
        name,
        kind,
        links: full_links(records),
        message: example.message,
    };
    let (dimmer, outlet) = (ModuleKind::Dimmer, ModuleKind::Outlet);
    let on = |from| Example::direct(from, 0x11, 0x80);
    let mut get = [0x00; 14];
    get[2..4].copy_from_slice(&[0x0F, 0xFF]);
    let mut summed = [0x00; 14];
    summed[13] = 0xE0;
    [
        case("stranger, 11 80", dimmer, on(STRANGER)),
        case("linked, 11 80", dimmer, on(LINKED)),
        case(
            "linked, all records",
            dimmer,
            Example::extended(LINKED, 0x2F, 0x00, get),
        ),
        case(
            "linked, extended 20 00",
            dimmer,
            Example::extended(LINKED, 0x20, 0x00, summed),
        ),
        case("outlet, stranger, 11 80", outlet, on(STRANGER)),
        case("outlet, linked, 11 80", outlet, on(LINKED)),
    ]
}

fn time_library(case: &Case, count: usize) -> Duration {
    let mut image = library::image(&Module::bench(case.kind));
    let mut links = case.links.clone();
    let mut room = [0; LONGEST_REPLY];
    let start = Instant::now();
    for _ in 0..count {
        black_box(library::step(
            black_box(&mut image),
            black_box(&mut links),
            black_box(&case.message),
            black_box(&mut room),
        ));
    }
    start.elapsed()
}

fn time_rust(case: &Case, count: usize) -> Duration {
    let mut module = Module::bench(case.kind);
    let mut links = case.links.clone();
    let mut room = [0; LONGEST_REPLY];
    let start = Instant::now();
    for _ in 0..count {
        black_box(paper::step(
            black_box(&mut module),
            black_box(&mut links),
            black_box(&case.message),
            black_box(&mut room),
        ));
    }
    start.elapsed()
}
