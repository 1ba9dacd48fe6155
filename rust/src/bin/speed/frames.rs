//! Frames through program `bench`.

use std::time::{Duration, Instant};

use dreelish_tests::example::{Example, LINKED};
use dreelish_tests::framing::frame;
use dreelish_tests::paper::ModuleKind;
use dreelish_tests::program::{expected, Bench, Folder};

use crate::full_links;

const FRAMES: usize = 200_000;

pub fn print() {
    let links = full_links(16);
    let pair = [
        frame(&Example::direct(LINKED, 0x0F, 0x00).message),
        frame(&Example::direct(LINKED, 0x11, 0x80).message),
    ];
    let stream = pair.concat().repeat(FRAMES / 2);
    let start = run_bench(&links, &[]);
    let whole = run_bench(&links, &stream);
    println!(
        "\nProgram bench, {FRAMES} frames through a pipe, ping and 11 80 in turn, 16 records: {:.0} frames a second.",
        FRAMES as f64 / whole.as_secs_f64()
    );
    println!(
        "Its start, which is counted in, takes {:.2} s.",
        start.as_secs_f64()
    );
    if !cfg!(target_arch = "x86_64") {
        println!("The program is for x86-64, so that on this processor an emulator runs it.");
    }
}

/// How long a whole run takes. What it wrote must be right.
fn run_bench(links: &[u8], stream: &[u8]) -> Duration {
    let folder = Folder::with_links(links);
    let expected = expected(ModuleKind::Dimmer, links, stream);
    let start = Instant::now();
    let mut bench = Bench::start(&folder);
    bench.send(stream);
    let written = bench.finish();
    let time = start.elapsed();
    assert!(written == expected, "bench answers wrongly");
    time
}
