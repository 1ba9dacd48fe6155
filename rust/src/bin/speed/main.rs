//! How many messages a second the proved library serves, beside the same paper in Rust, and how many frames program `bench`.

mod class;
mod frames;
mod messages;

use std::time::Duration;

use dreelish_tests::example::LINKED;
use dreelish_tests::paper::links::{Record, RECORD};
use dreelish_tests::random::Random;

const REPEATS: usize = 15;
/// How long one repeat should take, so that the clock's grain does not matter.
const REPEAT: Duration = Duration::from_millis(20);

fn main() {
    messages::print();
    class::print();
    frames::print();
}

fn full_links(records: usize) -> Vec<u8> {
    let mut random = Random::new(0, 0);
    let mut links = Vec::with_capacity(records * RECORD);
    for _ in 1..records {
        let [group, a0, a1, d1] = random.bytes();
        let other: Record = [0xA2, group, a0, a1, 0x00, d1, 0x1C, 0x01];
        links.extend(other);
    }
    let [s0, s1, s2] = LINKED;
    links.extend([0xA2, 0x01, s0, s1, s2, 0x80, 0x1C, 0x01]);
    links
}

/// Messages a second of library and Rust, of which each says how long it takes for so many.
fn measure(library: impl Fn(usize) -> Duration, rust: impl Fn(usize) -> Duration) -> (f64, f64) {
    let mut count = 1;
    while rust(count) < REPEAT {
        count *= 2;
    }
    let mut best = [Duration::MAX; 2];
    for _ in 0..REPEATS {
        best[0] = best[0].min(library(count));
        best[1] = best[1].min(rust(count));
    }
    let [library, rust] = best.map(|time| count as f64 / time.as_secs_f64());
    (library, rust)
}
