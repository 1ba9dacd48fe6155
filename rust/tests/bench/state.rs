//! What one frame leaves the next one finds, and the longest reply shows it all.

use dreelish_tests::paper::{links::name, LONGEST_REPLY};
use dreelish_tests::random::Random;

use crate::*;

#[test]
fn state_is_kept_between_frames() {
    let folder = Folder::with_links(&LINKS);
    let mut bench = Bench::start(&folder);
    bench.send(&standard(0x0F, 0x11, 0x80));
    assert_same(&bench.receive(11), &answer(0x11, 0x80));
    bench.send(&standard(0x0F, 0x19, 0x00));
    assert_same(&bench.receive(11), &answer(0x00, 0x80));
    bench.send(&write_record_1());
    assert_same(&bench.receive(11), &answer(0x2F, 0x00));
    bench.send(&standard(0x0F, 0x19, 0x00));
    assert_same(&bench.receive(11), &answer(0x01, 0x80));
    bench.send(&get_database());
    let mut links = LINKS;
    links[8..].copy_from_slice(&[0xE2, 0x01, 0x08, 0xB6, 0xEA, 0x00, 0x1B, 0x01]);
    assert_same(&bench.finish(), &database(&links));
}

/// The frames of a whole database, record by record.
fn database(links: &[u8]) -> Vec<u8> {
    let mut frames = answer(0x2F, 0x00);
    for (k, record) in links.chunks_exact(8).enumerate() {
        frames.extend([0x02, 0x51]);
        frames.extend(OWN);
        frames.extend(LINKED);
        frames.extend([0x1F, 0x2F, 0x00, 0x00, 0x01]);
        frames.extend(name(k));
        frames.push(0x00);
        frames.extend(record);
        frames.push(0x00);
    }
    frames
}

#[test]
fn the_longest_reply() {
    let mut random = Random::new(0, 0);
    let mut links = LINKS[..8].to_vec();
    for _ in 1..256 {
        let mut record: [u8; 8] = random.bytes();
        record[0] |= 0x02;
        links.extend(record);
    }
    let written = output(&links, &get_database());
    assert_eq!(written.len(), 11 + 256 * 25);
    assert_eq!(written.len() - 257 * 2, LONGEST_REPLY);
    assert_same(&written, &database(&links));
}
