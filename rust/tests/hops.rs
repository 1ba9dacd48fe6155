//! Request 4: fresh hops in replies. Every expected byte was typed from the papers.

use std::collections::BTreeMap;

use dreelish_tests::example::{lamp, reply, Example, LINKED, STRANGER};
use dreelish_tests::left::{difference, Left};
use dreelish_tests::library;
use dreelish_tests::messages::{message, room_length, Scene};
use dreelish_tests::paper::ModuleKind;
use dreelish_tests::random::Random;

const SEED: u64 = 0x2F0F;
const SCENES: u64 = 20_000;
const MESSAGES: usize = 50;

/// By a request's largest hop count: the flags of an ACK, a NAK, a cleanup ACK, a cleanup NAK, extended data and an ID broadcast.
const FLAGS: [[u8; 6]; 4] = [
    [0x20, 0xA0, 0x60, 0xE0, 0x10, 0x80],
    [0x25, 0xA5, 0x65, 0xE5, 0x15, 0x85],
    [0x2A, 0xAA, 0x6A, 0xEA, 0x1A, 0x8A],
    [0x2F, 0xAF, 0x6F, 0xEF, 0x1F, 0x8F],
];

#[test]
fn each_type_has_the_hops_of_its_request() {
    for left in 0x0..=0x3 {
        for (largest, flags) in (0x0..).zip(FLAGS) {
            let hops = left << 2 | largest;
            standard_replies(hops, flags);
            replies_of_two(hops, flags);
        }
    }
}

fn standard_replies(hops: u8, [ack, nak, cleanup_ack, cleanup_nak, ..]: [u8; 6]) {
    let answer = reply(LINKED, ack, 0x30, 0x00);
    with_hops(Example::direct(LINKED, 0x30, 0x00), hops).only_answers(0, 1, &answer);
    let answer = reply(LINKED, nak, 0x39, 0xFB);
    with_hops(Example::direct(LINKED, 0x39, 0x65), hops).only_answers(7, 1, &answer);
    let answer = reply(STRANGER, nak, 0x11, 0xFF);
    with_hops(Example::direct(STRANGER, 0x11, 0x80), hops).only_answers(6, 2, &answer);
    let answer = reply(LINKED, cleanup_ack, 0x11, 0x01);
    with_hops(Example::cleanup(LINKED, 0x11, 0x01), hops).comes_to(0, 1, &answer, |comes| {
        lamp(&mut comes.module).level = 0x80;
    });
    let answer = reply(LINKED, cleanup_nak, 0x11, 0xFF);
    with_hops(Example::cleanup(LINKED, 0x11, 0x02), hops).only_answers(6, 2, &answer);
}

fn replies_of_two(hops: u8, [ack, _, _, _, data, id]: [u8; 6]) {
    #[rustfmt::skip]
    let answer = [
        0x00, 0x10, 0x3A, 0xAA, 0xBB, 0xCC, ack, 0x2E, 0x00,
        0x00, 0x10, 0x3A, 0xAA, 0xBB, 0xCC, data, 0x2E, 0x00,
        0x00, 0x01, 0x00, 0x00, 0x20, 0x20, 0x1F, 0xFF, 0x3F, 0x00, 0x01, 0x00, 0x00, 0x00,
    ];
    let get = Example::extended(LINKED, 0x2E, 0x00, [0x00; 14]);
    with_hops(get, hops).only_answers(0, 1, &answer);
    #[rustfmt::skip]
    let answer = [
        0x00, 0x10, 0x3A, 0x11, 0x22, 0x33, ack, 0x10, 0x00,
        0x00, 0x10, 0x3A, 0x01, 0x0F, 0xC1, id, 0x01, 0x00,
    ];
    with_hops(Example::direct(STRANGER, 0x10, 0x00), hops).only_answers(0, 0, &answer);
}

fn with_hops(mut example: Example, hops: u8) -> Example {
    example.message[6] = example.message[6] & 0xF0 | hops;
    example
}

/// Any flags byte in any message: both readings agree, hops left alter nothing, and no flags are sent but those of the table.
#[test]
fn any_flags_byte() {
    println!("seed {SEED:#X}, {SCENES} scenes a kind");
    for kind in [ModuleKind::Dimmer, ModuleKind::Outlet] {
        let mut sent = BTreeMap::new();
        for scene in 0..SCENES {
            run_scene(kind, scene, &mut sent);
        }
        let mut listed = FLAGS.concat();
        listed.sort_unstable();
        assert!(sent.keys().eq(&listed), "{:02X?}", sent.keys());
        for (flags, count) in sent {
            println!("{kind:?}: {flags:02X} sent {count} times");
            assert!(count >= 500, "{flags:02X} was sent {count} times");
        }
    }
}

fn run_scene(kind: ModuleKind, number: u64, sent: &mut BTreeMap<u8, usize>) {
    let mut random = Random::new(SEED, number);
    let scene = Scene::fit(kind, &mut random);
    for _ in 0..MESSAGES {
        let mut message = message(&mut random, scene.seat());
        if let (Some(flags), true) = (message.get_mut(6), random.per_cent(50)) {
            *flags = random.byte();
        }
        let room = vec![random.byte(); room_length(&mut random)];
        let left = run_both(&scene, &message, &room);
        for flags in flags_of(&left.room[..left.outcome.length]) {
            *sent.entry(flags).or_default() += 1;
        }
        if let Some(flags) = message.get_mut(6) {
            *flags ^= random.byte_in(1, 3) << 2;
            let what = format!("scene {number}, {message:02X?}");
            run_both(&scene, &message, &room).assert_is(&left, &what);
        }
    }
}

fn run_both(scene: &Scene, message: &[u8], room: &[u8]) -> Left {
    let (mut image, mut links) = (library::image(&scene.module), scene.links.clone());
    let by_library = Left::by_library(&mut image, &mut links, message, room.to_vec());
    let (mut module, mut links) = (scene.module, scene.links.clone());
    let by_paper = Left::by_paper(&mut module, &mut links, message, room.to_vec());
    let image = library::image(&scene.module);
    assert!(
        by_library == by_paper,
        "{}",
        difference(&image, &scene.links, message, &by_library, &by_paper)
    );
    by_library
}

/// Of each message of a reply.
fn flags_of(mut reply: &[u8]) -> Vec<u8> {
    let mut found = Vec::new();
    while let Some(&flags) = reply.get(6) {
        found.push(flags);
        let length = if flags & 0x10 == 0 { 9 } else { 23 };
        reply = &reply[length..];
    }
    found
}
