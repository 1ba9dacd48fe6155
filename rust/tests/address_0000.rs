//! Request 3: 0000 names record 0, as 0FFF does. Every expected byte was typed from the papers.

use dreelish_tests::example::{reply, Example, LINKED, STRANGER};
use dreelish_tests::left::Left;
use dreelish_tests::library;
use dreelish_tests::messages::{message, room_length, Scene};
use dreelish_tests::paper::{checksum, ModuleKind};
use dreelish_tests::random::Random;

const SEED: u64 = 0x0000_0FFF;
const SCENES: u64 = 20_000;
const MESSAGES: usize = 50;

const RECORD: [u8; 8] = [0xE2, 0x01, 0x08, 0xB6, 0xEA, 0x00, 0x1B, 0x01];

/// Get Database with Data 1 = 07 and no limit, as in P13.
fn get(from: [u8; 3], address: [u8; 2]) -> Example {
    let mut data = [0x00; 14];
    data[0] = 0x07;
    data[2..4].copy_from_slice(&address);
    Example::extended(from, 0x2F, 0x00, data)
}

/// The write of P11 and P12.
fn write(address: [u8; 2], data14: u8) -> Example {
    let mut data = [0x00; 14];
    data[..2].copy_from_slice(&[0x01, 0x02]);
    data[2..4].copy_from_slice(&address);
    data[4] = 0x08;
    data[5..13].copy_from_slice(&RECORD);
    data[13] = data14;
    Example::extended(LINKED, 0x2F, 0x00, data)
}

fn to_each(example: Example) -> [Example; 2] {
    [example.clone(), example.to_outlet()]
}

#[test]
fn get_shows_the_true_address() {
    #[rustfmt::skip]
    let whole = [
        0x00, 0x10, 0x3A, 0xAA, 0xBB, 0xCC, 0x2F, 0x2F, 0x00,
        0x00, 0x10, 0x3A, 0xAA, 0xBB, 0xCC, 0x1F, 0x2F, 0x00,
        0x07, 0x01, 0x0F, 0xFF, 0x00, 0xA2, 0x01, 0xAA, 0xBB, 0xCC, 0x80, 0x1C, 0x01, 0x00,
        0x00, 0x10, 0x3A, 0xAA, 0xBB, 0xCC, 0x1F, 0x2F, 0x00,
        0x07, 0x01, 0x0F, 0xF7, 0x00, 0x00, 0x00, 0x00, 0x00, 0x00, 0x00, 0x00, 0x00, 0x00,
    ];
    for example in to_each(get(LINKED, [0x00, 0x00])) {
        example.only_answers(0, 1, &whole);
        example.room(54).only_answers(5, 1, &[]);
    }
}

#[test]
fn a_write_goes_to_record_0() {
    let ack = reply(LINKED, 0x2F, 0x2F, 0x00);
    for example in to_each(write([0x00, 0x00], 0x1F)) {
        example.comes_to(0, 1, &ack, |comes| {
            comes.links[..8].copy_from_slice(&RECORD);
            comes.module.delta = 0x01;
        });
    }
    write([0x00, 0x00], 0x1E).only_answers(4, 0, &[]);
}

#[test]
fn its_neighbours_name_nothing() {
    let nak = reply(LINKED, 0xAF, 0x2F, 0xFB);
    for low in 0x01..=0x10 {
        for example in to_each(get(LINKED, [0x00, low])) {
            example.only_answers(7, 1, &nak);
        }
        write([0x00, low], 0x1F - low).only_answers(7, 1, &nak);
    }
}

#[test]
fn a_stranger_is_refused() {
    let nak = reply(STRANGER, 0xAF, 0x2F, 0xFF);
    for example in to_each(get(STRANGER, [0x00, 0x00])) {
        example.only_answers(6, 2, &nak);
    }
}

/// Messages by 0000 as they come, each beside the same by 0FFF, with Data 14 that fits where it is checked.
#[test]
fn both_names_come_to_the_same() {
    println!("seed {SEED:#X}, {SCENES} scenes a kind");
    for kind in [ModuleKind::Dimmer, ModuleKind::Outlet] {
        let mut results = [0; 9];
        for scene in 0..SCENES {
            run_scene(kind, scene, &mut results);
        }
        println!("{kind:?}: by result {results:?}");
        for result in [0, 3, 5, 6, 7] {
            assert!(results[result] >= 500, "result {result}");
        }
    }
}

fn run_scene(kind: ModuleKind, number: u64, results: &mut [usize; 9]) {
    let mut random = Random::new(SEED, number);
    let scene = Scene::fit(kind, &mut random);
    for _ in 0..MESSAGES {
        let message = message(&mut random, scene.seat());
        let room = vec![random.byte(); room_length(&mut random)];
        if message.len() == 23 && message[7] == 0x2F && message[11..13] == [0x00, 0x00] {
            let by_zero = run(&scene, &fitted(&message, [0x00, 0x00]), &room);
            let by_name = run(&scene, &fitted(&message, [0x0F, 0xFF]), &room);
            by_zero.assert_is(&by_name, &format!("scene {number}, {message:02X?}"));
            results[usize::from(by_zero.outcome.result)] += 1;
        }
    }
}

fn fitted(message: &[u8], address: [u8; 2]) -> Vec<u8> {
    let mut message = message.to_vec();
    message[11..13].copy_from_slice(&address);
    if message[10] != 0x00 {
        message[22] = checksum::closing(&message[7..22]);
    }
    message
}

fn run(scene: &Scene, message: &[u8], room: &[u8]) -> Left {
    let (mut image, mut links) = (library::image(&scene.module), scene.links.clone());
    Left::by_library(&mut image, &mut links, message, room.to_vec())
}
