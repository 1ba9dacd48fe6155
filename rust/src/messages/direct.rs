//! Commands of direct messages, and data with them: mostly listed ones, mostly legal numbers.

use super::seat::Seat;
use crate::paper::{checksum, links};
use crate::random::Random;

/// Command 1 of every row of "Direct commands, standard"; rows that need a number of their own stand twice.
const STANDARD: [u8; 20] = [
    0x0D, 0x0F, 0x10, 0x11, 0x12, 0x13, 0x14, 0x15, 0x16, 0x19, 0x19, 0x1F, 0x1F, 0x21, 0x2E, 0x2F,
    0x30, 0x39, 0x39, 0x20,
];

pub fn standard(random: &mut Random) -> [u8; 2] {
    if random.per_cent(8) {
        return random.bytes();
    }
    let command1 = random.pick(&STANDARD);
    let command2 = match command1 {
        _ if random.per_cent(10) => random.byte(),
        0x19 => random.pick(&[0x00, 0x01, 0x06, 0x00, 0x01, 0x06, 0x02, 0x05, 0x07]),
        0x1F => random.pick(&[0x00, 0x01, 0x00, 0x01, 0x02]),
        0x39 => random.byte_in(0x00, 0x66),
        _ => random.byte(),
    };
    [command1, command2]
}

pub fn extended(random: &mut Random, seat: Seat) -> ([u8; 2], [u8; 14]) {
    let mut data: [u8; 14] = random.bytes();
    let command1 = random.pick(&[0x11, 0x13, 0x20, 0x2E, 0x2E, 0x2E, 0x2F, 0x2F, 0x2F]);
    let command2 = match command1 {
        0x11 | 0x13 => random.byte(),
        0x20 => random.byte_in(0x00, 0x11),
        _ => 0x00,
    };
    match command1 {
        0x11 | 0x13 => data[0] = random.pick(&[0x02, 0x02, 0x02, 0x02, 0x01, 0x00, 0x03]),
        0x2E => properties(random, &mut data),
        0x2F => database(random, seat, &mut data),
        _ => {}
    }
    let commands = match random.below(20) {
        0 => random.bytes(),
        1 => [command1, random.byte()],
        2 => standard(random),
        _ => [command1, command2],
    };
    close(random, commands, &mut data);
    (commands, data)
}

fn properties(random: &mut Random, data: &mut [u8; 14]) {
    data[1] = random.pick(&[0x00, 0x04, 0x05, 0x06, 0x07]);
    match data[1] {
        0x05 => data[2] = random.byte_in(0x00, 0x22),
        0x07 => data[2] = random.byte_in(0x0F, 0x81),
        _ => {}
    }
    if random.per_cent(8) {
        data[1] = random.byte_in(0x00, 0x09);
    }
}

fn database(random: &mut Random, seat: Seat, data: &mut [u8; 14]) {
    data[1] = random.pick(&[0x00, 0x02]);
    data[2..4].copy_from_slice(&name(random, seat));
    match data[1] {
        0x00 => data[4] = random.pick(&[0x00, 0x00, 0x01, 0x02, 0x10, 0xFF]),
        _ => data[4] = random.byte_in(0x01, 0x08),
    }
    if random.per_cent(10) {
        data[4] = random.byte_in(0x00, 0x0B);
    }
    if random.per_cent(85) {
        data[5..13].copy_from_slice(&seat.people.record(random));
    }
    if random.per_cent(5) {
        data[1] = random.byte_in(0x00, 0x04);
    }
}

/// The name of a record on the wire; one in six is the hubs' 0000, and about as many are a little or wholly wrong.
fn name(random: &mut Random, seat: Seat) -> [u8; 2] {
    let count = seat.records().clamp(1, 256);
    let k = random.below(count);
    let [high, low] = links::name(k);
    match random.below(32) {
        0 => [high, low ^ (1 << random.below(3))],
        1 => [high ^ (0x10 << random.below(4)), low],
        2 => links::name(count),
        3 => random.bytes(),
        4 => [0x00, random.byte_in(0x01, 0x10)],
        5..=9 => [0x00, 0x00],
        10..=14 => links::name(0),
        _ => [high, low],
    }
}

/// Data 14: mostly right, else 00 as the captures have it, or off.
fn close(random: &mut Random, commands: [u8; 2], data: &mut [u8; 14]) {
    let right = checksum::closing(&[&commands, &data[..13]].concat());
    data[13] = match random.below(20) {
        0 => 0x00,
        1 => right.wrapping_add(1 << random.below(8)),
        2 => random.byte(),
        _ => right,
    };
}
