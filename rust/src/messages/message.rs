//! Messages of all kinds and lengths, whole and damaged.

use super::people::near;
use super::seat::Seat;
use super::{direct, groups};
use crate::paper::Address;
use crate::random::Random;

const DIRECT: u8 = 0b000;
const CLEANUP: u8 = 0b010;
const BROADCAST: u8 = 0b110;
const OTHER_TYPES: [u8; 5] = [0b001, 0b011, 0b100, 0b101, 0b111];

pub fn message(random: &mut Random, seat: Seat) -> Vec<u8> {
    match random.below(100) {
        0..=33 => standard(random, seat),
        34..=68 => extended(random, seat),
        69..=78 => cleanup(random, seat),
        79..=89 => broadcast(random, seat),
        90 => with_type(random, standard, seat, &OTHER_TYPES),
        91 => with_type(random, extended, seat, &OTHER_TYPES),
        92 => with_type(random, extended, seat, &[CLEANUP, BROADCAST]),
        93..=96 => damaged(random, seat),
        _ => garbage(random, 40),
    }
}

/// Up to `longest` bytes of anything.
pub fn garbage(random: &mut Random, longest: usize) -> Vec<u8> {
    (0..random.below(longest + 1))
        .map(|_| random.byte())
        .collect()
}

fn standard(random: &mut Random, seat: Seat) -> Vec<u8> {
    let from = sender(random, seat);
    let to = receiver(random, seat);
    let commands = direct::standard(random);
    lay(from, to, flags(random, DIRECT, false), commands)
}

fn extended(random: &mut Random, seat: Seat) -> Vec<u8> {
    let from = sender(random, seat);
    let to = receiver(random, seat);
    let (commands, data) = direct::extended(random, seat);
    let mut message = lay(from, to, flags(random, DIRECT, true), commands);
    message.extend(data);
    message
}

fn cleanup(random: &mut Random, seat: Seat) -> Vec<u8> {
    let (from, group) = groups::member(random, seat);
    let to = receiver(random, seat);
    let commands = [groups::command(random), group];
    lay(from, to, flags(random, CLEANUP, false), commands)
}

fn broadcast(random: &mut Random, seat: Seat) -> Vec<u8> {
    let (from, group) = groups::member(random, seat);
    let to = groups::broadcast_to(random, group);
    let commands = [groups::command(random), random.byte()];
    lay(from, to, flags(random, BROADCAST, false), commands)
}

/// A message of `make`, marked as one of `types`.
fn with_type(
    random: &mut Random,
    make: fn(&mut Random, Seat) -> Vec<u8>,
    seat: Seat,
    types: &[u8],
) -> Vec<u8> {
    let mut message = make(random, seat);
    message[6] = message[6] & 0x1F | random.pick(types) << 5;
    message
}

/// A message whose length and flags bit 4 disagree, or whose length is wrong by little.
fn damaged(random: &mut Random, seat: Seat) -> Vec<u8> {
    let mut message = match random.per_cent(50) {
        true => standard(random, seat),
        false => extended(random, seat),
    };
    match random.below(3) {
        0 => message[6] ^= 0x10,
        1 => message.truncate(message.len() - 1 - random.below(2)),
        _ => message.push(random.byte()),
    }
    message
}

fn lay(from: Address, to: Address, flags: u8, commands: [u8; 2]) -> Vec<u8> {
    let mut message = Vec::with_capacity(23);
    message.extend(from);
    message.extend(to);
    message.push(flags);
    message.extend(commands);
    message
}

fn flags(random: &mut Random, kind: u8, extended: bool) -> u8 {
    kind << 5 | u8::from(extended) << 4 | random.byte_in(0x0, 0xF)
}

fn sender(random: &mut Random, seat: Seat) -> Address {
    match random.below(20) {
        0 => random.bytes(),
        1 => seat.address,
        2 => near(seat.people.person(random), random),
        3..=12 => seat.people.person(random),
        _ => {
            let [_, _, a0, a1, a2, ..] = seat.held(random);
            [a0, a1, a2]
        }
    }
}

fn receiver(random: &mut Random, seat: Seat) -> Address {
    let own = seat.address;
    match random.below(50) {
        0 => random.bytes(),
        1 => near(own, random),
        _ => own,
    }
}
