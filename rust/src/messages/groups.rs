//! Group broadcasts and cleanups.

use super::people::{self, near};
use super::seat::Seat;
use crate::paper::Address;
use crate::random::Random;

/// A sender and a group; mostly a pair that some record holds.
pub fn member(random: &mut Random, seat: Seat) -> (Address, u8) {
    let [_, group, a0, a1, a2, ..] = seat.held(random);
    let group = match random.per_cent(80) {
        true => group,
        false => people::group(random),
    };
    let from = match random.below(10) {
        0 => random.bytes(),
        1 => seat.people.person(random),
        _ => [a0, a1, a2],
    };
    (from, group)
}

pub fn command(random: &mut Random) -> u8 {
    match random.below(10) {
        0 => random.byte(),
        1 => random.byte_in(0x10, 0x15),
        _ => random.byte_in(0x11, 0x14),
    }
}

/// The To of a broadcast to `group`, now and then spoiled.
pub fn broadcast_to(random: &mut Random, group: u8) -> Address {
    let to = [0x00, 0x00, group];
    match random.per_cent(90) {
        true => to,
        false => near(to, random),
    }
}
