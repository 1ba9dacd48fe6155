//! Replies: "Message bytes" for their flags and order, "Direct commands, extended" for their data.

use super::address::Address;
use super::links::{self, Record};
use super::message::Message;
use super::module::Module;

const STANDARD: usize = 9;
const EXTENDED: usize = 23;

/// Type bits and extended bit of each reply; its hops are the request's.
const ACK: u8 = 0x20;
const NAK: u8 = 0xA0;
const CLEANUP_ACK: u8 = 0x60;
const CLEANUP_NAK: u8 = 0xE0;
const EXTENDED_DATA: u8 = 0x10;
const ID_BROADCAST: u8 = 0x80;

/// The reply that is due; it is measured before a byte of it is laid.
#[derive(Clone, Copy, Debug)]
pub enum Reply {
    None,
    One([u8; 3]),
    Identity {
        command2: u8,
    },
    Properties {
        data1: u8,
    },
    Records {
        data1: u8,
        first: usize,
        count: usize,
    },
}

impl Reply {
    pub fn ack(command1: u8, command2: u8) -> Self {
        Self::One([ACK, command1, command2])
    }

    pub fn nak(command1: u8, cause: u8) -> Self {
        Self::One([NAK, command1, cause])
    }

    pub fn cleanup_ack(command1: u8, command2: u8) -> Self {
        Self::One([CLEANUP_ACK, command1, command2])
    }

    pub fn cleanup_nak(command1: u8, cause: u8) -> Self {
        Self::One([CLEANUP_NAK, command1, cause])
    }

    pub fn length(self) -> usize {
        match self {
            Self::None => 0,
            Self::One(_) => STANDARD,
            Self::Identity { .. } => 2 * STANDARD,
            Self::Properties { .. } => STANDARD + EXTENDED,
            Self::Records { count, .. } => STANDARD + count * EXTENDED,
        }
    }

    /// Lays the reply to `request` at the start of a room that is long enough for it.
    pub fn lay(self, module: &Module, records: &[Record], request: &Message, room: &mut [u8]) {
        let route = Route {
            from: module.identity.address,
            to: request.from,
            hops: request.largest_hops(),
        };
        match self {
            Self::None => {}
            Self::One(end) => {
                put_standard(room, route, end);
            }
            Self::Identity { command2 } => {
                let rest = put_standard(room, route, [ACK, 0x10, command2]);
                put_id_broadcast(rest, route, module);
            }
            Self::Properties { data1 } => {
                let rest = put_standard(room, route, [ACK, 0x2E, 0x00]);
                put_extended(rest, route, 0x2E, properties(module, data1));
            }
            Self::Records {
                data1,
                first,
                count,
            } => {
                let mut rest = put_standard(room, route, [ACK, 0x2F, 0x00]);
                for (k, record) in records.iter().enumerate().skip(first).take(count) {
                    rest = put_extended(rest, route, 0x2F, record_data(data1, k, record));
                }
            }
        }
    }
}

/// Who a message is from, who it goes to, and how far at most.
#[derive(Clone, Copy)]
struct Route {
    from: Address,
    to: Address,
    hops: u8,
}

fn put_id_broadcast(room: &mut [u8], route: Route, module: &Module) {
    let identity = &module.identity;
    let to = [identity.category, identity.subcategory, identity.firmware];
    let end = [ID_BROADCAST, 0x01, identity.hardware];
    put_standard(room, Route { to, ..route }, end);
}

fn properties(module: &Module, data1: u8) -> [u8; 14] {
    let Module {
        house, unit, led, ..
    } = *module;
    let [ramp, on_level] = module.load.ramp_and_on_level();
    [
        data1, 0x01, 0x00, 0x00, house, unit, ramp, on_level, led, 0x00, 0x01, 0x00, 0x00, 0x00,
    ]
}

fn record_data(data1: u8, k: usize, record: &Record) -> [u8; 14] {
    let [high, low] = links::name(k);
    let [flags, group, a0, a1, a2, d1, d2, d3] = *record;
    [
        data1, 0x01, high, low, 0x00, flags, group, a0, a1, a2, d1, d2, d3, 0x00,
    ]
}

/// Lays one standard message of type `end[0]` with commands behind it; what it returns is the room behind it. Request 4: the
/// hops are fresh, so as many are left as there are at most.
fn put_standard(room: &mut [u8], route: Route, end: [u8; 3]) -> &mut [u8] {
    let [kind, command1, command2] = end;
    let (place, rest) = room.split_at_mut(STANDARD);
    place[0..3].copy_from_slice(&route.from);
    place[3..6].copy_from_slice(&route.to);
    let flags = kind | route.hops << 2 | route.hops;
    place[6..9].copy_from_slice(&[flags, command1, command2]);
    rest
}

/// Lays one message of extended data; what it returns is the room behind it.
fn put_extended(room: &mut [u8], route: Route, command1: u8, data: [u8; 14]) -> &mut [u8] {
    let rest = put_standard(room, route, [EXTENDED_DATA, command1, 0x00]);
    let (place, rest) = rest.split_at_mut(data.len());
    place.copy_from_slice(&data);
    rest
}
