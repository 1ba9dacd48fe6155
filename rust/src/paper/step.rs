//! One call to one module: "Result numbers" with their order.

use super::address::Address;
use super::change::Change;
use super::hear::{hear, Heard};
use super::links::{self, Record};
use super::message::{Kind, Message};
use super::module::{Load, Module};
use super::reply::Reply;
use super::{checksum, extended, groups, standard};

const NOT_LINKED: u8 = 0xFF;
const NOT_LISTED: u8 = 0xFB;

/// What comes back with every message, beside what the call altered.
#[derive(Clone, Copy, Debug, PartialEq, Eq)]
pub struct Outcome {
    pub result: u8,
    /// Bytes of the reply, at the start of the room.
    pub length: usize,
    /// Records read by the search.
    pub read: usize,
}

impl Outcome {
    /// No reply, and no search was made.
    pub fn silence(result: u8) -> Self {
        Self {
            result,
            length: 0,
            read: 0,
        }
    }
}

/// What a well-formed message comes to if the room is long enough.
struct Verdict<'a> {
    result: u8,
    read: usize,
    reply: Reply,
    change: Change<'a>,
}

impl<'a> Verdict<'a> {
    fn carried_out(read: usize, change: Change<'a>, reply: Reply) -> Self {
        Self {
            result: 0,
            read,
            reply,
            change,
        }
    }

    fn refused(result: u8, read: usize, reply: Reply) -> Self {
        Self {
            result,
            read,
            reply,
            change: Change::Nothing,
        }
    }
}

/// Serves one message to a module by itself.
pub fn step(module: &mut Module, links: &mut [u8], message: &[u8], room: &mut [u8]) -> Outcome {
    match hear_alone(module.identity.address, links, message) {
        Ok(heard) => serve(module, links, &heard, room),
        Err(result) => Outcome::silence(result),
    }
}

/// Results 2, 1 and 3, in this order.
fn hear_alone<'a>(own: Address, links: &[u8], bytes: &'a [u8]) -> Result<Heard<'a>, u8> {
    if !links::fit(links) {
        return Err(2);
    }
    let heard = hear(bytes)?;
    match heard.receiver() {
        Some(to) if to != own => Err(3),
        _ => Ok(heard),
    }
}

/// Result 4 and those behind it, for a message that is this module's to hear and fit link memory. Everything is decided and
/// measured before the first byte is altered.
pub fn serve(module: &mut Module, links: &mut [u8], heard: &Heard, room: &mut [u8]) -> Outcome {
    let Heard { kind, message } = heard;
    if !checksum_passes(message) {
        return Outcome::silence(4);
    }
    let (records, _) = links.as_chunks();
    let verdict = decide(module, records, *kind, message);
    let (length, read) = (verdict.reply.length(), verdict.read);
    if room.len() < length {
        return Outcome {
            result: 5,
            length: 0,
            read,
        };
    }
    verdict.reply.lay(module, records, message, room);
    verdict.change.apply(module, links);
    Outcome {
        result: verdict.result,
        length,
        read,
    }
}

/// Standard messages have none to pass.
fn checksum_passes(message: &Message) -> bool {
    message
        .data
        .is_none_or(|data| checksum::passes(message.command1, message.command2, data))
}

fn decide<'a>(
    module: &Module,
    records: &[Record],
    kind: Kind,
    message: &Message<'a>,
) -> Verdict<'a> {
    match kind {
        Kind::Direct => direct(module, records, message),
        Kind::Cleanup => cleanup(module.load, records, message),
        Kind::Broadcast => broadcast(module.load, records, message),
    }
}

fn direct<'a>(module: &Module, records: &[Record], message: &Message<'a>) -> Verdict<'a> {
    let (command1, command2) = (message.command1, message.command2);
    if message.data.is_none() {
        if let Some(reply) = standard::open_to_all(command1, command2) {
            return Verdict::carried_out(0, Change::Nothing, reply);
        }
    }
    let search = links::linked(records, message.from);
    if search.found.is_none() {
        return Verdict::refused(6, search.read, Reply::nak(command1, NOT_LINKED));
    }
    let answer = match message.data {
        None => standard::carry_out(module, command1, command2),
        Some(data) => extended::carry_out(module, records, command1, command2, data),
    };
    match answer {
        Some((change, reply)) => Verdict::carried_out(search.read, change, reply),
        None => Verdict::refused(7, search.read, Reply::nak(command1, NOT_LISTED)),
    }
}

fn broadcast<'a>(load: Load, records: &[Record], message: &Message) -> Verdict<'a> {
    let Some(group) = groups::broadcast_group(message) else {
        return Verdict::refused(8, 0, Reply::None);
    };
    let search = links::responder(records, message.from, group);
    let load = search
        .found
        .and_then(|record| load.after_group(record, message.command1));
    match load {
        Some(load) => Verdict::carried_out(search.read, Change::Load(load), Reply::None),
        None => Verdict::refused(8, search.read, Reply::None),
    }
}

fn cleanup<'a>(load: Load, records: &[Record], message: &Message) -> Verdict<'a> {
    let (command1, group) = (message.command1, message.command2);
    let search = links::responder(records, message.from, group);
    let Some(record) = search.found else {
        return Verdict::refused(6, search.read, Reply::cleanup_nak(command1, NOT_LINKED));
    };
    match load.after_group(record, command1) {
        Some(load) => Verdict::carried_out(
            search.read,
            Change::Load(load),
            Reply::cleanup_ack(command1, group),
        ),
        None => Verdict::refused(7, search.read, Reply::cleanup_nak(command1, NOT_LISTED)),
    }
}
