//! "Direct commands, extended".

use super::change::Change;
use super::links::{self, Record};
use super::message::Data;
use super::module::{Load, Module};
use super::reply::Reply;

type Answer<'a> = (Change<'a>, Reply);

/// Nothing where the command, or a number in it, is not listed.
pub fn carry_out<'a>(
    module: &Module,
    records: &[Record],
    command1: u8,
    command2: u8,
    data: Data<'a>,
) -> Option<Answer<'a>> {
    match (command1, command2) {
        (0x20, 0x00..=0x0F) => Some(set_flag(module.flags, command2)),
        (0x2E, 0x00) => properties(module.load, data),
        (0x2F, 0x00) => database(records, data),
        _ => {
            let load = module.load.after_extended(command1, data)?;
            Some((Change::Load(load), Reply::ack(command1, command2)))
        }
    }
}

/// An even number sets the bit that is half of it, the odd one behind it clears the same bit.
fn set_flag(flags: u8, command2: u8) -> Answer<'static> {
    let bit = 1 << (command2 / 2);
    let flags = match command2 % 2 {
        0 => flags | bit,
        _ => flags & !bit,
    };
    (Change::Flags(flags), Reply::ack(0x20, command2))
}

fn properties(load: Load, data: Data) -> Option<Answer> {
    let value = data.at(3);
    let change = match (data.at(2), value) {
        (0x00, _) => {
            let data1 = data.at(1);
            return Some((Change::Nothing, Reply::Properties { data1 }));
        }
        (0x04, house) => Change::X10 {
            house,
            unit: data.at(4),
        },
        (0x07, 0x11..=0x7F) => Change::Led(value),
        (what, _) => Change::Load(load.after_property(what, value)?),
    };
    Some((change, Reply::ack(0x2E, 0x00)))
}

fn database<'a>(records: &[Record], data: Data<'a>) -> Option<Answer<'a>> {
    let k = links::named([data.at(3), data.at(4)], records.len())?;
    match (data.at(2), data.at(5)) {
        (0x00, limit) => Some(get(&records[k..], k, limit, data.at(1))),
        (0x02, length @ 1..=8) => {
            let bytes = data.from(6, usize::from(length));
            Some((Change::Record { k, bytes }, Reply::ack(0x2F, 0x00)))
        }
        _ => None,
    }
}

/// `onward` are the records from `first` up.
fn get(onward: &[Record], first: usize, limit: u8, data1: u8) -> Answer<'static> {
    let through_end_mark = match onward.iter().position(links::end_mark) {
        Some(end_mark) => end_mark + 1,
        None => onward.len(),
    };
    let count = match limit {
        0x00 => through_end_mark,
        _ => through_end_mark.min(usize::from(limit)),
    };
    let reply = Reply::Records {
        data1,
        first,
        count,
    };
    (Change::Nothing, reply)
}
