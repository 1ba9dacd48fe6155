//! "Link memory": records, the search through them with its count, and their names on the wire.

use super::address::Address;

pub const RECORD: usize = 8;
const LONGEST: usize = 2048;
const FIRST_NAME: u16 = 0x0FFF;
/// Request 3: what hub software calls the first record.
const HUBS_FIRST_NAME: u16 = 0x0000;

const IN_USE: u8 = 0x80;
const CONTROLLER: u8 = 0x40;
const EVER_USED: u8 = 0x02;

/// Flags, group, address (3), D1, D2, D3.
pub type Record = [u8; RECORD];

/// Where a search stopped: what it found, and how many records it looked at.
#[derive(Clone, Copy, Debug)]
pub struct Search<'a> {
    pub found: Option<&'a Record>,
    pub read: usize,
}

/// Result 2 is given where this is false.
pub fn fit(links: &[u8]) -> bool {
    !links.is_empty() && links.len() <= LONGEST && links.len().is_multiple_of(RECORD)
}

pub fn end_mark(record: &Record) -> bool {
    record[0] & EVER_USED == 0
}

/// The search that decides whether `sender` is linked: controller or responder, any group.
pub fn linked(records: &[Record], sender: Address) -> Search<'_> {
    search(records, |record| record[2..5] == sender)
}

/// The search for the responder record of `sender` in `group`.
pub fn responder(records: &[Record], sender: Address, group: u8) -> Search<'_> {
    search(records, |record| {
        record[0] & CONTROLLER == 0 && record[1] == group && record[2..5] == sender
    })
}

/// No record behind an end mark is looked at, so a record found here is live.
fn search(records: &[Record], wanted: impl Fn(&Record) -> bool) -> Search<'_> {
    for (k, record) in records.iter().enumerate() {
        if end_mark(record) {
            return Search {
                found: None,
                read: k + 1,
            };
        }
        if record[0] & IN_USE != 0 && wanted(record) {
            return Search {
                found: Some(record),
                read: k + 1,
            };
        }
    }
    Search {
        found: None,
        read: records.len(),
    }
}

/// The name that record `k` is shown by.
pub fn name(k: usize) -> [u8; 2] {
    (FIRST_NAME - (RECORD * k) as u16).to_be_bytes()
}

/// Which of `count` records a name means; most names mean none.
pub fn named(name: [u8; 2], count: usize) -> Option<usize> {
    let k = match u16::from_be_bytes(name) {
        HUBS_FIRST_NAME => 0,
        name => {
            let below = usize::from(FIRST_NAME.checked_sub(name)?);
            below.is_multiple_of(RECORD).then_some(below / RECORD)?
        }
    };
    (k < count).then_some(k)
}
