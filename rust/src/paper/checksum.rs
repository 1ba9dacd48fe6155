//! "Message bytes", the checksum of extended messages.

use super::message::Data;

/// Whether an extended message passes: its sum is right, or nobody asks for it.
pub fn passes(command1: u8, command2: u8, data: Data) -> bool {
    exempt(command1, data) || sum(data.0, command1.wrapping_add(command2)) == 0
}

/// The Data 14 that belongs behind Command 1 to Data 13.
pub fn closing(bytes: &[u8]) -> u8 {
    sum(bytes, 0).wrapping_neg()
}

/// Get Properties and Get Database, known by Command 1 and Data 2 alone.
fn exempt(command1: u8, data: Data) -> bool {
    matches!(command1, 0x2E | 0x2F) && data.at(2) == 0x00
}

fn sum(bytes: &[u8], start: u8) -> u8 {
    bytes
        .iter()
        .fold(start, |sum, &byte| sum.wrapping_add(byte))
}
