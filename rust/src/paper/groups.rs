//! "Groups": which broadcasts concern one at all.

use super::message::Message;

/// The group of a broadcast that is addressed as one and orders what a group can be ordered.
pub fn broadcast_group(message: &Message) -> Option<u8> {
    match (message.to, message.command1) {
        ([0x00, 0x00, group], 0x11..=0x14) => Some(group),
        _ => None,
    }
}
