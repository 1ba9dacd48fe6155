//! Request 1: what an outlet's own commands and groups make of its two sockets.

use super::links::Record;

/// Data 1 of an extended command, and D3 of a record.
const TOP: u8 = 0x01;
const BOTTOM: u8 = 0x02;

#[derive(Clone, Copy, Debug, PartialEq, Eq)]
pub struct Sockets {
    pub top: bool,
    pub bottom: bool,
}

impl Sockets {
    pub const FRESH: Self = Self {
        top: false,
        bottom: false,
    };

    /// Standard 11 and 13 are for the top socket; no other standard command switches one.
    pub fn after_standard(self, command1: u8) -> Option<Self> {
        let top = ordered(command1)?;
        Some(Self { top, ..self })
    }

    /// The same two as extended messages are for the bottom socket, which Data 1 must name.
    pub fn after_extended(self, command1: u8, data1: u8) -> Option<Self> {
        let bottom = ordered(command1)?;
        (data1 == BOTTOM).then_some(Self { bottom, ..self })
    }

    /// What 19 shows.
    pub fn shown(self, command2: u8) -> Option<u8> {
        match command2 {
            0x00 if self.top => Some(0xFF),
            0x00 => Some(0x00),
            0x01 => Some(u8::from(self.bottom) << 1 | u8::from(self.top)),
            _ => None,
        }
    }

    /// After a group's command, by the record that decides; nothing where its D3 names neither socket.
    pub fn after_group(self, record: &Record, command1: u8) -> Option<Self> {
        let [_, _, _, _, _, d1, _, d3] = *record;
        let on = match command1 {
            0x11 | 0x12 => d1 != 0x00,
            0x13 | 0x14 => false,
            _ => return None,
        };
        match d3 {
            TOP => Some(Self { top: on, ..self }),
            BOTTOM => Some(Self { bottom: on, ..self }),
            _ => None,
        }
    }
}

fn ordered(command1: u8) -> Option<bool> {
    match command1 {
        0x11 => Some(true),
        0x13 => Some(false),
        _ => None,
    }
}
