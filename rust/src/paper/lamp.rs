//! What a dimmer's own commands and groups make of its load.

use super::links::Record;

#[derive(Clone, Copy, Debug, PartialEq, Eq)]
pub struct Lamp {
    pub level: u8,
    pub ramp: u8,
    pub on_level: u8,
}

impl Lamp {
    pub const FRESH: Self = Self {
        level: 0x00,
        ramp: 0x1F,
        on_level: 0xFF,
    };

    /// After a standard command that sets the level; nothing for one that does not, or whose number is not listed.
    pub fn after_standard(self, command1: u8, command2: u8) -> Option<Self> {
        let level = match (command1, command2) {
            (0x11 | 0x12 | 0x21, _) => command2,
            (0x13 | 0x14 | 0x2F, _) => 0x00,
            (0x15, _) => self.level.saturating_add(8),
            (0x16, _) => self.level.saturating_sub(8),
            (0x2E, _) => command2 & 0xF0 | 0x0F,
            (0x39, 0x00..=0x64) => from_per_cent(command2),
            _ => return None,
        };
        Some(Self { level, ..self })
    }

    /// What 19 shows.
    pub fn shown(self, command2: u8) -> Option<u8> {
        match command2 {
            0x00 => Some(self.level),
            0x06 => Some(per_cent(self.level)),
            _ => None,
        }
    }

    /// After extended 2E with Data 2 = `what`.
    pub fn after_property(self, what: u8, value: u8) -> Option<Self> {
        match (what, value) {
            (0x05, 0x00..=0x1F) => Some(Self {
                ramp: value,
                ..self
            }),
            (0x06, _) => Some(Self {
                on_level: value,
                ..self
            }),
            _ => None,
        }
    }

    /// After a group's command, by the record that decides.
    pub fn after_group(self, record: &Record, command1: u8) -> Option<Self> {
        let level = match command1 {
            0x11 | 0x12 => record[5],
            0x13 | 0x14 => 0x00,
            _ => return None,
        };
        Some(Self { level, ..self })
    }
}

fn per_cent(level: u8) -> u8 {
    ((100 * u16::from(level) + 127) / 255) as u8
}

fn from_per_cent(per_cent: u8) -> u8 {
    ((255 * u16::from(per_cent) + 50) / 100) as u8
}
