//! The commands that each kind of module has rows of its own for.

use super::lamp::Lamp;
use super::links::Record;
use super::message::Data;
use super::module::Load;

impl Load {
    pub fn after_standard(self, command1: u8, command2: u8) -> Option<Self> {
        match self {
            Self::Lamp(lamp) => lamp.after_standard(command1, command2).map(Self::Lamp),
            Self::Sockets(sockets) => sockets.after_standard(command1).map(Self::Sockets),
        }
    }

    /// After an extended command that is not one of 20, 2E and 2F; a dimmer has none.
    pub fn after_extended(self, command1: u8, data: Data) -> Option<Self> {
        match self {
            Self::Lamp(_) => None,
            Self::Sockets(sockets) => sockets
                .after_extended(command1, data.at(1))
                .map(Self::Sockets),
        }
    }

    /// What 19 shows in Command 2.
    pub fn shown(self, command2: u8) -> Option<u8> {
        match self {
            Self::Lamp(lamp) => lamp.shown(command2),
            Self::Sockets(sockets) => sockets.shown(command2),
        }
    }

    /// After extended 2E with Data 2 = `what`; an outlet has no ramp and no on level to set.
    pub fn after_property(self, what: u8, value: u8) -> Option<Self> {
        match self {
            Self::Lamp(lamp) => lamp.after_property(what, value).map(Self::Lamp),
            Self::Sockets(_) => None,
        }
    }

    /// The ramp and the on level of Get Properties; an outlet shows the fresh ones.
    pub fn ramp_and_on_level(self) -> [u8; 2] {
        match self {
            Self::Lamp(lamp) => [lamp.ramp, lamp.on_level],
            Self::Sockets(_) => [Lamp::FRESH.ramp, Lamp::FRESH.on_level],
        }
    }

    /// "Groups": what the deciding responder record has ready for `command1`; nothing for commands that groups do not have.
    pub fn after_group(self, record: &Record, command1: u8) -> Option<Self> {
        match self {
            Self::Lamp(lamp) => lamp.after_group(record, command1).map(Self::Lamp),
            Self::Sockets(sockets) => sockets.after_group(record, command1).map(Self::Sockets),
        }
    }
}
