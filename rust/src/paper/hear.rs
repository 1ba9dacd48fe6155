//! "Result numbers", 1 and 3 as far as the message alone gives cause for them: what it is, before anyone asks whose it is.

use super::address::Address;
use super::message::{Kind, Message};

/// A message of a type that modules hear.
#[derive(Clone, Copy, Debug)]
pub struct Heard<'a> {
    pub kind: Kind,
    pub message: Message<'a>,
}

impl Heard<'_> {
    /// The one module that it is for; a broadcast is for any.
    pub fn receiver(&self) -> Option<Address> {
        match self.kind {
            Kind::Direct | Kind::Cleanup => Some(self.message.to),
            Kind::Broadcast => None,
        }
    }
}

/// Result 1, then 3 for another type and for extended but not direct.
pub fn hear(bytes: &[u8]) -> Result<Heard<'_>, u8> {
    let message = Message::read(bytes).ok_or(1)?;
    let kind = message.kind().ok_or(3)?;
    if message.data.is_some() && kind != Kind::Direct {
        return Err(3);
    }
    Ok(Heard { kind, message })
}
