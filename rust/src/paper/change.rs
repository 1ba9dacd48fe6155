//! What a message that is carried out leaves behind.

use super::links::RECORD;
use super::module::{Load, Module};

#[derive(Clone, Copy, Debug)]
pub enum Change<'a> {
    Nothing,
    Load(Load),
    Flags(u8),
    X10 { house: u8, unit: u8 },
    Led(u8),
    Record { k: usize, bytes: &'a [u8] },
}

impl Change<'_> {
    pub fn apply(self, module: &mut Module, links: &mut [u8]) {
        match self {
            Self::Nothing => {}
            Self::Load(load) => module.load = load,
            Self::Flags(flags) => module.flags = flags,
            Self::X10 { house, unit } => (module.house, module.unit) = (house, unit),
            Self::Led(led) => module.led = led,
            Self::Record { k, bytes } => {
                links[k * RECORD..][..bytes.len()].copy_from_slice(bytes);
                module.delta = module.delta.wrapping_add(1);
            }
        }
    }
}
