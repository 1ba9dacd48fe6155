//! "Message bytes": what nine or twenty-three bytes say.

use super::address::Address;

const EXTENDED: u8 = 0x10;
const LARGEST_HOPS: u8 = 0x03;

/// Bits 7 to 5 of the flags, for the three types that are the module's business.
#[derive(Clone, Copy, Debug, PartialEq, Eq)]
pub enum Kind {
    Direct,
    Cleanup,
    Broadcast,
}

/// Data 1 to Data 14, by the numbers that the paper gives them.
#[derive(Clone, Copy, Debug)]
pub struct Data<'a>(pub &'a [u8; 14]);

impl<'a> Data<'a> {
    /// Data `number`, counted from 1.
    pub fn at(self, number: usize) -> u8 {
        self.0[number - 1]
    }

    /// `count` bytes from Data `number` on.
    pub fn from(self, number: usize, count: usize) -> &'a [u8] {
        &self.0[number - 1..number - 1 + count]
    }
}

#[derive(Clone, Copy, Debug)]
pub struct Message<'a> {
    pub from: Address,
    pub to: Address,
    pub flags: u8,
    pub command1: u8,
    pub command2: u8,
    /// There in extended messages only.
    pub data: Option<Data<'a>>,
}

impl<'a> Message<'a> {
    /// Nothing where the length is neither 9 nor 23, or flags bit 4 says otherwise than the length: result 1.
    pub fn read(bytes: &'a [u8]) -> Option<Self> {
        let (head, tail) = bytes.split_first_chunk::<9>()?;
        let data = match tail.len() {
            0 => None,
            _ => Some(Data(tail.try_into().ok()?)),
        };
        let [f0, f1, f2, t0, t1, t2, flags, command1, command2] = *head;
        let message = Self {
            from: [f0, f1, f2],
            to: [t0, t1, t2],
            flags,
            command1,
            command2,
            data,
        };
        (is_extended(flags) == data.is_some()).then_some(message)
    }

    /// Bits 1 and 0 of the flags; how many are left, bits 3 and 2, is not read.
    pub fn largest_hops(&self) -> u8 {
        self.flags & LARGEST_HOPS
    }

    /// Nothing for the other types.
    pub fn kind(&self) -> Option<Kind> {
        match self.flags >> 5 {
            0b000 => Some(Kind::Direct),
            0b010 => Some(Kind::Cleanup),
            0b110 => Some(Kind::Broadcast),
            _ => None,
        }
    }
}

pub fn is_extended(flags: u8) -> bool {
    flags & EXTENDED != 0
}
