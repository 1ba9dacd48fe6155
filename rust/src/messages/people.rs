//! The people who send, and the records that modules hold of them.

use crate::paper::links::{Record, RECORD};
use crate::paper::Address;
use crate::random::Random;

const FEW_GROUPS: [u8; 5] = [0x00, 0x01, 0x02, 0x03, 0xFF];
const SIZES: [usize; 8] = [1, 2, 3, 7, 16, 17, 255, 256];

#[derive(Clone)]
pub struct People([Address; 5]);

impl People {
    pub fn any(random: &mut Random) -> Self {
        Self(std::array::from_fn(|_| random.bytes()))
    }

    /// Puts somebody with this address in the place of another.
    pub fn admit(&mut self, address: Address) {
        self.0[0] = address;
    }

    pub fn person(&self, random: &mut Random) -> Address {
        random.pick(&self.0)
    }

    /// A record as a module might hold it: most are in use, most belong to somebody here, most name a socket or nearly one.
    pub fn record(&self, random: &mut Random) -> Record {
        let mut record: Record = random.bytes();
        record[0] |= 0x02;
        if random.per_cent(80) {
            record[0] |= 0x80;
        }
        record[1] = group(random);
        if random.per_cent(80) {
            record[2..5].copy_from_slice(&self.person(random));
        }
        if random.per_cent(20) {
            record[5] = 0x00;
        }
        if random.per_cent(80) {
            record[7] = random.pick(&[0x01, 0x02, 0x01, 0x02, 0x00, 0x03]);
        }
        record
    }

    /// `count` records with an end mark somewhere or nowhere, and buried ones behind it.
    pub fn links(&self, random: &mut Random, count: usize) -> Vec<u8> {
        let mut links = Vec::with_capacity(count * RECORD);
        let blank_behind = random.per_cent(50);
        let end_mark = match random.per_cent(40) {
            true => count,
            false => random.below(count),
        };
        for k in 0..count {
            let mut record = self.record(random);
            if k == end_mark {
                record[0] &= !0x02;
            }
            if k >= end_mark && blank_behind {
                record = [0; RECORD];
            }
            links.extend(record);
        }
        links
    }
}

/// How many records fit link memory has.
pub fn any_size(random: &mut Random) -> usize {
    match random.per_cent(50) {
        true => random.pick(&SIZES),
        false => 1 + random.below(256),
    }
}

pub fn group(random: &mut Random) -> u8 {
    match random.per_cent(90) {
        true => random.pick(&FEW_GROUPS),
        false => random.byte(),
    }
}

/// The same address but for one bit.
pub fn near(mut address: Address, random: &mut Random) -> Address {
    address[random.below(3)] ^= 1 << random.below(8);
    address
}
