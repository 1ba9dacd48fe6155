//! Where messages go: a module's address, the link memory beside it, and the people around it.

use super::people::People;
use crate::paper::links::{Record, RECORD};
use crate::paper::Address;
use crate::random::Random;

#[derive(Clone, Copy)]
pub struct Seat<'a> {
    pub address: Address,
    pub links: &'a [u8],
    pub people: &'a People,
}

impl Seat<'_> {
    /// A record that link memory holds, live or not.
    pub fn held(self, random: &mut Random) -> Record {
        match self.records() {
            0 => self.people.record(random),
            count => self.links.as_chunks().0[random.below(count)],
        }
    }

    pub fn records(self) -> usize {
        self.links.len() / RECORD
    }
}
