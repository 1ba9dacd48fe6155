//! Examples of a class: a message to a row of modules, served by the library and by the second reading.

use crate::example::{blank, laid, standard, ENOUGH, LINKED, LINKS};
use crate::left::Left;
use crate::library;
use crate::paper::{Address, Identity, Module, ModuleKind, Outcome, BENCH};

/// The address of a seat. The first has the bench's, and each other the next one.
pub fn address(seat: usize) -> Address {
    let [high, middle, low] = BENCH.address;
    [high, middle, low + seat as u8]
}

pub fn direct(from: Address, seat: usize, command1: u8, command2: u8) -> Vec<u8> {
    standard(from, address(seat), 0x0F, [command1, command2])
}

pub fn extended(from: Address, seat: usize, commands: [u8; 2], data: [u8; 14]) -> Vec<u8> {
    let mut message = standard(from, address(seat), 0x1F, commands);
    message.extend(data);
    message
}

pub fn cleanup(from: Address, seat: usize, command1: u8, group: u8) -> Vec<u8> {
    standard(from, address(seat), 0x4F, [command1, group])
}

pub fn broadcast(from: Address, command1: u8, group: u8) -> Vec<u8> {
    standard(from, [0x00, 0x00, group], 0xCF, [command1, 0x00])
}

/// Get Database with Data 1 = 07 and no limit, as in P13.
pub fn get(seat: usize, name: [u8; 2]) -> Vec<u8> {
    let mut data = [0x00; 14];
    data[0] = 0x07;
    data[2..4].copy_from_slice(&name);
    extended(LINKED, seat, [0x2F, 0x00], data)
}

/// A reply of one standard message from a seat.
pub fn reply(seat: usize, to: Address, flags: u8, command1: u8, command2: u8) -> Vec<u8> {
    standard(address(seat), to, flags, [command1, command2])
}

/// A message on its way to a class.
#[derive(Clone)]
pub struct ClassExample {
    pub row: Vec<Module>,
    pub links: Vec<u8>,
    pub room: usize,
    pub message: Vec<u8>,
}

/// What it must come to; what is not named stays as it was.
#[derive(Clone)]
pub struct ClassComes {
    pub result: u8,
    pub read: usize,
    pub reply: Vec<u8>,
    pub row: Vec<Module>,
    pub links: Vec<u8>,
}

impl ClassComes {
    /// The link memory of one seat; all have as much as in the examples.
    pub fn share(&mut self, seat: usize) -> &mut [u8] {
        share(&mut self.links, seat)
    }
}

impl ClassExample {
    /// `message` to fresh modules of these kinds, each of which has the examples' link memory for its share.
    pub fn of(kinds: &[ModuleKind], message: Vec<u8>) -> Self {
        let seats = kinds.iter().enumerate();
        Self {
            row: seats.map(|(seat, &kind)| fresh(kind, seat)).collect(),
            links: LINKS.repeat(kinds.len()),
            room: ENOUGH,
            message,
        }
    }

    /// With modules that are not fresh, or sit elsewhere.
    pub fn starting(mut self, change: impl Fn(&mut [Module])) -> Self {
        change(&mut self.row);
        self
    }

    /// With other link memory as a whole.
    pub fn links(mut self, links: &[u8]) -> Self {
        self.links = links.to_vec();
        self
    }

    /// With other link memory at one seat.
    pub fn share(mut self, seat: usize, links: &[u8; LINKS.len()]) -> Self {
        share(&mut self.links, seat).copy_from_slice(links);
        self
    }

    pub fn room(mut self, room: usize) -> Self {
        self.room = room;
        self
    }

    /// Runs both implementations and compares all that they leave behind.
    pub fn comes_to(
        &self,
        result: u8,
        read: usize,
        reply: &[u8],
        change: impl Fn(&mut ClassComes),
    ) {
        let mut comes = ClassComes {
            result,
            read,
            reply: reply.to_vec(),
            row: self.row.clone(),
            links: self.links.clone(),
        };
        change(&mut comes);
        self.run_library(&comes);
        self.run_paper(&comes);
    }

    /// The same for an example that alters neither modules nor link memory.
    pub fn only_answers(&self, result: u8, read: usize, reply: &[u8]) {
        self.comes_to(result, read, reply, |_| {});
    }

    fn run_library(&self, comes: &ClassComes) {
        let (mut images, mut links) = (library::images(&self.row), self.links.clone());
        let (count, room) = (self.row.len(), blank(self.room));
        let left = Left::by_class_library(&mut images, count, &mut links, &self.message, room);
        self.compare("library", &left, comes);
    }

    fn run_paper(&self, comes: &ClassComes) {
        let (mut row, mut links) = (self.row.clone(), self.links.clone());
        let left = Left::by_class_paper(&mut row, &mut links, &self.message, blank(self.room));
        self.compare("second reading", &left, comes);
    }

    fn compare(&self, by: &str, left: &Left, comes: &ClassComes) {
        let expected = Left {
            outcome: Outcome {
                result: comes.result,
                length: comes.reply.len(),
                read: comes.read,
            },
            images: library::images(&comes.row),
            links: comes.links.clone(),
            room: laid(&comes.reply, self.room),
        };
        let (seats, message) = (self.row.len(), &self.message);
        left.assert_is(&expected, &format!("{by}, {seats} seats, {message:02X?}"));
    }
}

fn fresh(kind: ModuleKind, seat: usize) -> Module {
    let identity = Identity {
        address: address(seat),
        ..kind.bench()
    };
    Module::fresh(kind, identity)
}

fn share(links: &mut [u8], seat: usize) -> &mut [u8] {
    &mut links[seat * LINKS.len()..][..LINKS.len()]
}
