//! Examples as the paper gives them, each run by the library and by the second reading.

use crate::left::Left;
use crate::library;
use crate::paper::lamp::Lamp;
use crate::paper::sockets::Sockets;
use crate::paper::{Address, Load, Module, ModuleKind, Outcome, BENCH};

pub const LINKED: Address = [0xAA, 0xBB, 0xCC];
pub const STRANGER: Address = [0x11, 0x22, 0x33];

/// "Bench examples": the link memory that each starts from.
#[rustfmt::skip]
pub const LINKS: [u8; 16] = [
    0xA2, 0x01, 0xAA, 0xBB, 0xCC, 0x80, 0x1C, 0x01,
    0x00, 0x00, 0x00, 0x00, 0x00, 0x00, 0x00, 0x00,
];

/// What a room holds before the call.
const BLANK: u8 = 0xEE;
pub const ENOUGH: usize = 64;

/// A message on its way to a module: all that the paper lets an example start from.
#[derive(Clone)]
pub struct Example {
    pub module: Module,
    pub links: Vec<u8>,
    pub room: usize,
    pub message: Vec<u8>,
}

/// What it must come to; what is not named stays as it was.
#[derive(Clone)]
pub struct Comes {
    pub result: u8,
    pub read: usize,
    pub reply: Vec<u8>,
    pub module: Module,
    pub links: Vec<u8>,
}

impl Example {
    /// `message` to the dimmer, from the start that the paper describes.
    pub fn of(message: Vec<u8>) -> Self {
        Self {
            module: Module::bench(ModuleKind::Dimmer),
            links: LINKS.to_vec(),
            room: ENOUGH,
            message,
        }
    }

    pub fn direct(from: Address, command1: u8, command2: u8) -> Self {
        Self::of(standard(from, BENCH.address, 0x0F, [command1, command2]))
    }

    pub fn extended(from: Address, command1: u8, command2: u8, data: [u8; 14]) -> Self {
        let mut message = standard(from, BENCH.address, 0x1F, [command1, command2]);
        message.extend(data);
        Self::of(message)
    }

    pub fn cleanup(from: Address, command1: u8, group: u8) -> Self {
        Self::of(standard(from, BENCH.address, 0x4F, [command1, group]))
    }

    pub fn broadcast(from: Address, command1: u8, group: u8) -> Self {
        Self::of(standard(from, [0x00, 0x00, group], 0xCF, [command1, 0x00]))
    }

    /// The same to a fresh outlet at the same address.
    pub fn to_outlet(mut self) -> Self {
        self.module = Module::bench(ModuleKind::Outlet);
        self
    }

    /// With a module that is not fresh.
    pub fn starting(mut self, change: impl Fn(&mut Module)) -> Self {
        change(&mut self.module);
        self
    }

    pub fn links(mut self, links: &[u8]) -> Self {
        self.links = links.to_vec();
        self
    }

    pub fn room(mut self, room: usize) -> Self {
        self.room = room;
        self
    }

    /// Runs both implementations and compares all that they leave behind.
    pub fn comes_to(&self, result: u8, read: usize, reply: &[u8], change: impl Fn(&mut Comes)) {
        let mut comes = Comes {
            result,
            read,
            reply: reply.to_vec(),
            module: self.module,
            links: self.links.clone(),
        };
        change(&mut comes);
        self.run_library(&comes);
        self.run_paper(&comes);
    }

    /// The same for an example that alters neither module nor link memory.
    pub fn only_answers(&self, result: u8, read: usize, reply: &[u8]) {
        self.comes_to(result, read, reply, |_| {});
    }

    fn run_library(&self, comes: &Comes) {
        let (mut image, mut links) = (library::image(&self.module), self.links.clone());
        let left = Left::by_library(&mut image, &mut links, &self.message, blank(self.room));
        self.compare("library", &left, comes);
    }

    fn run_paper(&self, comes: &Comes) {
        let (mut module, mut links) = (self.module, self.links.clone());
        let left = Left::by_paper(&mut module, &mut links, &self.message, blank(self.room));
        self.compare("second reading", &left, comes);
    }

    fn compare(&self, by: &str, left: &Left, comes: &Comes) {
        let expected = Left {
            outcome: Outcome {
                result: comes.result,
                length: comes.reply.len(),
                read: comes.read,
            },
            images: library::image(&comes.module).to_vec(),
            links: comes.links.clone(),
            room: laid(&comes.reply, self.room),
        };
        left.assert_is(&expected, &format!("{by}, message {:02X?}", self.message));
    }
}

/// A reply room before the call.
pub fn blank(length: usize) -> Vec<u8> {
    vec![BLANK; length]
}

/// The same with a reply at its start.
pub fn laid(reply: &[u8], length: usize) -> Vec<u8> {
    let mut room = blank(length);
    room[..reply.len()].copy_from_slice(reply);
    room
}

/// The load of a dimmer.
pub fn lamp(module: &mut Module) -> &mut Lamp {
    match &mut module.load {
        Load::Lamp(lamp) => lamp,
        Load::Sockets(_) => panic!("an outlet has no lamp"),
    }
}

/// The load of an outlet.
pub fn sockets(module: &mut Module) -> &mut Sockets {
    match &mut module.load {
        Load::Lamp(_) => panic!("a dimmer has no sockets"),
        Load::Sockets(sockets) => sockets,
    }
}

/// A reply of one standard message from the bench's module.
pub fn reply(to: Address, flags: u8, command1: u8, command2: u8) -> Vec<u8> {
    standard(BENCH.address, to, flags, [command1, command2])
}

/// The nine bytes of a standard message.
pub fn standard(from: Address, to: Address, flags: u8, commands: [u8; 2]) -> Vec<u8> {
    [&from[..], &to, &[flags], &commands].concat()
}
