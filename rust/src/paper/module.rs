//! "The module we simulate", and the second kind of request 1: a module is these values and nothing else.

use super::address::Address;
use super::lamp::Lamp;
use super::sockets::Sockets;

#[derive(Clone, Copy, Debug, PartialEq, Eq)]
pub struct Identity {
    pub address: Address,
    pub category: u8,
    pub subcategory: u8,
    pub firmware: u8,
    pub hardware: u8,
}

#[derive(Clone, Copy, Debug, PartialEq, Eq)]
pub enum ModuleKind {
    Dimmer,
    Outlet,
}

impl ModuleKind {
    /// The identity that the bench answers to with a module of this kind.
    pub const fn bench(self) -> Identity {
        match self {
            Self::Dimmer => BENCH,
            Self::Outlet => BENCH_OUTLET,
        }
    }
}

/// "The program".
pub const BENCH: Identity = Identity {
    address: [0x00, 0x10, 0x3A],
    category: 0x01,
    subcategory: 0x0F,
    firmware: 0xC1,
    hardware: 0x00,
};

/// The outlet at the same address; category and subcategory as request 1 has them.
pub const BENCH_OUTLET: Identity = Identity {
    address: BENCH.address,
    category: 0x02,
    subcategory: 0x39,
    firmware: 0xC2,
    hardware: 0x00,
};

/// What a module switches or dims, by its kind.
#[derive(Clone, Copy, Debug, PartialEq, Eq)]
pub enum Load {
    Lamp(Lamp),
    Sockets(Sockets),
}

#[derive(Clone, Copy, Debug, PartialEq, Eq)]
pub struct Module {
    pub identity: Identity,
    pub load: Load,
    pub flags: u8,
    pub led: u8,
    pub house: u8,
    pub unit: u8,
    pub delta: u8,
}

impl Module {
    pub const fn fresh(kind: ModuleKind, identity: Identity) -> Self {
        Self {
            identity,
            load: match kind {
                ModuleKind::Dimmer => Load::Lamp(Lamp::FRESH),
                ModuleKind::Outlet => Load::Sockets(Sockets::FRESH),
            },
            flags: 0x00,
            led: 0x3F,
            house: 0x20,
            unit: 0x20,
            delta: 0x00,
        }
    }

    /// The module that the bench starts with.
    pub const fn bench(kind: ModuleKind) -> Self {
        Self::fresh(kind, kind.bench())
    }

    pub const fn kind(&self) -> ModuleKind {
        match self.load {
            Load::Lamp(_) => ModuleKind::Dimmer,
            Load::Sockets(_) => ModuleKind::Outlet,
        }
    }
}
