//! Modules in any state.

use crate::paper::lamp::Lamp;
use crate::paper::sockets::Sockets;
use crate::paper::{Address, Identity, Load, Module, ModuleKind};
use crate::random::Random;

/// With the identity of the bench, or any other.
pub fn any_module(kind: ModuleKind, random: &mut Random) -> Module {
    let identity = match random.per_cent(30) {
        true => kind.bench(),
        false => {
            let about = random.bytes();
            identity(random.bytes(), about)
        }
    };
    in_any_state(kind, identity, random)
}

/// Of any kind, with this address.
pub fn any_module_at(address: Address, random: &mut Random) -> Module {
    let kind = random.pick(&[ModuleKind::Dimmer, ModuleKind::Outlet]);
    let identity = identity(address, random.bytes());
    in_any_state(kind, identity, random)
}

/// Fresh, of the same kind at the same address; half of them are the bench's in all else.
pub fn as_started(module: &Module, random: &mut Random) -> Module {
    let kind = module.kind();
    let identity = match random.per_cent(50) {
        true => Identity {
            address: module.identity.address,
            ..kind.bench()
        },
        false => module.identity,
    };
    Module::fresh(kind, identity)
}

fn identity(address: Address, about: [u8; 4]) -> Identity {
    let [category, subcategory, firmware, hardware] = about;
    Identity {
        address,
        category,
        subcategory,
        firmware,
        hardware,
    }
}

fn in_any_state(kind: ModuleKind, identity: Identity, random: &mut Random) -> Module {
    let [flags, led, house, unit, delta] = match random.per_cent(80) {
        true => random.bytes(),
        false => return Module::fresh(kind, identity),
    };
    Module {
        identity,
        load: any_load(kind, random),
        flags,
        led,
        house,
        unit,
        delta,
    }
}

fn any_load(kind: ModuleKind, random: &mut Random) -> Load {
    match kind {
        ModuleKind::Dimmer => {
            let [level, ramp, on_level] = random.bytes();
            Load::Lamp(Lamp {
                level,
                ramp,
                on_level,
            })
        }
        ModuleKind::Outlet => Load::Sockets(Sockets {
            top: random.per_cent(50),
            bottom: random.per_cent(50),
        }),
    }
}
