//! A module, its link memory and the people who send to it.

use super::modules::any_module;
use super::people::{any_size, People};
use super::seat::Seat;
use crate::paper::links::RECORD;
use crate::paper::{Module, ModuleKind};
use crate::random::Random;

const UNFIT: [usize; 9] = [0, 1, 7, 9, 15, 2047, 2049, 2056, 4096];

pub struct Scene {
    pub module: Module,
    pub links: Vec<u8>,
    people: People,
}

impl Scene {
    pub fn fit(kind: ModuleKind, random: &mut Random) -> Self {
        let people = People::any(random);
        let module = any_module(kind, random);
        Self::around(module, people, random)
    }

    /// A scene whose link memory has a length that is not allowed.
    pub fn unfit(kind: ModuleKind, random: &mut Random) -> Self {
        let mut scene = Self::fit(kind, random);
        let length = match random.below(3) {
            0 => random.below(256) * RECORD + 1 + random.below(7),
            1 => 2048 + RECORD * (1 + random.below(40)),
            _ => random.pick(&UNFIT),
        };
        let fill = random.byte();
        scene.links.resize(length, fill);
        scene
    }

    /// The scene that program `bench` starts from, with some fit links.bin.
    pub fn bench(kind: ModuleKind, random: &mut Random) -> Self {
        let people = People::any(random);
        Self::around(Module::bench(kind), people, random)
    }

    fn around(module: Module, people: People, random: &mut Random) -> Self {
        let count = any_size(random);
        let links = people.links(random, count);
        Self {
            module,
            links,
            people,
        }
    }

    pub fn seat(&self) -> Seat<'_> {
        Seat {
            address: self.module.identity.address,
            links: &self.links,
            people: &self.people,
        }
    }
}
