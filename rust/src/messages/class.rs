//! A class: a row of modules, the link memory that they share and the people who send to them.

use super::modules::{any_module_at, as_started};
use super::people::{any_size, group, near, People};
use super::seat::Seat;
use crate::paper::links::RECORD;
use crate::paper::{Address, Module};
use crate::random::Random;

const MOST_SEATS: usize = 16;
/// Lengths of shares that link memory of one module may not have.
const UNFIT: [usize; 9] = [0, 1, 4, 7, 9, 12, 2047, 2049, 2056];

#[derive(Clone)]
pub struct Class {
    pub row: Vec<Module>,
    pub links: Vec<u8>,
    people: People,
}

impl Class {
    /// A class that is served: one to sixteen seats, addresses that differ, fit shares of one length.
    pub fn fit(random: &mut Random) -> Self {
        let seats = 1 + random.below(MOST_SEATS);
        Self::of(seats, random)
    }

    /// A class that is not, for one cause or two; now and then it turns out to be served after all.
    pub fn unfit(random: &mut Random) -> Self {
        let mut class = match random.below(6) {
            0 => Self::of(0, random),
            1 => Self::of(MOST_SEATS + 1 + random.below(2), random),
            _ => Self::fit(random),
        };
        match random.below(5) {
            0 | 1 => class.seat_two_at_one_address(random),
            2 => class.part_unequally(random),
            3 => class.part_unfitly(random),
            _ => {
                class.seat_two_at_one_address(random);
                class.part_unequally(random);
            }
        }
        class
    }

    /// A class as program `classroom` starts it, served or not: all modules are fresh.
    pub fn classroom(random: &mut Random) -> Self {
        let mut class = match random.per_cent(20) {
            true => Self::unfit(random),
            false => Self::fit(random),
        };
        for module in &mut class.row {
            *module = as_started(module, random);
        }
        class
    }

    /// A class of so many seats with fit shares, even where so many are too few or too many.
    pub fn of(seats: usize, random: &mut Random) -> Self {
        let addresses = addresses(seats, random);
        let mut people = People::any(random);
        if seats > 0 && random.per_cent(40) {
            people.admit(random.pick(&addresses));
        }
        let records = any_size(random);
        let shares = (0..seats).flat_map(|_| people.links(random, records));
        let links = shares.collect();
        let modules = addresses.iter().map(|&at| any_module_at(at, random));
        Self {
            row: modules.collect(),
            links,
            people,
        }
    }

    /// The class as it is but for all neighbours of `seat`: they keep their addresses and the lengths of their shares, and
    /// nothing else.
    pub fn with_other_neighbours(&self, seat: usize, random: &mut Random) -> Self {
        let mut other = self.clone();
        let share = self.share_length();
        for k in (0..self.row.len()).filter(|&k| k != seat) {
            other.row[k] = any_module_at(self.row[k].identity.address, random);
            let links = self.people.links(random, share / RECORD);
            other.links[k * share..][..share].copy_from_slice(&links);
        }
        other
    }

    pub fn seat(&self, k: usize) -> Seat<'_> {
        let share = self.share_length();
        Seat {
            address: self.row[k].identity.address,
            links: &self.links[k * share..][..share],
            people: &self.people,
        }
    }

    /// Where the next message goes; with no row, to somebody who is not here.
    pub fn any_seat(&self, random: &mut Random) -> Seat<'_> {
        match self.row.len() {
            0 => Seat {
                address: random.bytes(),
                links: &self.links,
                people: &self.people,
            },
            seats => self.seat(random.below(seats)),
        }
    }

    /// What each seat has where all have the same.
    fn share_length(&self) -> usize {
        self.links.len() / self.row.len()
    }

    fn seat_two_at_one_address(&mut self, random: &mut Random) {
        if self.row.len() >= 2 {
            let [one, other] = [(); 2].map(|()| random.below(self.row.len()));
            self.row[one].identity.address = self.row[other].identity.address;
        }
    }

    /// A few bytes too many, so that no equal parts come of them, or a record too many.
    fn part_unequally(&mut self, random: &mut Random) {
        let more = random.pick(&[1, 2, 4, 7, RECORD]);
        self.links.extend((0..more).map(|_| random.byte()));
    }

    fn part_unfitly(&mut self, random: &mut Random) {
        let share = random.pick(&UNFIT);
        let fill = random.byte();
        self.links.resize(self.row.len() * share, fill);
    }
}

/// Addresses that differ: some of them by one bit, and a few that look like a group.
fn addresses(count: usize, random: &mut Random) -> Vec<Address> {
    let mut addresses: Vec<Address> = Vec::with_capacity(count);
    while addresses.len() < count {
        let next = match random.below(10) {
            0 => [0x00, 0x00, group(random)],
            1..=3 if !addresses.is_empty() => near(random.pick(&addresses), random),
            _ => random.bytes(),
        };
        if !addresses.contains(&next) {
            addresses.push(next);
        }
    }
    addresses
}
