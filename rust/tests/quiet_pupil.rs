//! Request 5, the quiet pupil's case: whatever the other seats hold and are sent leaves no mark on her module. By the library.

use dreelish_tests::class_example::{direct, ClassExample};
use dreelish_tests::example::{LINKED, STRANGER};
use dreelish_tests::library;
use dreelish_tests::messages::{message, room_length, Class};
use dreelish_tests::paper::hear::hear;
use dreelish_tests::paper::message::Message;
use dreelish_tests::paper::{self, Address, Module, ModuleKind, Outcome};
use dreelish_tests::random::Random;

const SEED: u64 = 0x0010_3A05;
const PAIRS: u64 = 1_000;
/// Messages that both runs of a pair share.
const SHARED: usize = 50;
/// At most so many others come before each of them.
const BETWEEN: usize = 4;

/// One of two runs: the class as it started but for its link memory, and its modules as the library keeps them.
struct Run {
    class: Class,
    images: Vec<u8>,
}

impl Run {
    fn of(class: Class) -> Self {
        let images = library::images(&class.row);
        Self { class, images }
    }

    fn send(&mut self, message: &[u8], room: &mut [u8]) -> Outcome {
        let (seats, links) = (self.class.row.len(), &mut self.class.links);
        library::class_step(&mut self.images, seats, links, message, room)
    }

    /// The module at a seat, and its share.
    fn held(&self, seat: usize) -> (&[u8], &[u8]) {
        let images = library::seats(&self.images);
        (images[seat], self.class.seat(seat).links)
    }

    /// Sends some messages that are neither hers nor broadcasts. Returns how many were carried out.
    fn chatter(&mut self, her: Address, random: &mut Random) -> usize {
        let mut carried_out = 0;
        for _ in 0..random.below(BETWEEN + 1) {
            let seat = self.class.any_seat(random);
            let message = message(random, seat);
            if !is_shared(her, &message) {
                let mut room = vec![random.byte(); room_length(random)];
                carried_out += usize::from(self.send(&message, &mut room).result == 0);
            }
        }
        carried_out
    }
}

/// Whether a message has to be in both runs: addressed to her or broadcast, whatever comes of it.
fn is_shared(her: Address, message: &[u8]) -> bool {
    Message::read(message).is_some_and(|read| read.to == her) || is_broadcast(message)
}

fn is_broadcast(message: &[u8]) -> bool {
    hear(message).is_ok_and(|heard| heard.receiver().is_none())
}

/// How often what came up.
#[derive(Debug, Default)]
struct Counts {
    /// Of messages to her.
    carried_out: usize,
    refused: usize,
    written_to_her_share: usize,
    /// Of broadcasts: those that altered her module, and those of which the two runs had different outcomes.
    altered: usize,
    otherwise: usize,
    /// Of messages to the others.
    chatter: usize,
}

/// Two runs that have her module, her share and the row of addresses in common.
struct Pair {
    seat: usize,
    her: Address,
    runs: [Run; 2],
}

impl Pair {
    fn any(random: &mut Random) -> Self {
        let seats = 2 + random.below(15);
        let class = Class::of(seats, random);
        let seat = random.below(seats);
        let other = class.with_other_neighbours(seat, random);
        Self {
            seat,
            her: class.row[seat].identity.address,
            runs: [class, other].map(Run::of),
        }
    }

    fn chatter(&mut self, random: &mut Random) -> usize {
        let runs = self.runs.iter_mut();
        runs.map(|run| run.chatter(self.her, random)).sum()
    }

    /// A message to her module, or a broadcast.
    fn message(&self, random: &mut Random) -> Vec<u8> {
        let seat = self.runs[0].class.seat(self.seat);
        loop {
            let message = message(random, seat);
            if is_shared(self.her, &message) {
                return message;
            }
        }
    }

    /// Sends a message to both, with equal rooms. What is addressed to her must come to the same and leave the same in the rooms;
    /// what a broadcast comes to hangs on all seats, and it leaves nothing.
    fn send(&mut self, message: &[u8], room: &[u8], what: &str, counts: &mut Counts) {
        let [one, other] = self.runs.each_mut().map(|run| {
            let mut room = room.to_vec();
            (run.send(message, &mut room), room)
        });
        if is_broadcast(message) {
            assert_eq!([one.0.length, other.0.length], [0, 0], "{what}");
            assert!(one.1 == room && other.1 == room, "{what}");
            counts.otherwise += usize::from(one.0 != other.0);
        } else {
            assert_eq!(one, other, "{what}");
            counts.carried_out += usize::from(one.0.result == 0);
            counts.refused += usize::from(one.0.result != 0);
        }
    }

    /// Her module and her share, which must be the same in both.
    fn held(&self, what: &str) -> (Vec<u8>, Vec<u8>) {
        let [one, other] = self.runs.each_ref().map(|run| run.held(self.seat));
        assert_eq!(one, other, "{what}");
        (one.0.to_vec(), one.1.to_vec())
    }
}

#[test]
fn a_thousand_quiet_pupils() {
    println!("seed {SEED:#X}, {PAIRS} pairs of runs");
    let mut counts = Counts::default();
    for pair in 0..PAIRS {
        run_pair(pair, &mut counts);
    }
    println!("{counts:#?}");
    assert!(counts.carried_out >= 5_000 && counts.refused >= 5_000);
    assert!(counts.written_to_her_share >= 500 && counts.altered >= 500);
    assert!(counts.otherwise >= 1_000 && counts.chatter >= 5_000);
}

/// Each pair has random numbers of its own, so that it can be run again by itself.
fn run_pair(number: u64, counts: &mut Counts) {
    let mut random = Random::new(SEED, number);
    let mut pair = Pair::any(&mut random);
    for at in 0..SHARED {
        counts.chatter += pair.chatter(&mut random);
        let message = pair.message(&mut random);
        let room = vec![random.byte(); room_length(&mut random)];
        let what = format!("seed {SEED:#X}, pair {number}, message {at}, {message:02X?}");
        let (module, share) = pair.held(&what);
        pair.send(&message, &room, &what, counts);
        let (module_after, share_after) = pair.held(&what);
        counts.written_to_her_share += usize::from(share_after != share);
        counts.altered += usize::from(is_broadcast(&message) && module_after != module);
    }
    counts.chatter += pair.chatter(&mut random);
    pair.held(&format!("seed {SEED:#X}, pair {number}, at the end"));
}

/// His link memory in the story: he is to his module what she is to hers, and each is a stranger to the other's.
#[rustfmt::skip]
const HIS_LINKS: [u8; 16] = [
    0xA2, 0x01, 0x11, 0x22, 0x33, 0x80, 0x1C, 0x01,
    0x00, 0x00, 0x00, 0x00, 0x00, 0x00, 0x00, 0x00,
];

/// She sends 50 per cent to the first of two dimmers, he 20 per cent to the second; then both ask. Returns all replies.
fn story(mut serve: impl FnMut(&[u8], &mut [u8]) -> Outcome) -> [Vec<u8>; 4] {
    [
        direct(LINKED, 0, 0x39, 0x32),
        direct(STRANGER, 1, 0x39, 0x14),
        direct(LINKED, 0, 0x19, 0x06),
        direct(STRANGER, 1, 0x19, 0x06),
    ]
    .map(|message| {
        let mut room = [0xEE; 64];
        let outcome = serve(&message, &mut room);
        room[..outcome.length].to_vec()
    })
}

fn two_dimmers() -> ClassExample {
    ClassExample::of(&[ModuleKind::Dimmer; 2], vec![]).share(1, &HIS_LINKS)
}

#[test]
fn fifty_per_cent_stay_fifty() {
    let ClassExample { row, mut links, .. } = two_dimmers();
    let mut images = library::images(&row);
    let replies =
        story(|message, room| library::class_step(&mut images, 2, &mut links, message, room));
    #[rustfmt::skip]
    assert_eq!(
        replies,
        [
            [0x00, 0x10, 0x3A, 0xAA, 0xBB, 0xCC, 0x2F, 0x39, 0x32],
            [0x00, 0x10, 0x3B, 0x11, 0x22, 0x33, 0x2F, 0x39, 0x14],
            [0x00, 0x10, 0x3A, 0xAA, 0xBB, 0xCC, 0x2F, 0x00, 0x32],
            [0x00, 0x10, 0x3B, 0x11, 0x22, 0x33, 0x2F, 0x00, 0x14],
        ]
    );
}

/// With one level for all her question shows his 20 per cent, so that the test above would fail.
#[test]
fn one_level_for_all_would_be_noticed() {
    let ClassExample {
        mut row, mut links, ..
    } = two_dimmers();
    let [_, _, hers, his] = story(|message, room| {
        let before = row.clone();
        let outcome = paper::class_step(&mut row, &mut links, message, room);
        give_to_all(&mut row, &before);
        outcome
    });
    assert_eq!([hers[8], his[8]], [0x14, 0x14]);
}

/// Where a level was set, all have it.
fn give_to_all(row: &mut [Module], before: &[Module]) {
    let mut seats = row.iter().zip(before);
    if let Some((set, _)) = seats.find(|(now, before)| now.load != before.load) {
        let load = set.load;
        for module in row {
            module.load = load;
        }
    }
}
