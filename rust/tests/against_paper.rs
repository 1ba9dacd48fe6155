//! The proved library beside the second reading of the paper: random sequences, compared after every message.

use std::collections::BTreeSet;

use dreelish_tests::left::{difference, Left};
use dreelish_tests::library;
use dreelish_tests::messages::{message, room_length, Scene};
use dreelish_tests::paper::ModuleKind;
use dreelish_tests::random::Random;
use dreelish_tests::tally::Tally;

const SEED: u64 = 0x0010_3A01_0FC1;
/// For each kind of module.
const SEQUENCES: u64 = 40_000;
const MESSAGES: usize = 50;
/// Sequences over unfit link memory come to result 2 at every message, so a few messages are enough.
const MESSAGES_UNFIT: usize = 15;

#[test]
fn a_dimmer_does_what_the_paper_says() {
    compare(ModuleKind::Dimmer);
}

#[test]
fn an_outlet_does_what_the_paper_says() {
    compare(ModuleKind::Outlet);
}

fn compare(kind: ModuleKind) {
    println!("{kind:?}, seed {SEED:#X}, {SEQUENCES} sequences");
    let mut tally = Tally::of(kind);
    let mut lengths = BTreeSet::new();
    for sequence in 0..SEQUENCES {
        lengths.insert(run_sequence(kind, sequence, &mut tally));
    }
    println!("{} messages\n{tally}", tally.total());
    assert!((8..=2048).step_by(8).all(|fit| lengths.contains(&fit)));
    assert!(tally.total() >= 200_000);
    tally.assert_at_least(2_000, 300);
}

/// Each sequence has random numbers of its own, so that it can be run again by itself. Returns the length of its link memory.
fn run_sequence(kind: ModuleKind, sequence: u64, tally: &mut Tally) -> usize {
    let mut random = Random::new(SEED, sequence);
    let (mut scene, count) = match random.per_cent(8) {
        true => (Scene::unfit(kind, &mut random), MESSAGES_UNFIT),
        false => (Scene::fit(kind, &mut random), MESSAGES),
    };
    let mut image = library::image(&scene.module);
    let mut links = scene.links.clone();
    for number in 0..count {
        let message = message(&mut random, scene.seat());
        let room = vec![random.byte(); room_length(&mut random)];
        let before = (image, links.clone());
        let by_library = Left::by_library(&mut image, &mut links, &message, room.clone());
        let by_paper = Left::by_paper(&mut scene.module, &mut scene.links, &message, room);
        if by_library != by_paper {
            let place = format!("{kind:?}, seed {SEED:#X}, sequence {sequence}, message {number}");
            panic!(
                "{place}\n{}",
                difference(&before.0, &before.1, &message, &by_library, &by_paper)
            );
        }
        tally.count(&message, by_paper.outcome.result);
    }
    links.len()
}
