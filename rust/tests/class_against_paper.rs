//! A class by the proved library beside the second reading of the paper: random sequences to whole rows, compared after every message.

use std::collections::BTreeSet;

use dreelish_tests::left::{difference, Left};
use dreelish_tests::library;
use dreelish_tests::messages::{message, room_length, Class};
use dreelish_tests::paper::hear::hear;
use dreelish_tests::paper::{self, Load};
use dreelish_tests::random::Random;
use dreelish_tests::tally::Tally;

const SEED: u64 = 0x0010_3A09_0A0B;
const CLASSES: u64 = 10_000;
const MESSAGES: usize = 40;
/// Classes that are not served come to 9 or 11 at every message, so a few messages are enough.
const MESSAGES_UNFIT: usize = 12;

/// How often what came up.
struct Counts {
    tally: Tally,
    seats: BTreeSet<usize>,
    of_both_kinds: usize,
    /// Broadcasts on which some seats act and others do not, and those on which two seats or more act and none does not.
    some_act: usize,
    all_act: usize,
}

#[test]
fn a_class_does_what_the_paper_says() {
    println!("seed {SEED:#X}, {CLASSES} classes");
    let mut counts = Counts {
        tally: Tally::of_classes(),
        seats: BTreeSet::new(),
        of_both_kinds: 0,
        some_act: 0,
        all_act: 0,
    };
    for class in 0..CLASSES {
        run_class(class, &mut counts);
    }
    println!("{} messages\n{}", counts.tally.total(), counts.tally);
    println!("classes of both kinds: {}", counts.of_both_kinds);
    let (some_act, all_act) = (counts.some_act, counts.all_act);
    println!("broadcasts on which some act: {some_act}, all of several: {all_act}");
    assert!((0..=18).all(|seats| counts.seats.contains(&seats)));
    assert!(counts.tally.total() >= 200_000);
    counts.tally.assert_at_least(1_000, 300);
    assert!(counts.of_both_kinds >= 1_000);
    assert!(some_act >= 1_000 && all_act >= 300);
}

/// Each class has random numbers of its own, so that it can be run again by itself.
fn run_class(number: u64, counts: &mut Counts) {
    let mut random = Random::new(SEED, number);
    let (mut class, messages) = match random.per_cent(15) {
        true => (Class::unfit(&mut random), MESSAGES_UNFIT),
        false => (Class::fit(&mut random), MESSAGES),
    };
    counts.seats.insert(class.row.len());
    counts.of_both_kinds += usize::from(has_both_kinds(&class));
    let mut images = library::images(&class.row);
    let mut links = class.links.clone();
    for at in 0..messages {
        let seat = class.any_seat(&mut random);
        let message = message(&mut random, seat);
        let room = vec![random.byte(); room_length(&mut random)];
        let acting = acting(&class, &message);
        let result =
            compare(&mut class, &mut images, &mut links, &message, room).unwrap_or_else(|parted| {
                panic!("seed {SEED:#X}, class {number}, message {at}\n{parted}")
            });
        counts.tally.count(&message, result);
        if let (Some(acting), 0 | 8) = (acting, result) {
            assert_eq!(result == 0, acting > 0, "class {number}, message {at}");
            let seats = class.row.len();
            counts.some_act += usize::from((1..seats).contains(&acting));
            counts.all_act += usize::from(seats > 1 && acting == seats);
        }
    }
}

/// Sends one message to both. Where they part, what comes back says how.
fn compare(
    class: &mut Class,
    images: &mut [u8],
    links: &mut [u8],
    message: &[u8],
    room: Vec<u8>,
) -> Result<u8, String> {
    let (images_before, links_before) = (images.to_vec(), links.to_vec());
    let seats = class.row.len();
    let library = Left::by_class_library(images, seats, links, message, room.clone());
    let paper = Left::by_class_paper(&mut class.row, &mut class.links, message, room);
    match library == paper {
        true => Ok(paper.outcome.result),
        false => Err(difference(
            &images_before,
            &links_before,
            message,
            &library,
            &paper,
        )),
    }
}

/// How many seats would act on a broadcast, each by itself; nothing for other messages.
fn acting(class: &Class, message: &[u8]) -> Option<usize> {
    if hear(message).ok()?.receiver().is_some() {
        return None;
    }
    let seats = class.row.iter().enumerate();
    let acting = seats.filter(|&(k, module)| {
        let (mut module, mut share) = (*module, class.seat(k).links.to_vec());
        paper::step(&mut module, &mut share, message, &mut []).result == 0
    });
    Some(acting.count())
}

fn has_both_kinds(class: &Class) -> bool {
    let dimmers = class
        .row
        .iter()
        .filter(|module| matches!(module.load, Load::Lamp(_)));
    (1..class.row.len()).contains(&dimmers.count())
}
