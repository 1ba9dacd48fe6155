//! What the library lends and takes back: images of both kinds, rows of them, and what it refuses before it looks at a message.

use dreelish_tests::library::places::{self, BOTTOM, DIMMER, KIND, LENGTH, LOW, OUTLET, TOP};
use dreelish_tests::library::{self, UNFIT, UNUSED};
use dreelish_tests::paper::{Module, ModuleKind};

const PING: [u8; 9] = [0xAA, 0xBB, 0xCC, 0x00, 0x10, 0x3A, 0x0F, 0x0F, 0x00];
const ON: [u8; 9] = [0xAA, 0xBB, 0xCC, 0x00, 0x10, 0x3A, 0x0F, 0x11, 0x80];
const BOTH_SOCKETS: [u8; 9] = [0xAA, 0xBB, 0xCC, 0x00, 0x10, 0x3A, 0x0F, 0x19, 0x01];

const KINDS: [ModuleKind; 2] = [ModuleKind::Dimmer, ModuleKind::Outlet];

/// As dreelish.h has it: kind, identity, flags, LED, house, unit, delta, and then the load.
#[rustfmt::skip]
const FRESH_DIMMER: [u8; 64] = filled([
    0x01, 0x00, 0x10, 0x3A, 0x01, 0x0F, 0xC1, 0x00,
    0x00, UNUSED, UNUSED, 0x3F, 0x20, 0x20, 0x00, UNUSED,
    0x00, 0x1F, 0xFF,
]);
#[rustfmt::skip]
const FRESH_OUTLET: [u8; 64] = filled([
    0x02, 0x00, 0x10, 0x3A, 0x02, 0x39, 0xC2, 0x00,
    0x00, UNUSED, UNUSED, 0x3F, 0x20, 0x20, 0x00, UNUSED,
    0x00, 0x00, UNUSED,
]);

/// With what no kind uses behind it.
const fn filled(first: [u8; 19]) -> [u8; 64] {
    let mut image = [UNUSED; 64];
    let mut at = 0;
    while at < first.len() {
        image[at] = first[at];
        at += 1;
    }
    image
}

/// What is lent around a message that would be carried out if all of it fitted.
#[derive(Clone, Debug, PartialEq)]
struct Lent {
    /// Of a module, or of a row of them.
    image: Vec<u8>,
    links: Vec<u8>,
    room: Vec<u8>,
    report: Vec<u64>,
}

impl Lent {
    fn new(image: &[u8], report: usize) -> Self {
        Self {
            image: image.to_vec(),
            links: vec![0xA2, 0x01, 0xAA, 0xBB, 0xCC, 0x80, 0x1C, 0x01],
            room: vec![0xEE; 64],
            report: vec![99; report],
        }
    }

    fn call(&mut self, message: &[u8]) -> u64 {
        library::call(
            &mut self.image,
            &mut self.links,
            message,
            &mut self.room,
            &mut self.report,
        )
    }

    fn assert_refused(mut self) {
        let before = self.clone();
        assert_eq!(self.call(&PING), UNFIT, "{before:02X?}");
        assert_eq!(self, before);
    }

    /// A row of images, with a record for each of so many seats.
    fn row(images: &[u8], seats: usize) -> Self {
        let mut lent = Self::new(images, 2);
        lent.links = lent.links.repeat(seats);
        lent
    }

    fn call_class(&mut self, count: usize, message: &[u8]) -> u64 {
        library::class_call(
            &mut self.image,
            count,
            &mut self.links,
            message,
            &mut self.room,
            &mut self.report,
        )
    }

    fn assert_class_refused(mut self, count: usize) {
        let before = self.clone();
        let number = self.call_class(count, &PING);
        assert_eq!(number, UNFIT, "{count}, {before:02X?}");
        assert_eq!(self, before, "{count}");
    }

    /// Result 11, which is told in the report and nowhere else.
    fn assert_eleven(mut self, count: usize) {
        let mut before = self.clone();
        assert_eq!(self.call_class(count, &PING), 11, "{count}, {before:02X?}");
        before.report[..2].copy_from_slice(&[0, 0]);
        assert_eq!(self, before, "{count}");
    }
}

#[test]
fn images_are_laid_out_as_the_header_says() {
    assert_eq!(
        library::image(&Module::bench(ModuleKind::Dimmer)),
        FRESH_DIMMER
    );
    assert_eq!(
        library::image(&Module::bench(ModuleKind::Outlet)),
        FRESH_OUTLET
    );
}

#[test]
fn an_image_of_another_length_is_unfit() {
    for kind in KINDS {
        let fresh = library::image(&Module::bench(kind));
        let others = (0..200).chain([255, 256, 4096]);
        for length in others.filter(|&length| length != LENGTH) {
            let mut image = fresh.to_vec();
            image.resize(length, 0x77);
            Lent::new(&image, 2).assert_refused();
        }
    }
}

#[test]
fn a_kind_that_there_is_not_is_unfit() {
    for kind in (0x00..=0xFF).filter(|kind| ![DIMMER, OUTLET].contains(kind)) {
        for mut image in [FRESH_DIMMER, FRESH_OUTLET] {
            image[KIND] = kind;
            Lent::new(&image, 2).assert_refused();
        }
    }
}

#[test]
fn a_short_report_is_unfit() {
    for length in 0..2 {
        Lent::new(&FRESH_DIMMER, length).assert_refused();
        Lent::new(&FRESH_OUTLET, length).assert_refused();
        Lent::new(&FRESH_DIMMER[1..], length).assert_refused();
    }
}

#[test]
fn a_report_is_written_in_its_first_two_places_only() {
    for kind in KINDS {
        for length in 2..6 {
            let mut lent = Lent::new(&library::image(&Module::bench(kind)), length);
            assert_eq!(lent.call(&PING), 0);
            assert_eq!(lent.report[..2], [9, 0]);
            assert!(lent.report[2..].iter().all(|&place| place == 99));
        }
    }
}

/// 19 01 shows what was read.
#[test]
fn a_socket_is_00_or_01() {
    for (top, bottom, shown) in [(0, 0, 0x00), (1, 0, 0x01), (0, 1, 0x02), (1, 1, 0x03)] {
        let mut image = FRESH_OUTLET;
        (image[TOP], image[BOTTOM]) = (top, bottom);
        let mut lent = Lent::new(&image, 2);
        assert_eq!(lent.call(&BOTH_SOCKETS), 0);
        assert_eq!(lent.room[6..9], [0x2F, 0x00, shown]);
        assert_eq!(lent.image, image);
    }
}

#[test]
fn another_socket_byte_is_unfit() {
    for byte in 0x02..=0xFF {
        for place in [TOP, BOTTOM] {
            let mut image = FRESH_OUTLET;
            image[place] = byte;
            Lent::new(&image, 2).assert_refused();
        }
    }
}

/// A dimmer has no socket: any byte at those places is its level or its ramp.
#[test]
fn any_byte_is_a_level() {
    for byte in 0x00..=0xFF {
        let mut image = FRESH_DIMMER;
        (image[places::LEVEL], image[places::RAMP]) = (byte, byte);
        let mut lent = Lent::new(&image, 2);
        assert_eq!(lent.call(&PING), 0);
        assert_eq!(lent.image, image);
    }
}

/// Whatever stands where a kind has nothing stays there, while the message alters what it alters.
#[test]
fn an_unused_byte_is_kept() {
    let load = |kind| match kind {
        ModuleKind::Dimmer => vec![places::LEVEL, places::RAMP, places::ON_LEVEL],
        ModuleKind::Outlet => vec![TOP, BOTTOM],
    };
    for kind in KINDS {
        let used = (0..=places::FLAGS).chain(places::LED..=places::DELTA);
        let used: Vec<usize> = used.chain(load(kind)).collect();
        for place in (0..LENGTH).filter(|place| !used.contains(place)) {
            for byte in [0x00, 0x01, 0x77, 0xFF] {
                let mut image = library::image(&Module::bench(kind));
                image[place] = byte;
                let mut lent = Lent::new(&image, 2);
                assert_eq!(lent.call(&ON), 0);
                image[places::LEVEL] = if kind == ModuleKind::Dimmer {
                    0x80
                } else {
                    0x01
                };
                assert_eq!(lent.image, image, "{kind:?}, place {place}");
            }
        }
    }
}

/// A dimmer, an outlet and a dimmer at addresses that differ; the ping is for the first.
fn three() -> Vec<u8> {
    let mut images = [FRESH_DIMMER, FRESH_OUTLET, FRESH_DIMMER].concat();
    (images[LENGTH + LOW], images[2 * LENGTH + LOW]) = (0x3B, 0x3C);
    images
}

/// Where the row fits it is served, so that nothing but what each test spoils is refused.
#[test]
fn a_row_of_three_is_served() {
    let mut lent = Lent::row(&three(), 3);
    assert_eq!(lent.call_class(3, &PING), 0);
    assert_eq!(lent.report, [9, 0]);
    assert_eq!(
        lent.room[..9],
        [0x00, 0x10, 0x3A, 0xAA, 0xBB, 0xCC, 0x2F, 0x0F, 0x00]
    );
    assert_eq!(lent.image, three());
}

#[test]
fn a_row_of_another_count_is_unfit() {
    let wrapped = (1 << 58) + 3; // times 64 it is what three are
    for count in [0, 1, 2, 4, 15, 16, 17, 192, wrapped, usize::MAX] {
        Lent::row(&three(), 3).assert_class_refused(count);
    }
    Lent::row(&[], 1).assert_class_refused(1);
    Lent::row(&FRESH_DIMMER, 1).assert_class_refused(0);
}

#[test]
fn a_row_cut_short_or_drawn_out_is_unfit() {
    let whole = three();
    for length in (0..400).filter(|&length| length != whole.len()) {
        let mut images = whole.clone();
        images.resize(length, 0x77);
        Lent::row(&images, 3).assert_class_refused(3);
    }
    for seat in 0..3 {
        let mut images = whole.clone();
        images.remove(seat * LENGTH + 12);
        Lent::row(&images, 3).assert_class_refused(3);
    }
}

/// Whichever seat has it: the message is for the first.
#[test]
fn a_row_with_a_kind_that_there_is_not_is_unfit() {
    for seat in 0..3 {
        for kind in (0x00..=0xFF).filter(|kind| ![DIMMER, OUTLET].contains(kind)) {
            let mut images = three();
            images[seat * LENGTH + KIND] = kind;
            Lent::row(&images, 3).assert_class_refused(3);
        }
    }
}

#[test]
fn a_row_with_another_socket_byte_is_unfit() {
    for byte in 0x02..=0xFF {
        for place in [TOP, BOTTOM] {
            let mut images = three();
            images[LENGTH + place] = byte;
            Lent::row(&images, 3).assert_class_refused(3);
        }
    }
}

/// Also what no kind uses, of whoever is served and of the neighbours.
#[test]
fn only_the_image_of_who_is_served_is_written() {
    for seat in 0..3 {
        let mut lent = Lent::row(&three(), 3);
        let mut message = ON;
        message[5] += seat as u8;
        assert_eq!(lent.call_class(3, &message), 0);
        let mut images = three();
        images[seat * LENGTH + places::LEVEL] = if seat == 1 { 0x01 } else { 0x80 };
        assert_eq!(lent.image, images, "seat {seat}");
    }
}

#[test]
fn a_row_with_a_short_report_is_unfit() {
    for length in 0..2 {
        for (images, count) in [(three(), 3), (FRESH_DIMMER.repeat(17), 17), (vec![], 0)] {
            let mut lent = Lent::row(&images, count);
            lent.report.truncate(length);
            lent.assert_class_refused(count);
        }
    }
}

#[test]
fn a_row_writes_its_report_in_the_first_two_places_only() {
    for length in 2..6 {
        let mut lent = Lent::row(&three(), 3);
        lent.report.resize(length, 99);
        assert_eq!(lent.call_class(3, &PING), 0);
        assert_eq!(lent.report[..2], [9, 0]);
        assert!(lent.report[2..].iter().all(|&place| place == 99));
    }
}

#[test]
fn an_empty_row_is_eleven() {
    Lent::row(&[], 0).assert_eleven(0);
    Lent::row(&[], 1).assert_eleven(0);
    let mut nothing = Lent::row(&[], 0);
    nothing.room.clear();
    assert_eq!(nothing.call_class(0, &[]), 11);
    assert_eq!(nothing.report, [0, 0]);
}

/// Such images are left as they stand; where one of them is none, it is the caller's fault and not the row's.
#[test]
fn seventeen_are_eleven() {
    let mut none = FRESH_OUTLET;
    none[TOP] = 0x77;
    for count in [17, 18, 100] {
        Lent::row(&FRESH_DIMMER.repeat(count), count).assert_eleven(count);
        Lent::row(&FRESH_OUTLET.repeat(count), count).assert_eleven(count);
        Lent::row(&FRESH_OUTLET.repeat(count), count).assert_class_refused(16);
        Lent::row(&none.repeat(count), count).assert_class_refused(count);
    }
}
