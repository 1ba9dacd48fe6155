//! The proved library, safe to call. `dreelish.h` of the crate `embed` says what it takes.

#![allow(unsafe_code)]

use crate::paper::{Identity, Load, Module, Outcome};

/// The number for a module's image or a report that does not fit.
pub const UNFIT: u64 = 255;

/// Where an image has what, and the kinds: the very file that the library has them from.
pub mod places {
    include!("../../crates/image/src/places.rt");
}

/// What a byte holds that no value stands at, so that a write there shows.
pub const UNUSED: u8 = 0xA5;

/// A report that is not written shows.
const UNWRITTEN: [u64; 2] = [u64::MAX; 2];

/// The module as the library keeps it.
pub type Image = [u8; places::LENGTH];

mod c {
    extern "C" {
        pub fn dreelish_step(
            module: *mut u8,
            module_length: usize,
            links: *mut u8,
            links_length: usize,
            message: *const u8,
            message_length: usize,
            room: *mut u8,
            room_length: usize,
            report: *mut u64,
            report_length: usize,
        ) -> u64;

        pub fn dreelish_class_step(
            modules: *mut u8,
            modules_length: usize,
            count: usize,
            links: *mut u8,
            links_length: usize,
            message: *const u8,
            message_length: usize,
            room: *mut u8,
            room_length: usize,
            report: *mut u64,
            report_length: usize,
        ) -> u64;
    }
}

/// The interface as it is: any lengths.
pub fn call(
    image: &mut [u8],
    links: &mut [u8],
    message: &[u8],
    room: &mut [u8],
    report: &mut [u64],
) -> u64 {
    // SAFETY: each pointer comes with the length of the slice behind it, exclusive borrows overlap nothing,
    // and the pointer of an empty slice is aligned and not null.
    unsafe {
        c::dreelish_step(
            image.as_mut_ptr(),
            image.len(),
            links.as_mut_ptr(),
            links.len(),
            message.as_ptr(),
            message.len(),
            room.as_mut_ptr(),
            room.len(),
            report.as_mut_ptr(),
            report.len(),
        )
    }
}

/// The same for a class: `count` images, each directly behind the one before it.
pub fn class_call(
    images: &mut [u8],
    count: usize,
    links: &mut [u8],
    message: &[u8],
    room: &mut [u8],
    report: &mut [u64],
) -> u64 {
    // SAFETY: as in `call`; `count` is a number that the library holds against the bytes of `images`.
    unsafe {
        c::dreelish_class_step(
            images.as_mut_ptr(),
            images.len(),
            count,
            links.as_mut_ptr(),
            links.len(),
            message.as_ptr(),
            message.len(),
            room.as_mut_ptr(),
            room.len(),
            report.as_mut_ptr(),
            report.len(),
        )
    }
}

/// One message to a module whose image fits.
pub fn step(image: &mut [u8], links: &mut [u8], message: &[u8], room: &mut [u8]) -> Outcome {
    let mut report = UNWRITTEN;
    let result = call(image, links, message, room, &mut report);
    outcome(result, report)
}

/// One message to a class whose images fit.
pub fn class_step(
    images: &mut [u8],
    count: usize,
    links: &mut [u8],
    message: &[u8],
    room: &mut [u8],
) -> Outcome {
    let mut report = UNWRITTEN;
    let result = class_call(images, count, links, message, room, &mut report);
    outcome(result, report)
}

fn outcome(result: u64, [length, read]: [u64; 2]) -> Outcome {
    Outcome {
        result: u8::try_from(result).expect("result numbers are bytes"),
        length: length as usize,
        read: read as usize,
    }
}

/// The image of a module.
pub fn image(module: &Module) -> Image {
    let mut image = [UNUSED; places::LENGTH];
    let Identity {
        address: [high, middle, low],
        category,
        subcategory,
        firmware,
        hardware,
    } = module.identity;
    image[places::HIGH] = high;
    image[places::MIDDLE] = middle;
    image[places::LOW] = low;
    image[places::CATEGORY] = category;
    image[places::SUBCATEGORY] = subcategory;
    image[places::FIRMWARE] = firmware;
    image[places::REVISION] = hardware;
    image[places::FLAGS] = module.flags;
    image[places::LED] = module.led;
    image[places::HOUSE] = module.house;
    image[places::UNIT] = module.unit;
    image[places::DELTA] = module.delta;
    lay_load(&mut image, &module.load);
    image
}

fn lay_load(image: &mut Image, load: &Load) {
    match load {
        Load::Lamp(lamp) => {
            image[places::KIND] = places::DIMMER;
            image[places::LEVEL] = lamp.level;
            image[places::RAMP] = lamp.ramp;
            image[places::ON_LEVEL] = lamp.on_level;
        }
        Load::Sockets(sockets) => {
            image[places::KIND] = places::OUTLET;
            image[places::TOP] = sockets.top.into();
            image[places::BOTTOM] = sockets.bottom.into();
        }
    }
}

/// The images of a row, as a class is lent.
pub fn images(row: &[Module]) -> Vec<u8> {
    row.iter().flat_map(image).collect()
}

/// The images of a class, one by one.
pub fn seats(images: &[u8]) -> Vec<&[u8]> {
    images.chunks_exact(places::LENGTH).collect()
}
