//! Streams as a line brings them: frames with other bytes between them, in pieces of any size.

use super::message::garbage;
use crate::framing::frame;
use crate::random::Random;

/// So many frames with garbage between some of them. `next` makes the message of each.
pub fn stream(
    random: &mut Random,
    frames: usize,
    mut next: impl FnMut(&mut Random) -> Vec<u8>,
) -> Vec<u8> {
    let mut stream = Vec::new();
    for _ in 0..frames {
        if random.per_cent(10) {
            stream.extend(garbage(random, 6));
        }
        if random.per_cent(10) {
            stream.push(random.pick(&[0x02, 0x50, 0x51]));
        }
        stream.extend(frame(&next(random)));
    }
    stream
}

/// The first of the messages that `any` makes which a frame can hold.
pub fn that_fits(random: &mut Random, any: impl Fn(&mut Random) -> Vec<u8>) -> Vec<u8> {
    loop {
        let message = any(random);
        if matches!(message.len(), 9 | 23) {
            return message;
        }
    }
}

/// The stream in pieces, some streams of one byte each and some hardly cut at all.
pub fn pieces<'a>(random: &mut Random, mut stream: &'a [u8]) -> Vec<&'a [u8]> {
    let longest = random.pick(&[1, 10, 40, 1000]);
    let mut pieces = Vec::new();
    while !stream.is_empty() {
        let length = 1 + random.below(longest);
        let (piece, rest) = stream.split_at(length.min(stream.len()));
        pieces.push(piece);
        stream = rest;
    }
    pieces
}
