//! Reply rooms.

use crate::paper::LONGEST_REPLY;
use crate::random::Random;

/// Around the lengths of the replies: none, one or two standard messages, one or two extended ones behind an ACK.
const TIGHT: [usize; 15] = [0, 1, 8, 9, 10, 17, 18, 19, 31, 32, 33, 54, 55, 56, 78];

pub fn room_length(random: &mut Random) -> usize {
    match random.below(20) {
        0..=2 => random.pick(&TIGHT),
        3 => random.below(LONGEST_REPLY),
        4 => LONGEST_REPLY - 1,
        5 => LONGEST_REPLY + random.below(100),
        6..=9 => 64,
        _ => LONGEST_REPLY,
    }
}
