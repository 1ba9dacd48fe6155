//! Request 5: the order of refusals in a class. Every expected byte was typed from the papers.
//!
//! Each test sends what two numbers apply to, and then the same with the cause of the first taken away.

use dreelish_tests::class_example::{
    address, broadcast, cleanup, direct, extended, get, reply, ClassExample,
};
use dreelish_tests::example::{LINKED, STRANGER};
use dreelish_tests::paper::Address;
use dreelish_tests::paper::ModuleKind::Dimmer;

fn two(message: Vec<u8>) -> ClassExample {
    ClassExample::of(&[Dimmer, Dimmer], message)
}

fn two_at_one_address(message: Vec<u8>) -> ClassExample {
    two(message).starting(|row| row[1].identity.address = address(0))
}

/// P9: extended 20 05, right with Data 14 DB.
fn set_flag(from: Address, seat: usize, data14: u8) -> Vec<u8> {
    let mut data = [0x00; 14];
    data[13] = data14;
    extended(from, seat, [0x20, 0x05], data)
}

/// A message of another type, or one marked as extended that must not be.
fn with_flags(mut message: Vec<u8>, flags: u8) -> Vec<u8> {
    message[6] = flags;
    message
}

#[test]
fn order_11_before_9() {
    let ping = direct(LINKED, 0, 0x0F, 0x00);
    let one_address = two_at_one_address(ping.clone());
    one_address
        .clone()
        .links(&[0x00; 31])
        .only_answers(11, 0, &[]);
    one_address.only_answers(9, 0, &[]);
    ClassExample::of(&[Dimmer; 17], ping)
        .starting(|row| row[16].identity.address = address(0))
        .only_answers(11, 0, &[]);
}

#[test]
fn order_9_before_1() {
    two_at_one_address(vec![]).only_answers(9, 0, &[]);
    two(vec![]).only_answers(1, 0, &[]);
}

#[test]
fn order_11_before_1() {
    two(vec![]).links(&[0x00; 31]).only_answers(11, 0, &[]);
    ClassExample::of(&[], vec![]).only_answers(11, 0, &[]);
}

/// Bit 4 of the flags says extended, but there are nine bytes.
#[test]
fn order_1_before_3() {
    let ping = direct(LINKED, 1, 0x0F, 0x00);
    for (belied, other_type) in [(0x3F, 0x2F), (0x9F, 0x8F), (0xBF, 0xAF)] {
        two(with_flags(ping.clone(), belied)).only_answers(1, 0, &[]);
        two(with_flags(ping.clone(), other_type)).only_answers(3, 0, &[]);
    }
    for not_direct in [0x5F, 0xDF] {
        two(with_flags(ping.clone(), not_direct)).only_answers(1, 0, &[]);
        let whole = set_flag(LINKED, 1, 0xDB);
        two(with_flags(whole, not_direct)).only_answers(3, 0, &[]);
    }
}

/// Nobody sits at the third seat.
#[test]
fn order_3_before_10() {
    let ping = direct(LINKED, 2, 0x0F, 0x00);
    for other_type in [0x2F, 0x6F, 0x8F, 0xAF, 0xEF] {
        two(with_flags(ping.clone(), other_type)).only_answers(3, 0, &[]);
    }
    let whole = set_flag(LINKED, 2, 0xDB);
    two(with_flags(whole.clone(), 0x5F)).only_answers(3, 0, &[]);
    two(ping).only_answers(10, 0, &[]);
    two(whole).only_answers(10, 0, &[]);
    two(cleanup(LINKED, 2, 0x11, 0x01)).only_answers(10, 0, &[]);
}

#[test]
fn order_10_before_4() {
    two(set_flag(LINKED, 2, 0xDC)).only_answers(10, 0, &[]);
    two(set_flag(LINKED, 1, 0xDC)).only_answers(4, 0, &[]);
}

/// What was not addressed to anyone here is neither a stranger's nor unlisted, and needs no room.
#[test]
fn order_10_before_6_7_and_5() {
    two(direct(STRANGER, 2, 0x11, 0x80)).only_answers(10, 0, &[]);
    two(direct(LINKED, 2, 0x39, 0x65)).only_answers(10, 0, &[]);
    two(direct(LINKED, 2, 0x11, 0x80))
        .room(0)
        .only_answers(10, 0, &[]);
}

/// 4 and 8 never meet: a broadcast that has a sum to be wrong is extended, and so 3.
#[test]
fn order_4_before_6() {
    two(set_flag(STRANGER, 1, 0xDC)).only_answers(4, 0, &[]);
    let nak = reply(1, STRANGER, 0xAF, 0x20, 0xFF);
    two(set_flag(STRANGER, 1, 0xDB)).only_answers(6, 2, &nak);
    let wrong = with_flags(set_flag(LINKED, 1, 0xDC), 0xDF);
    two(wrong).only_answers(3, 0, &[]);
}

/// 8 and 6 never meet either. A stranger's broadcast is 8, with no NAK that would need room.
#[test]
fn order_8_before_5() {
    let unheard = two(broadcast(STRANGER, 0x11, 0x01));
    unheard.clone().room(0).only_answers(8, 4, &[]);
    unheard.only_answers(8, 4, &[]);
}

#[test]
fn order_6_before_7() {
    let nak = reply(1, STRANGER, 0xAF, 0x39, 0xFF);
    two(direct(STRANGER, 1, 0x39, 0x65)).only_answers(6, 2, &nak);
    let nak = reply(1, LINKED, 0xAF, 0x39, 0xFB);
    two(direct(LINKED, 1, 0x39, 0x65)).only_answers(7, 1, &nak);
    let nak = reply(1, LINKED, 0xEF, 0x15, 0xFF);
    two(cleanup(LINKED, 1, 0x15, 0x02)).only_answers(6, 2, &nak);
    let nak = reply(1, LINKED, 0xEF, 0x15, 0xFB);
    two(cleanup(LINKED, 1, 0x15, 0x01)).only_answers(7, 1, &nak);
}

/// Nine bytes are too few for a database, and enough for its NAK. Where that does not fit either, the result is 5.
#[test]
fn order_7_before_5() {
    let no_such_record = two(get(1, [0x0F, 0xEF]));
    let nak = reply(1, LINKED, 0xAF, 0x2F, 0xFB);
    no_such_record.clone().room(9).only_answers(7, 1, &nak);
    no_such_record.room(8).only_answers(5, 1, &[]);
    two(get(1, [0x0F, 0xFF])).room(9).only_answers(5, 1, &[]);
    two(direct(STRANGER, 1, 0x11, 0x80))
        .room(8)
        .only_answers(5, 2, &[]);
}
