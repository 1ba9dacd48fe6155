//! Request 1, from the start of "Bench examples" with an outlet. Every expected byte was typed from the papers.

use dreelish_tests::example::{reply, sockets, Example, LINKED, LINKS, STRANGER};
use dreelish_tests::paper::sockets::Sockets;
use dreelish_tests::paper::Module;

const STATES: [(bool, bool); 4] = [(false, false), (true, false), (false, true), (true, true)];

fn direct(command1: u8, command2: u8) -> Example {
    Example::direct(LINKED, command1, command2).to_outlet()
}

/// An extended message that has only Data 1 to 3 and Data 14.
fn extended(command1: u8, command2: u8, first: [u8; 3], data14: u8) -> Example {
    let mut data = [0x00; 14];
    data[..3].copy_from_slice(&first);
    data[13] = data14;
    Example::extended(LINKED, command1, command2, data).to_outlet()
}

/// The examples' link memory with another D1 and D3 in its record.
fn record_with(d1: u8, d3: u8) -> Vec<u8> {
    let mut links = LINKS.to_vec();
    links[5] = d1;
    links[7] = d3;
    links
}

fn set(module: &mut Module, top: bool, bottom: bool) {
    *sockets(module) = Sockets { top, bottom };
}

#[test]
fn standard_11_and_13_switch_the_top_socket_and_leave_command_2_unread() {
    for (top, bottom) in STATES {
        for command2 in [0x00, 0x01, 0x80, 0xFF] {
            for (command1, on) in [(0x11, true), (0x13, false)] {
                let ack = reply(LINKED, 0x2F, command1, command2);
                direct(command1, command2)
                    .starting(|module| set(module, top, bottom))
                    .comes_to(0, 1, &ack, |comes| set(&mut comes.module, on, bottom));
            }
        }
    }
}

#[test]
fn extended_11_and_13_with_02_switch_the_bottom_socket() {
    for (top, bottom) in STATES {
        for (command1, data14, on) in [(0x11, 0xED, true), (0x13, 0xEB, false)] {
            let ack = reply(LINKED, 0x2F, command1, 0x00);
            extended(command1, 0x00, [0x02, 0x00, 0x00], data14)
                .starting(|module| set(module, top, bottom))
                .comes_to(0, 1, &ack, |comes| set(&mut comes.module, top, on));
        }
    }
    let ack = reply(LINKED, 0x2F, 0x11, 0x80);
    extended(0x11, 0x80, [0x02, 0x00, 0x00], 0x6D)
        .comes_to(0, 1, &ack, |comes| set(&mut comes.module, false, true));
}

#[test]
fn the_bottom_socket_needs_its_checksum_and_its_number() {
    for wrong in (0x00..=0xFF).filter(|&data14| data14 != 0xED) {
        extended(0x11, 0x00, [0x02, 0x00, 0x00], wrong).only_answers(4, 0, &[]);
    }
    for data1 in (0x00..=0xFF_u8).filter(|&data1| data1 != 0x02) {
        let on = 0xEF_u8.wrapping_sub(data1);
        let off = 0xED_u8.wrapping_sub(data1);
        let nak = reply(LINKED, 0xAF, 0x11, 0xFB);
        extended(0x11, 0x00, [data1, 0x00, 0x00], on).only_answers(7, 1, &nak);
        let nak = reply(LINKED, 0xAF, 0x13, 0xFB);
        extended(0x13, 0x00, [data1, 0x00, 0x00], off).only_answers(7, 1, &nak);
    }
}

#[test]
fn a_dimmer_has_no_bottom_socket() {
    let mut data = [0x00; 14];
    (data[0], data[13]) = (0x02, 0xED);
    let nak = reply(LINKED, 0xAF, 0x11, 0xFB);
    Example::extended(LINKED, 0x11, 0x00, data).only_answers(7, 1, &nak);
    let nak = reply(LINKED, 0xAF, 0x19, 0xFB);
    Example::direct(LINKED, 0x19, 0x01).only_answers(7, 1, &nak);
}

#[test]
fn status_shows_the_top_socket_and_both() {
    for ((top, bottom), of_top, of_both) in [
        (STATES[0], 0x00, 0x00),
        (STATES[1], 0xFF, 0x01),
        (STATES[2], 0x00, 0x02),
        (STATES[3], 0xFF, 0x03),
    ] {
        for (command2, shown) in [(0x00, of_top), (0x01, of_both)] {
            let ack = reply(LINKED, 0x2F, 0x07, shown);
            direct(0x19, command2)
                .starting(|module| {
                    set(module, top, bottom);
                    module.delta = 0x07;
                })
                .only_answers(0, 1, &ack);
        }
    }
}

#[test]
fn a_stranger_is_refused_and_may_ask_who_is_there() {
    let nak = reply(STRANGER, 0xAF, 0x11, 0xFF);
    Example::direct(STRANGER, 0x11, 0x80)
        .to_outlet()
        .only_answers(6, 2, &nak);
    let mut data = [0x00; 14];
    (data[0], data[13]) = (0x02, 0xED);
    Example::extended(STRANGER, 0x11, 0x00, data)
        .to_outlet()
        .only_answers(6, 2, &nak);
    let ack = reply(STRANGER, 0x2F, 0x0F, 0x00);
    Example::direct(STRANGER, 0x0F, 0x00)
        .to_outlet()
        .only_answers(0, 0, &ack);
    #[rustfmt::skip]
    let id = [
        0x00, 0x10, 0x3A, 0x11, 0x22, 0x33, 0x2F, 0x10, 0x00,
        0x00, 0x10, 0x3A, 0x02, 0x39, 0xC2, 0x8F, 0x01, 0x00,
    ];
    Example::direct(STRANGER, 0x10, 0x00)
        .to_outlet()
        .only_answers(0, 0, &id);
}

#[test]
fn commands_that_are_not_legal_here() {
    let unlisted = [
        (0x12, 0x80),
        (0x14, 0x00),
        (0x15, 0x00),
        (0x16, 0x00),
        (0x21, 0x80),
        (0x39, 0x32),
        (0x2E, 0xF7),
        (0x2F, 0x00),
        (0x19, 0x06),
        (0x19, 0x02),
    ];
    for (command1, command2) in unlisted {
        let nak = reply(LINKED, 0xAF, command1, 0xFB);
        direct(command1, command2).only_answers(7, 1, &nak);
        let nak = reply(STRANGER, 0xAF, command1, 0xFF);
        Example::direct(STRANGER, command1, command2)
            .to_outlet()
            .only_answers(6, 2, &nak);
    }
    let nak = reply(LINKED, 0xAF, 0x2E, 0xFB);
    extended(0x2E, 0x00, [0x00, 0x05, 0x1F], 0xAE).only_answers(7, 1, &nak);
    extended(0x2E, 0x00, [0x00, 0x06, 0x40], 0x8C).only_answers(7, 1, &nak);
}

#[test]
fn properties_show_the_fresh_ramp_and_on_level() {
    #[rustfmt::skip]
    let shown = [
        0x00, 0x10, 0x3A, 0xAA, 0xBB, 0xCC, 0x2F, 0x2E, 0x00,
        0x00, 0x10, 0x3A, 0xAA, 0xBB, 0xCC, 0x1F, 0x2E, 0x00,
        0x09, 0x01, 0x00, 0x00, 0x20, 0x20, 0x1F, 0xFF, 0x3F, 0x00, 0x01, 0x00, 0x00, 0x00,
    ];
    for (top, bottom) in STATES {
        extended(0x2E, 0x00, [0x09, 0x00, 0x00], 0x00)
            .starting(|module| set(module, top, bottom))
            .only_answers(0, 1, &shown);
    }
    let ack = reply(LINKED, 0x2F, 0x2E, 0x00);
    extended(0x2E, 0x00, [0x00, 0x07, 0x11], 0xBA)
        .comes_to(0, 1, &ack, |comes| comes.module.led = 0x11);
}

/// 04 and 05 are the bottom socket's load sense, 06 and 07 the top one's: bits 2 and 3.
#[test]
fn load_sense_is_stored_by_the_flag_rule() {
    for (command2, data14, before, after) in [
        (0x04, 0xDC, 0x00, 0x04),
        (0x05, 0xDB, 0xFF, 0xFB),
        (0x06, 0xDA, 0x00, 0x08),
        (0x07, 0xD9, 0xFF, 0xF7),
    ] {
        let ack = reply(LINKED, 0x2F, 0x20, command2);
        extended(0x20, command2, [0x00; 3], data14)
            .starting(|module| module.flags = before)
            .comes_to(0, 1, &ack, |comes| comes.module.flags = after);
    }
}

/// The commands that every kind has answer as a dimmer's do.
#[test]
fn what_every_kind_does() {
    let ack = reply(LINKED, 0x2F, 0x0D, 0x02);
    direct(0x0D, 0x00).only_answers(0, 1, &ack);
    let ack = reply(LINKED, 0x2F, 0x1F, 0x5A);
    direct(0x1F, 0x00)
        .starting(|module| module.flags = 0x5A)
        .only_answers(0, 1, &ack);
    direct(0x1F, 0x01)
        .starting(|module| module.delta = 0x5A)
        .only_answers(0, 1, &ack);
    let ack = reply(LINKED, 0x2F, 0x30, 0x03);
    direct(0x30, 0x03).only_answers(0, 1, &ack);
    let data = [
        0x01, 0x02, 0x0F, 0xFF, 0x08, 0xE2, 0x01, 0x08, 0xB6, 0xEA, 0x00, 0x1B, 0x01, 0x11,
    ];
    let ack = reply(LINKED, 0x2F, 0x2F, 0x00);
    Example::extended(LINKED, 0x2F, 0x00, data)
        .to_outlet()
        .comes_to(0, 1, &ack, |comes| {
            comes.links[..8].copy_from_slice(&[0xE2, 0x01, 0x08, 0xB6, 0xEA, 0x00, 0x1B, 0x01]);
            comes.module.delta = 0x01;
        });
}

/// D3 names the socket; D1 says for 11 and 12 whether it goes on, and 13 and 14 switch off.
#[test]
fn groups_switch_the_socket_that_the_record_names() {
    for (top, bottom) in STATES {
        for (command1, d1, on) in [
            (0x11, 0x80, true),
            (0x12, 0x01, true),
            (0x11, 0x00, false),
            (0x12, 0x00, false),
            (0x13, 0x80, false),
            (0x14, 0xFF, false),
        ] {
            for (d3, after) in [(0x01, (on, bottom)), (0x02, (top, on))] {
                let links = record_with(d1, d3);
                Example::broadcast(LINKED, command1, 0x01)
                    .to_outlet()
                    .links(&links)
                    .room(0)
                    .starting(|module| set(module, top, bottom))
                    .comes_to(0, 1, &[], |comes| set(&mut comes.module, after.0, after.1));
                let ack = reply(LINKED, 0x6F, command1, 0x01);
                Example::cleanup(LINKED, command1, 0x01)
                    .to_outlet()
                    .links(&links)
                    .starting(|module| set(module, top, bottom))
                    .comes_to(0, 1, &ack, |comes| set(&mut comes.module, after.0, after.1));
            }
        }
    }
}

#[test]
fn a_record_that_names_neither_socket() {
    for d3 in (0x00..=0xFF).filter(|d3| ![0x01, 0x02].contains(d3)) {
        for command1 in 0x11..=0x14 {
            let links = record_with(0x80, d3);
            Example::broadcast(LINKED, command1, 0x01)
                .to_outlet()
                .links(&links)
                .only_answers(8, 1, &[]);
            let nak = reply(LINKED, 0xEF, command1, 0xFB);
            Example::cleanup(LINKED, command1, 0x01)
                .to_outlet()
                .links(&links)
                .only_answers(7, 1, &nak);
        }
    }
}

/// The first record decides, even where a later one names a socket.
#[test]
fn the_first_record_decides() {
    let mut links = record_with(0x80, 0x03);
    links[8..].copy_from_slice(&[0xA2, 0x01, 0xAA, 0xBB, 0xCC, 0x80, 0x1C, 0x01]);
    Example::broadcast(LINKED, 0x11, 0x01)
        .to_outlet()
        .links(&links)
        .only_answers(8, 1, &[]);
}

#[test]
fn groups_without_a_record() {
    let nak = reply(LINKED, 0xEF, 0x11, 0xFF);
    Example::cleanup(LINKED, 0x11, 0x02)
        .to_outlet()
        .only_answers(6, 2, &nak);
    Example::broadcast(LINKED, 0x11, 0x02)
        .to_outlet()
        .only_answers(8, 2, &[]);
    Example::broadcast(LINKED, 0x15, 0x01)
        .to_outlet()
        .only_answers(8, 0, &[]);
    let nak = reply(LINKED, 0xEF, 0x15, 0xFB);
    Example::cleanup(LINKED, 0x15, 0x01)
        .to_outlet()
        .only_answers(7, 1, &nak);
}
