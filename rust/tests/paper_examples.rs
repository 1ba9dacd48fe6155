//! "Bench examples", P1 to P15 and the checksums to run. Every expected byte was typed from the paper.

use dreelish_tests::example::{lamp, reply, Example, LINKED, STRANGER};

/// A record write with Data 1 = 01 and the record of the paper's second checksum.
fn write(address: [u8; 2], length: u8, data14: u8) -> Example {
    let [high, low] = address;
    let data = [
        0x01, 0x02, high, low, length, 0xE2, 0x01, 0x08, 0xB6, 0xEA, 0x00, 0x1B, 0x01, data14,
    ];
    Example::extended(LINKED, 0x2F, 0x00, data)
}

fn set_ramp(ramp: u8, data14: u8) -> Example {
    let mut data = [0x00; 14];
    data[1..3].copy_from_slice(&[0x05, ramp]);
    data[13] = data14;
    Example::extended(LINKED, 0x2E, 0x00, data)
}

fn set_flag(command2: u8, data14: u8) -> Example {
    let mut data = [0x00; 14];
    data[13] = data14;
    Example::extended(LINKED, 0x20, command2, data)
}

#[test]
fn p1_empty_message() {
    Example::of(vec![]).only_answers(1, 0, &[]);
}

#[test]
fn p2_fit_and_unfit_link_memory() {
    let ping = Example::direct(LINKED, 0x0F, 0x00);
    for unfit in [0, 7, 2056] {
        let links = vec![0x00; unfit];
        ping.clone().links(&links).only_answers(2, 0, &[]);
    }
    for fit in [8, 2048] {
        let links = vec![0x00; fit];
        ping.clone()
            .links(&links)
            .only_answers(0, 0, &reply(LINKED, 0x2F, 0x0F, 0x00));
    }
}

#[test]
fn p3_stranger_pings() {
    Example::direct(STRANGER, 0x0F, 0x00).only_answers(
        0,
        0,
        &[0x00, 0x10, 0x3A, 0x11, 0x22, 0x33, 0x2F, 0x0F, 0x00],
    );
}

#[test]
fn p4_stranger_switches_on() {
    Example::direct(STRANGER, 0x11, 0x80).only_answers(
        6,
        2,
        &[0x00, 0x10, 0x3A, 0x11, 0x22, 0x33, 0xAF, 0x11, 0xFF],
    );
}

#[test]
fn p5_linked_sender_switches_on() {
    Example::direct(LINKED, 0x11, 0x80).comes_to(
        0,
        1,
        &[0x00, 0x10, 0x3A, 0xAA, 0xBB, 0xCC, 0x2F, 0x11, 0x80],
        |comes| lamp(&mut comes.module).level = 0x80,
    );
}

#[test]
fn p6_brighter_and_darker_stop_at_the_ends() {
    let brighter = Example::direct(LINKED, 0x15, 0x00);
    for level in [0xF7, 0xFA] {
        let ack = reply(LINKED, 0x2F, 0x15, 0x00);
        brighter
            .clone()
            .starting(|module| lamp(module).level = level)
            .comes_to(0, 1, &ack, |comes| {
                lamp(&mut comes.module).level = 0xFF;
            });
    }
    let ack = reply(LINKED, 0x2F, 0x16, 0x00);
    Example::direct(LINKED, 0x16, 0x00)
        .starting(|module| lamp(module).level = 0x07)
        .comes_to(0, 1, &ack, |comes| lamp(&mut comes.module).level = 0x00);
}

#[test]
fn p7_per_cent() {
    let ack = reply(LINKED, 0x2F, 0x39, 0x32);
    Example::direct(LINKED, 0x39, 0x32)
        .comes_to(0, 1, &ack, |comes| lamp(&mut comes.module).level = 0x80);
    let ack = reply(LINKED, 0x2F, 0x00, 0x32);
    Example::direct(LINKED, 0x19, 0x06)
        .starting(|module| lamp(module).level = 0x80)
        .only_answers(0, 1, &ack);
    let nak = reply(LINKED, 0xAF, 0x39, 0xFB);
    Example::direct(LINKED, 0x39, 0x65).only_answers(7, 1, &nak);
}

#[test]
fn p8_standard_2e() {
    let ack = reply(LINKED, 0x2F, 0x2E, 0xF7);
    Example::direct(LINKED, 0x2E, 0xF7)
        .comes_to(0, 1, &ack, |comes| lamp(&mut comes.module).level = 0xFF);
    let ack = reply(LINKED, 0x2F, 0x2E, 0x0F);
    Example::direct(LINKED, 0x2E, 0x0F)
        .comes_to(0, 1, &ack, |comes| lamp(&mut comes.module).level = 0x0F);
}

#[test]
fn p9_flag_bit_and_checksum() {
    let ack = reply(LINKED, 0x2F, 0x20, 0x05);
    set_flag(0x05, 0xDB).only_answers(0, 1, &ack);
    set_flag(0x05, 0xDB)
        .starting(|module| module.flags = 0xFF)
        .comes_to(0, 1, &ack, |comes| comes.module.flags = 0xFB);
    set_flag(0x05, 0xDC).only_answers(4, 0, &[]);
}

#[test]
fn p10_ramp() {
    let ack = reply(LINKED, 0x2F, 0x2E, 0x00);
    set_ramp(0x1F, 0xAE).only_answers(0, 1, &ack);
    set_ramp(0x1F, 0xAE)
        .starting(|module| lamp(module).ramp = 0x00)
        .comes_to(0, 1, &ack, |comes| lamp(&mut comes.module).ramp = 0x1F);
    let nak = reply(LINKED, 0xAF, 0x2E, 0xFB);
    set_ramp(0x20, 0xAD).only_answers(7, 1, &nak);
}

#[test]
fn p11_lengths_of_a_write() {
    let ack = reply(LINKED, 0x2F, 0x2F, 0x00);
    write([0x0F, 0xFF], 0x08, 0x11).comes_to(0, 1, &ack, |comes| {
        comes.links[..8].copy_from_slice(&[0xE2, 0x01, 0x08, 0xB6, 0xEA, 0x00, 0x1B, 0x01]);
        comes.module.delta = 0x01;
    });
    let nak = reply(LINKED, 0xAF, 0x2F, 0xFB);
    write([0x0F, 0xFF], 0x09, 0x10).only_answers(7, 1, &nak);
    write([0x0F, 0xFF], 0x00, 0x19).only_answers(7, 1, &nak);
}

#[test]
fn p12_names_of_records() {
    let ack = reply(LINKED, 0x2F, 0x2F, 0x00);
    write([0x0F, 0xF7], 0x08, 0x19).comes_to(0, 1, &ack, |comes| {
        comes.links[8..].copy_from_slice(&[0xE2, 0x01, 0x08, 0xB6, 0xEA, 0x00, 0x1B, 0x01]);
        comes.module.delta = 0x01;
    });
    let nak = reply(LINKED, 0xAF, 0x2F, 0xFB);
    write([0x0F, 0xFE], 0x08, 0x12).only_answers(7, 1, &nak);
    write([0x0F, 0xEF], 0x08, 0x21).only_answers(7, 1, &nak);
}

#[test]
fn p13_whole_database() {
    let mut data = [0x00; 14];
    data[..4].copy_from_slice(&[0x07, 0x00, 0x0F, 0xFF]);
    let get = Example::extended(LINKED, 0x2F, 0x00, data);
    #[rustfmt::skip]
    let whole = [
        0x00, 0x10, 0x3A, 0xAA, 0xBB, 0xCC, 0x2F, 0x2F, 0x00,
        0x00, 0x10, 0x3A, 0xAA, 0xBB, 0xCC, 0x1F, 0x2F, 0x00,
        0x07, 0x01, 0x0F, 0xFF, 0x00, 0xA2, 0x01, 0xAA, 0xBB, 0xCC, 0x80, 0x1C, 0x01, 0x00,
        0x00, 0x10, 0x3A, 0xAA, 0xBB, 0xCC, 0x1F, 0x2F, 0x00,
        0x07, 0x01, 0x0F, 0xF7, 0x00, 0x00, 0x00, 0x00, 0x00, 0x00, 0x00, 0x00, 0x00, 0x00,
    ];
    assert_eq!(whole.len(), 55);
    get.only_answers(0, 1, &whole);
    get.clone().room(55).only_answers(0, 1, &whole);
    get.room(54).only_answers(5, 1, &[]);
}

#[test]
fn p14_group_broadcast() {
    Example::broadcast(LINKED, 0x11, 0x01)
        .room(0)
        .comes_to(0, 1, &[], |comes| lamp(&mut comes.module).level = 0x80);
}

#[test]
fn p15_cleanup_without_a_record() {
    Example::cleanup(LINKED, 0x11, 0x02).only_answers(
        6,
        2,
        &[0x00, 0x10, 0x3A, 0xAA, 0xBB, 0xCC, 0xEF, 0x11, 0xFF],
    );
}

/// The two messages of the line "Run", with every Data 14: just the right one is not refused with 4.
#[test]
fn run_the_checksums() {
    let nak = reply(LINKED, 0xAF, 0x2F, 0xFB);
    let mut first = [
        0x00, 0x02, 0xFF, 0xF0, 0x08, 0xA2, 0x05, 0x00, 0x5E, 0x5D, 0xFE, 0x1F, 0x01, 0x58,
    ];
    Example::extended(LINKED, 0x2F, 0x00, first).only_answers(7, 1, &nak);
    for wrong in (0x00..=0xFF).filter(|&data14| data14 != 0x58) {
        first[13] = wrong;
        Example::extended(LINKED, 0x2F, 0x00, first).only_answers(4, 0, &[]);
    }
    let ack = reply(LINKED, 0x2F, 0x2F, 0x00);
    write([0x0F, 0xFF], 0x08, 0x11).comes_to(0, 1, &ack, |comes| {
        comes.links[..8].copy_from_slice(&[0xE2, 0x01, 0x08, 0xB6, 0xEA, 0x00, 0x1B, 0x01]);
        comes.module.delta = 0x01;
    });
    for wrong in (0x00..=0xFF).filter(|&data14| data14 != 0x11) {
        write([0x0F, 0xFF], 0x08, wrong).only_answers(4, 0, &[]);
    }
}

/// The numbers that the row of extended 20 gives in brackets.
#[test]
fn named_flags() {
    for (command2, data14, flags) in [(0x00, 0xE0, 0x01), (0x08, 0xD8, 0x10), (0x0C, 0xD4, 0x40)] {
        let ack = reply(LINKED, 0x2F, 0x20, command2);
        set_flag(command2, data14).comes_to(0, 1, &ack, |comes| comes.module.flags = flags);
    }
}
