//! "Errors a good programmer makes here": neither implementation makes them, with either kind of module.

use dreelish_tests::example::{lamp, reply, sockets, Example, LINKED, LINKS, STRANGER};

/// What is sent to the dimmer, and the same to the outlet.
fn to_each(example: Example) -> [Example; 2] {
    [example.clone(), example.to_outlet()]
}

/// Link memory with one record of `flags` for the linked sender, then an end mark.
fn record_with(flags: u8) -> Vec<u8> {
    let mut links = LINKS.to_vec();
    links[0] = flags;
    links
}

#[test]
fn a_buried_record_opens_nothing() {
    let mut links = vec![0x00; 8];
    links.extend(LINKS);
    let nak = reply(LINKED, 0xAF, 0x11, 0xFF);
    for on in to_each(Example::direct(LINKED, 0x11, 0x80).links(&links)) {
        on.only_answers(6, 1, &nak);
    }
    for on in to_each(Example::broadcast(LINKED, 0x11, 0x01).links(&links)) {
        on.only_answers(8, 1, &[]);
    }
}

#[test]
fn an_end_mark_is_known_by_bit_1_alone() {
    let nak = reply(LINKED, 0xAF, 0x11, 0xFF);
    for flags in (0x00..=0xFF).filter(|flags| flags & 0x02 == 0) {
        for on in to_each(Example::direct(LINKED, 0x11, 0x80).links(&record_with(flags))) {
            on.only_answers(6, 1, &nak);
        }
    }
}

#[test]
fn a_record_out_of_use_is_passed_by() {
    let nak = reply(LINKED, 0xAF, 0x11, 0xFF);
    for on in to_each(Example::direct(LINKED, 0x11, 0x80).links(&record_with(0x22))) {
        on.only_answers(6, 2, &nak);
    }
}

#[test]
fn the_link_comes_before_the_number() {
    let nak = reply(STRANGER, 0xAF, 0x39, 0xFF);
    for percent in to_each(Example::direct(STRANGER, 0x39, 0x65)) {
        percent.only_answers(6, 2, &nak);
    }
    let mut data = [0x00; 14];
    (data[0], data[13]) = (0x03, 0xEC);
    let nak = reply(STRANGER, 0xAF, 0x11, 0xFF);
    for third_socket in to_each(Example::extended(STRANGER, 0x11, 0x00, data)) {
        third_socket.only_answers(6, 2, &nak);
    }
}

#[test]
fn a_controller_record_is_no_responder() {
    let controller = record_with(0xE2);
    for on in to_each(Example::broadcast(LINKED, 0x11, 0x01).links(&controller)) {
        on.only_answers(8, 2, &[]);
    }
    let nak = reply(LINKED, 0xEF, 0x11, 0xFF);
    for on in to_each(Example::cleanup(LINKED, 0x11, 0x01).links(&controller)) {
        on.only_answers(6, 2, &nak);
    }
    let ack = reply(LINKED, 0x2F, 0x11, 0x80);
    let [dimmer, outlet] = to_each(Example::direct(LINKED, 0x11, 0x80).links(&controller));
    dimmer.comes_to(0, 1, &ack, |comes| lamp(&mut comes.module).level = 0x80);
    outlet.comes_to(0, 1, &ack, |comes| sockets(&mut comes.module).top = true);
}

#[test]
fn extended_2e_sets_no_level() {
    let mut data = [0x00; 14];
    data[1..3].copy_from_slice(&[0x06, 0x40]);
    data[13] = 0x8C;
    let ack = reply(LINKED, 0x2F, 0x2E, 0x00);
    Example::extended(LINKED, 0x2E, 0x00, data)
        .comes_to(0, 1, &ack, |comes| lamp(&mut comes.module).on_level = 0x40);
}

#[test]
fn a_short_room_stops_the_write() {
    let data = [
        0x01, 0x02, 0x0F, 0xFF, 0x08, 0xE2, 0x01, 0x08, 0xB6, 0xEA, 0x00, 0x1B, 0x01, 0x11,
    ];
    for room in 0..9 {
        for write in to_each(Example::extended(LINKED, 0x2F, 0x00, data).room(room)) {
            write.only_answers(5, 1, &[]);
        }
    }
}
