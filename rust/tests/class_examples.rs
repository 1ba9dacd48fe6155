//! Request 5: rows, shares and groups of a class. Every expected byte was typed from the papers.

use dreelish_tests::class_example::{
    address, broadcast, cleanup, direct, extended, get, reply, ClassExample,
};
use dreelish_tests::example::{lamp, sockets, standard, LINKED, LINKS, STRANGER};
use dreelish_tests::paper::ModuleKind::{Dimmer, Outlet};
use dreelish_tests::paper::{Address, Module};

/// The write of P11 and P12.
fn write(seat: usize, name: [u8; 2], data14: u8) -> Vec<u8> {
    let [high, low] = name;
    let data = [
        0x01, 0x02, high, low, 0x08, 0xE2, 0x01, 0x08, 0xB6, 0xEA, 0x00, 0x1B, 0x01, data14,
    ];
    extended(LINKED, seat, [0x2F, 0x00], data)
}

fn two(message: Vec<u8>) -> ClassExample {
    ClassExample::of(&[Dimmer, Dimmer], message)
}

/// The examples' link memory with this flags byte, group, address and D1 in its record.
fn record(flags: u8, group: u8, sender: Address, d1: u8) -> [u8; 16] {
    let mut links = LINKS;
    links[..2].copy_from_slice(&[flags, group]);
    links[2..5].copy_from_slice(&sender);
    links[5] = d1;
    links
}

fn level(module: &mut Module) -> &mut u8 {
    &mut lamp(module).level
}

/// Only the addressed module's level moves, wherever it sits.
#[test]
fn rows_of_one_two_and_sixteen() {
    for seats in [1, 2, 16] {
        for seat in 0..seats {
            let on = direct(LINKED, seat, 0x11, 0x80);
            let ack = reply(seat, LINKED, 0x2F, 0x11, 0x80);
            ClassExample::of(&vec![Dimmer; seats], on)
                .comes_to(0, 1, &ack, |comes| *level(&mut comes.row[seat]) = 0x80);
        }
        let to_nobody = direct(LINKED, seats, 0x11, 0x80);
        ClassExample::of(&vec![Dimmer; seats], to_nobody).only_answers(10, 0, &[]);
    }
}

#[test]
fn rows_of_none_and_seventeen() {
    for seats in [0, 17] {
        for seat in [0, 1, 15, 16] {
            let ping = direct(LINKED, seat, 0x0F, 0x00);
            ClassExample::of(&vec![Dimmer; seats], ping).only_answers(11, 0, &[]);
        }
        let all_on = broadcast(LINKED, 0x11, 0x01);
        ClassExample::of(&vec![Outlet; seats], all_on).only_answers(11, 0, &[]);
    }
}

/// P2 for shares: those of 8 and 2,048 bytes are fit, and what was 2 is 11.
#[test]
fn shares_fit_and_unfit() {
    let ack = reply(1, LINKED, 0x2F, 0x0F, 0x00);
    let ping = two(direct(LINKED, 1, 0x0F, 0x00));
    for share in [8, 2048] {
        let links = vec![0x00; 2 * share];
        ping.clone().links(&links).only_answers(0, 0, &ack);
    }
    for share in [0, 7, 12, 2047, 2056] {
        let links = vec![0x00; 2 * share];
        ping.clone().links(&links).only_answers(11, 0, &[]);
    }
    for unequal in [15, 17, 4095, 4097] {
        let links = vec![0x00; unequal];
        ping.clone().links(&links).only_answers(11, 0, &[]);
    }
    let of_three = ClassExample::of(&[Dimmer; 3], direct(LINKED, 1, 0x0F, 0x00));
    of_three.clone().links(&[0x00; 24]).only_answers(0, 0, &ack);
    of_three.links(&[0x00; 32]).only_answers(11, 0, &[]);
}

/// Two that differ in one byte of their address are two, and who has but two bytes of it is not meant.
#[test]
fn one_address_is_all_three_bytes() {
    let ping = direct(LINKED, 0, 0x0F, 0x00);
    let ack = reply(0, LINKED, 0x2F, 0x0F, 0x00);
    for near in [[0x01, 0x10, 0x3A], [0x00, 0x11, 0x3A], [0x00, 0x10, 0x3C]] {
        two(ping.clone())
            .starting(|row| row[1].identity.address = near)
            .only_answers(0, 0, &ack);
        two(standard(LINKED, near, 0x0F, [0x0F, 0x00])).only_answers(10, 0, &[]);
    }
    for (one, other) in [(0, 1), (0, 15), (7, 9), (14, 15)] {
        ClassExample::of(&[Dimmer; 16], ping.clone())
            .starting(|row| row[one].identity.address = row[other].identity.address)
            .only_answers(9, 0, &[]);
    }
}

#[test]
fn both_kinds_in_one_row() {
    let row = |message| ClassExample::of(&[Dimmer, Outlet, Dimmer], message);
    for seat in [0, 2] {
        let ack = reply(seat, LINKED, 0x2F, 0x11, 0x80);
        row(direct(LINKED, seat, 0x11, 0x80))
            .comes_to(0, 1, &ack, |comes| *level(&mut comes.row[seat]) = 0x80);
        let nak = reply(seat, LINKED, 0xAF, 0x19, 0xFB);
        row(direct(LINKED, seat, 0x19, 0x01)).only_answers(7, 1, &nak);
    }
    let ack = reply(1, LINKED, 0x2F, 0x11, 0x80);
    row(direct(LINKED, 1, 0x11, 0x80))
        .comes_to(0, 1, &ack, |comes| sockets(&mut comes.row[1]).top = true);
    let ack = reply(1, LINKED, 0x2F, 0x00, 0x00);
    row(direct(LINKED, 1, 0x19, 0x01)).only_answers(0, 1, &ack);
    let nak = reply(1, LINKED, 0xAF, 0x39, 0xFB);
    row(direct(LINKED, 1, 0x39, 0x32)).only_answers(7, 1, &nak);
}

/// A stranger may ask who sits where.
#[test]
fn each_seat_says_who_it_is() {
    let row = |seat| ClassExample::of(&[Dimmer, Outlet], direct(STRANGER, seat, 0x10, 0x00));
    #[rustfmt::skip]
    row(0).only_answers(0, 0, &[
        0x00, 0x10, 0x3A, 0x11, 0x22, 0x33, 0x2F, 0x10, 0x00,
        0x00, 0x10, 0x3A, 0x01, 0x0F, 0xC1, 0x8F, 0x01, 0x00,
    ]);
    #[rustfmt::skip]
    row(1).only_answers(0, 0, &[
        0x00, 0x10, 0x3B, 0x11, 0x22, 0x33, 0x2F, 0x10, 0x00,
        0x00, 0x10, 0x3B, 0x02, 0x39, 0xC2, 0x8F, 0x01, 0x00,
    ]);
}

#[test]
fn a_broadcast_on_which_both_act() {
    let own = record(0xA2, 0x01, LINKED, 0x40);
    two(broadcast(LINKED, 0x11, 0x01))
        .share(1, &own)
        .room(0)
        .comes_to(0, 2, &[], |comes| {
            *level(&mut comes.row[0]) = 0x80;
            *level(&mut comes.row[1]) = 0x40;
        });
    ClassExample::of(&[Outlet, Dimmer], broadcast(LINKED, 0x12, 0x01)).comes_to(
        0,
        2,
        &[],
        |comes| {
            sockets(&mut comes.row[0]).top = true;
            *level(&mut comes.row[1]) = 0x80;
        },
    );
}

/// The other reads its record and the end mark, which are counted too.
#[test]
fn a_broadcast_on_which_one_acts() {
    let other_group = record(0xA2, 0x02, LINKED, 0x80);
    for (acts, acts_not) in [(0, 1), (1, 0)] {
        let on = two(broadcast(LINKED, 0x11, 0x01)).share(acts_not, &other_group);
        on.comes_to(0, 3, &[], |comes| *level(&mut comes.row[acts]) = 0x80);
        let off = two(broadcast(LINKED, 0x13, 0x01)).share(acts_not, &other_group);
        off.starting(|row| row.iter_mut().for_each(|module| *level(module) = 0x55))
            .comes_to(0, 3, &[], |comes| *level(&mut comes.row[acts]) = 0x00);
    }
    let mut no_socket = LINKS;
    no_socket[7] = 0x03;
    ClassExample::of(&[Dimmer, Outlet], broadcast(LINKED, 0x11, 0x01))
        .share(1, &no_socket)
        .comes_to(0, 2, &[], |comes| *level(&mut comes.row[0]) = 0x80);
}

#[test]
fn a_broadcast_on_which_none_acts() {
    two(broadcast(LINKED, 0x11, 0x02)).only_answers(8, 4, &[]);
    two(broadcast(STRANGER, 0x11, 0x01)).only_answers(8, 4, &[]);
    two(broadcast(LINKED, 0x15, 0x01)).only_answers(8, 0, &[]);
    let to_no_group = standard(LINKED, [0x00, 0x01, 0x01], 0xCF, [0x11, 0x00]);
    two(to_no_group).only_answers(8, 0, &[]);
    let mut no_socket = LINKS;
    no_socket[7] = 0x00;
    ClassExample::of(&[Outlet], broadcast(LINKED, 0x11, 0x01))
        .share(0, &no_socket)
        .only_answers(8, 1, &[]);
}

/// A group that looks like the address of a seat is a group to all.
#[test]
fn a_broadcast_is_for_all_whoever_has_its_to() {
    two(broadcast(LINKED, 0x11, 0x01))
        .starting(|row| row[1].identity.address = [0x00, 0x00, 0x01])
        .comes_to(0, 2, &[], |comes| {
            *level(&mut comes.row[0]) = 0x80;
            *level(&mut comes.row[1]) = 0x80;
        });
}

#[test]
fn a_broadcast_from_a_seat_is_offered_to_that_seat_too() {
    let of_seat_0 = record(0xA2, 0x01, address(0), 0x80);
    two(broadcast(address(0), 0x11, 0x01))
        .share(0, &of_seat_0)
        .share(1, &of_seat_0)
        .comes_to(0, 2, &[], |comes| {
            *level(&mut comes.row[0]) = 0x80;
            *level(&mut comes.row[1]) = 0x80;
        });
    two(broadcast(address(0), 0x11, 0x01))
        .share(0, &of_seat_0)
        .comes_to(0, 3, &[], |comes| *level(&mut comes.row[0]) = 0x80);
}

/// A cleanup is for one, though the group's other members are here.
#[test]
fn a_cleanup_goes_to_its_seat_alone() {
    for seat in 0..2 {
        let ack = reply(seat, LINKED, 0x6F, 0x11, 0x01);
        two(cleanup(LINKED, seat, 0x11, 0x01))
            .comes_to(0, 1, &ack, |comes| *level(&mut comes.row[seat]) = 0x80);
    }
}

#[test]
fn a_write_touches_its_own_share_only() {
    let written = [0xE2, 0x01, 0x08, 0xB6, 0xEA, 0x00, 0x1B, 0x01];
    for seat in 0..3 {
        for (name, data14, at) in [
            ([0x0F, 0xFF], 0x11, 0),
            ([0x00, 0x00], 0x1F, 0),
            ([0x0F, 0xF7], 0x19, 8),
        ] {
            let ack = reply(seat, LINKED, 0x2F, 0x2F, 0x00);
            let row = [Dimmer, Outlet, Dimmer];
            ClassExample::of(&row, write(seat, name, data14)).comes_to(0, 1, &ack, |comes| {
                comes.share(seat)[at..][..8].copy_from_slice(&written);
                comes.row[seat].delta = 0x01;
            });
        }
    }
}

/// The record behind a share is a neighbour's, and past the memory.
#[test]
fn a_share_ends_where_the_next_begins() {
    let nak = reply(0, LINKED, 0xAF, 0x2F, 0xFB);
    two(write(0, [0x0F, 0xEF], 0x21)).only_answers(7, 1, &nak);
    two(get(0, [0x0F, 0xEF])).only_answers(7, 1, &nak);
}

/// A neighbour's record opens nothing, not even where no end mark stands before it.
#[test]
fn a_search_stays_in_its_share() {
    let on = two(direct(LINKED, 0, 0x11, 0x80));
    let nak = reply(0, LINKED, 0xAF, 0x11, 0xFF);
    on.clone().share(0, &[0x00; 16]).only_answers(6, 1, &nak);
    let full = [0xA2, 0x01, 0x11, 0x22, 0x33, 0x80, 0x1C, 0x01].repeat(2);
    let full = full.try_into().expect("two records are a share");
    on.share(0, &full).only_answers(6, 2, &nak);
    two(broadcast(LINKED, 0x11, 0x01))
        .share(0, &full)
        .comes_to(0, 3, &[], |comes| *level(&mut comes.row[1]) = 0x80);
}

/// P13 at the second seat, whose records have the same names as the first one's.
#[test]
fn get_shows_the_share_of_its_seat() {
    let own = record(0xA2, 0x05, LINKED, 0x40);
    #[rustfmt::skip]
    let whole = [
        0x00, 0x10, 0x3B, 0xAA, 0xBB, 0xCC, 0x2F, 0x2F, 0x00,
        0x00, 0x10, 0x3B, 0xAA, 0xBB, 0xCC, 0x1F, 0x2F, 0x00,
        0x07, 0x01, 0x0F, 0xFF, 0x00, 0xA2, 0x05, 0xAA, 0xBB, 0xCC, 0x40, 0x1C, 0x01, 0x00,
        0x00, 0x10, 0x3B, 0xAA, 0xBB, 0xCC, 0x1F, 0x2F, 0x00,
        0x07, 0x01, 0x0F, 0xF7, 0x00, 0x00, 0x00, 0x00, 0x00, 0x00, 0x00, 0x00, 0x00, 0x00,
    ];
    for name in [[0x0F, 0xFF], [0x00, 0x00]] {
        let example = two(get(1, name)).share(1, &own);
        example.clone().room(55).only_answers(0, 1, &whole);
        example.room(54).only_answers(5, 1, &[]);
    }
}

/// Request 4 holds at every seat: the hops of a reply are the request's largest, fresh.
#[test]
fn replies_have_fresh_hops() {
    for (request, ack) in [(0x00, 0x20), (0x05, 0x25), (0x0A, 0x2A), (0x0F, 0x2F)] {
        let ping = standard(LINKED, address(1), request, [0x0F, 0x00]);
        two(ping).only_answers(0, 0, &reply(1, LINKED, ack, 0x0F, 0x00));
    }
    let cleanup = standard(LINKED, address(1), 0x40, [0x11, 0x01]);
    let ack = reply(1, LINKED, 0x60, 0x11, 0x01);
    two(cleanup).comes_to(0, 1, &ack, |comes| *level(&mut comes.row[1]) = 0x80);
}
