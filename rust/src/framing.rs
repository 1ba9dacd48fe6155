//! "The program": modem frames, on their way in and on their way out.

use crate::paper::message::is_extended;

const START: u8 = 0x02;
const STANDARD: u8 = 0x50;
const EXTENDED: u8 = 0x51;

/// The messages in a stream that has come to its end.
pub fn messages(mut stream: &[u8]) -> Vec<&[u8]> {
    let mut messages = Vec::new();
    while !stream.is_empty() {
        let Some(length) = announced(stream) else {
            stream = &stream[1..];
            continue;
        };
        let Some((message, rest)) = stream[2..].split_at_checked(length) else {
            break;
        };
        messages.push(message);
        stream = rest;
    }
    messages
}

/// The frame of one message, standard or extended by its length.
pub fn frame(message: &[u8]) -> Vec<u8> {
    let second = match message.len() {
        9 => STANDARD,
        23 => EXTENDED,
        length => panic!("no frame holds {length} bytes"),
    };
    [&[START, second], message].concat()
}

/// The frames of a reply, which may be several messages or none.
pub fn frames(mut reply: &[u8]) -> Vec<u8> {
    let mut frames = Vec::new();
    while !reply.is_empty() {
        let length = if is_extended(reply[6]) { 23 } else { 9 };
        let (message, rest) = reply.split_at(length);
        frames.extend(frame(message));
        reply = rest;
    }
    frames
}

/// The length of the message that the next two bytes announce.
fn announced(stream: &[u8]) -> Option<usize> {
    match stream {
        [START, STANDARD, ..] => Some(9),
        [START, EXTENDED, ..] => Some(23),
        _ => None,
    }
}
