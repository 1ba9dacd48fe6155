//! What the second reading makes of a stream, frame after frame.

use dreelish_tests::framing;
use dreelish_tests::paper::hear::hear;
use dreelish_tests::paper::{self, Address, Module, Outcome, LONGEST_REPLY};

/// A frame, and all that comes of it.
pub struct Served<'a> {
    pub message: &'a [u8],
    pub outcome: Outcome,
    pub reply: Vec<u8>,
    /// The modules afterwards.
    pub row: Vec<Module>,
}

impl Served<'_> {
    /// The seats that it was for, counted from 0: one, or all, or none where it was refused before any seat was asked.
    pub fn seats(&self) -> Vec<usize> {
        let seats = 0..self.row.len();
        match self.receiver() {
            Some(Some(to)) => seats
                .filter(|&seat| self.row[seat].identity.address == to)
                .collect(),
            Some(None) => seats.collect(),
            None => vec![],
        }
    }

    /// Whether it was a broadcast that was offered to all.
    pub fn is_to_all(&self) -> bool {
        self.receiver() == Some(None)
    }

    /// Whom it was for, one or all, if it came so far.
    fn receiver(&self) -> Option<Option<Address>> {
        match self.outcome.result {
            9..=11 => None,
            _ => hear(self.message).ok().map(|heard| heard.receiver()),
        }
    }
}

/// All frames of a stream that has come to its end, sent to a class that starts so.
pub fn served<'a>(row: &[Module], links: &[u8], stream: &'a [u8]) -> Vec<Served<'a>> {
    let (mut row, mut links) = (row.to_vec(), links.to_vec());
    let mut room = [0; LONGEST_REPLY];
    let messages = framing::messages(stream).into_iter();
    messages
        .map(|message| {
            let outcome = paper::class_step(&mut row, &mut links, message, &mut room);
            Served {
                message,
                outcome,
                reply: room[..outcome.length].to_vec(),
                row: row.clone(),
            }
        })
        .collect()
}
