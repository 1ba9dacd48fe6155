//! Request 5: one bench for a class, a row of modules over one link memory in equal shares.

use super::hear::{hear, Heard};
use super::links;
use super::module::Module;
use super::step::{serve, Outcome};

const MOST_SEATS: usize = 16;

/// Serves one message to a row whose seats have their shares of `links` in row order.
pub fn class_step(
    row: &mut [Module],
    links: &mut [u8],
    message: &[u8],
    room: &mut [u8],
) -> Outcome {
    let (share, heard) = match hear_in_class(row, links, message) {
        Ok(heard) => heard,
        Err(result) => return Outcome::silence(result),
    };
    let mut seats = row.iter_mut().zip(links.chunks_exact_mut(share));
    let Some(to) = heard.receiver() else {
        return offer(seats, &heard, room);
    };
    match seats.find(|(module, _)| module.identity.address == to) {
        Some((module, share)) => serve(module, share, &heard, room),
        None => Outcome::silence(10),
    }
}

/// Results 11, 9, 1 and the causes of 3 that lie in the message, in this order. What is heard comes with the length of a share.
fn hear_in_class<'a>(
    row: &[Module],
    links: &[u8],
    bytes: &'a [u8],
) -> Result<(usize, Heard<'a>), u8> {
    let share = share_length(row.len(), links).ok_or(11)?;
    if any_address_twice(row) {
        return Err(9);
    }
    Ok((share, hear(bytes)?))
}

/// Nothing where there are too few seats or too many, or where their shares are unequal or unfit.
fn share_length(seats: usize, links: &[u8]) -> Option<usize> {
    if !(1..=MOST_SEATS).contains(&seats) || !links.len().is_multiple_of(seats) {
        return None;
    }
    let length = links.len() / seats;
    links::fit(&links[..length]).then_some(length)
}

fn any_address_twice(row: &[Module]) -> bool {
    let addresses = row.iter().map(|module| module.identity.address);
    addresses.enumerate().any(|(seat, address)| {
        let mut before = row[..seat].iter();
        before.any(|module| module.identity.address == address)
    })
}

/// A broadcast, to all in row order: carried out if anyone acted, with the records that all of them read.
fn offer<'a>(
    seats: impl Iterator<Item = (&'a mut Module, &'a mut [u8])>,
    heard: &Heard,
    room: &mut [u8],
) -> Outcome {
    let mut whole = Outcome::silence(8);
    for (module, share) in seats {
        let outcome = serve(module, share, heard, room);
        whole.read += outcome.read;
        if outcome.result == 0 {
            whole.result = 0;
        }
    }
    whole
}
