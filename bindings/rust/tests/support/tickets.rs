//! Random tickets, most of them lawful, with faults chosen one by one and
//! apart from each other.

use super::chance::Chance;
use super::places::{Case, Place};
use crate::model::tickets::{Ticket, packed};

/// A field of so many bytes: most often within its limits, else at either
/// one, right outside, or any number of its digits.
fn field(chance: &mut Chance, low: u32, high: u32, bytes: u32) -> u32 {
    match chance.below(32) {
        0 => low,
        1 => low.wrapping_sub(1),
        2 => high,
        3 => high + 1,
        4 => chance.below(100usize.pow(bytes)) as u32,
        _ => chance.between(low.into(), high.into()) as u32,
    }
}

fn random(chance: &mut Chance) -> Ticket {
    Ticket {
        number: chance.below(100_000_000) as u32,
        pile: field(chance, 1, 65_535, 3),
        tonnes: field(chance, 1, 1_000, 2),
        kind: match chance.below(16) {
            0 => chance.pick(&[0, 3, 17, 18, 128, 255]),
            _ => chance.pick(&[1, 2]),
        },
        desk: match chance.below(16) {
            0 => chance.pick(&[8, 9, 15, 16, 128, 255]),
            _ => chance.below(8) as u8,
        },
    }
}

/// The bytes of a random ticket. Fields that have not the digits for their
/// value lose the high ones.
fn bytes(ticket: &Ticket) -> Vec<u8> {
    [
        packed(ticket.number, 4),
        packed(ticket.pile % 1_000_000, 3),
        packed(ticket.tonnes % 10_000, 2),
        vec![ticket.kind, ticket.desk],
    ]
    .concat()
}

/// Digits above 9, in any nibble of the packed fields.
fn digits_above_9(chance: &mut Chance, bytes: &mut [u8]) {
    for _ in 0..=chance.below(3) {
        let (at, digit) = (chance.below(9), 10 + chance.below(6) as u8);
        bytes[at] = match chance.below(2) {
            0 => digit << 4 | bytes[at] & 15,
            _ => bytes[at] & 0xf0 | digit,
        };
    }
}

/// Another ticket in place of a lawful one, often with something wrong in it.
pub fn damaged(chance: &mut Chance, ticket: &[u8]) -> Vec<u8> {
    let mut damaged = ticket.to_vec();
    match chance.below(8) {
        0 => damaged = chance.bytes(11),
        1 => digits_above_9(chance, &mut damaged),
        2 => damaged[chance.below(11)] = chance.number() as u8,
        3 => damaged[4..7].fill(0),
        4 => damaged[7..9].fill(0),
        5 => damaged[9] = chance.pick(&[0, 3, 255]),
        6 => damaged[10] = chance.pick(&[8, 255]),
        _ => damaged = bytes(&random(chance)),
    }
    damaged
}

/// Bytes to be read, and five numbers lent for what they say.
pub fn read(chance: &mut Chance) -> Case {
    let mut bytes = bytes(&random(chance));
    match chance.below(8) {
        0 => digits_above_9(chance, &mut bytes),
        1 => match chance.below(4) {
            0 => bytes.truncate(chance.below(11)),
            1 => bytes.extend(vec![0; 1 + chance.below(11)]),
            2 => bytes[chance.below(11)] = chance.number() as u8,
            _ => bytes = chance.bytes(11),
        },
        _ => {}
    }
    let mut case = Case::at(Place::ReadTicket);
    case.lent.book = bytes;
    case.lent.numbers = chance.numbers(3);
    case.lent.copy = chance.bytes(2);
    case
}

/// A ticket to be written, and a buffer lent for it.
pub fn written(chance: &mut Chance) -> Case {
    let mut case = Case::at(Place::WriteTicket);
    case.ticket = random(chance);
    if chance.one_in(16) {
        case.ticket.number = match chance.below(4) {
            0 => 99_999_999,
            1 => 100_000_000,
            2 => u32::MAX,
            _ => chance.number() as u32,
        };
    }
    // Far outside, and the same as a lawful value in its low bytes.
    match chance.below(32) {
        0 => case.ticket.pile = case.ticket.pile.wrapping_add(65_536),
        1 => case.ticket.tonnes = case.ticket.tonnes.wrapping_add(65_536),
        2 => case.ticket.pile = chance.number() as u32,
        3 => case.ticket.tonnes = chance.number() as u32,
        _ => {}
    }
    let length = match chance.below(8) {
        0 => chance.below(11),
        1 => 10,
        2 => 12 + chance.below(20),
        _ => 11,
    };
    case.lent.book = chance.bytes(length);
    case
}
