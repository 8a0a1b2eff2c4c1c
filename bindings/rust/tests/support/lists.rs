//! Random lists of tickets, the bridge's and the desk's: most of them lawful
//! and much alike, with faults chosen one by one and apart from each other.

use super::chance::Chance;
use super::places::{Case, Place};
use super::tickets::damaged;
use crate::model::tickets::{Ticket, print};

fn written(list: &[Ticket]) -> Vec<u8> {
    let lawful = |ticket| print(ticket).expect("a lawful ticket");
    list.iter().flat_map(lawful).collect()
}

fn lawful(chance: &mut Chance, number: u32) -> Ticket {
    Ticket {
        number,
        pile: chance.between(1, 65_535) as u32,
        tonnes: chance.between(1, 1_000) as u32,
        kind: chance.pick(&[1, 2]),
        desk: chance.below(8) as u8,
    }
}

/// Most often a few tickets, now and then as many as a list can have or one
/// more.
fn length(chance: &mut Chance) -> usize {
    match chance.below(2_000) {
        0 => 4_095,
        1 => 4_096,
        2 => 4_097,
        3..=400 => 0,
        401..=700 => 1,
        _ => 2 + chance.below(12),
    }
}

/// Rising numbers from a first one on, with small steps, so that two lists have
/// many in common.
fn numbers(chance: &mut Chance, count: usize, first: u32) -> Vec<u32> {
    let mut next = first;
    let mut step = || {
        let number = next;
        next += 1 + chance.below(2) as u32;
        number
    };
    (0..count).map(|_| step()).collect()
}

/// Another ticket of the same number: one field differs, or several.
fn other(chance: &mut Chance, mut ticket: Ticket) -> Ticket {
    match chance.below(5) {
        0 => ticket.pile = 1 + ticket.pile % 65_535,
        1 => ticket.tonnes = 1 + ticket.tonnes % 1_000,
        2 => ticket.kind = 3 - ticket.kind,
        3 => ticket.desk = (ticket.desk + 1) % 8,
        _ => ticket = lawful(chance, ticket.number),
    }
    ticket
}

/// The desk's list beside the bridge's: some tickets missing, some other ones,
/// some more.
fn beside(chance: &mut Chance, bridge: &[Ticket], first: u32) -> Vec<Ticket> {
    if chance.one_in(4) {
        let count = length(chance);
        let numbers = numbers(chance, count, first);
        return numbers.iter().map(|&n| lawful(chance, n)).collect();
    }
    let mut desk = Vec::new();
    for (k, &ticket) in bridge.iter().enumerate() {
        match chance.below(6) {
            0 => {}
            1 => desk.push(other(chance, ticket)),
            _ => desk.push(ticket),
        }
        let next = bridge.get(k + 1).map_or(99_999_999, |t| t.number);
        if ticket.number + 1 < next && chance.one_in(2) {
            desk.push(lawful(chance, ticket.number + 1));
        }
    }
    desk
}

/// A fault in a list's order: two tickets that repeat or fall.
fn out_of_order(chance: &mut Chance, list: &mut [Ticket]) {
    if list.len() < 2 {
        return;
    }
    let at = chance.below(list.len() - 1);
    match chance.below(3) {
        0 => list[at + 1] = list[at],
        1 => list[at].number = list[at + 1].number,
        _ => list.swap(at, at + 1),
    }
}

/// Faults in a list's bytes: of one ticket or two, or of the length.
fn in_bytes(chance: &mut Chance, list: &mut Vec<u8>) {
    if !list.is_empty() && chance.one_in(6) {
        for _ in 0..=chance.below(2) {
            let at = 11 * chance.below(list.len() / 11);
            let ticket = damaged(chance, &list[at..at + 11]);
            list[at..at + 11].copy_from_slice(&ticket);
        }
    }
    match chance.below(40) {
        0 => drop(list.pop()),
        1 => list.push(0),
        2 => list.truncate(chance.below(list.len() + 1)),
        _ => {}
    }
}

/// Two lists, and four numbers lent for the counts. Some lists start at 0, some
/// end at the last number that a ticket can have.
pub fn random(chance: &mut Chance) -> Case {
    let count = length(chance);
    let first = match chance.below(4) {
        0 => 0,
        1 => 99_999_999 - 2 * 4_097,
        2 => 100_000_000 - count.max(1) as u32,
        _ => chance.below(90_000_000) as u32,
    };
    let mut bridge: Vec<Ticket> = if first == 100_000_000 - count.max(1) as u32 {
        // Without a gap, up to the last number.
        (first..).take(count).map(|n| lawful(chance, n)).collect()
    } else {
        let numbers = numbers(chance, count, first);
        numbers.iter().map(|&n| lawful(chance, n)).collect()
    };
    let mut desk = beside(chance, &bridge, first.min(99_999_999 - 2 * 4_097));
    if chance.one_in(2) {
        std::mem::swap(&mut bridge, &mut desk);
    }
    if chance.one_in(10) {
        out_of_order(chance, &mut bridge);
    }
    if chance.one_in(10) {
        out_of_order(chance, &mut desk);
    }
    let mut case = Case::at(Place::Reconcile);
    case.lent.book = written(&bridge);
    case.lent.copy = written(&desk);
    in_bytes(chance, &mut case.lent.book);
    in_bytes(chance, &mut case.lent.copy);
    case.lent.numbers = chance.numbers(4);
    case
}
