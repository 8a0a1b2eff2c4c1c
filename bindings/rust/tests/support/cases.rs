//! One random case for each place. The faults are chosen one by one and apart
//! from each other, so that many cases have several and the table's order
//! shows.

use super::chance::Chance;
use super::damage;
use super::lawful;
use super::lists;
use super::pairs;
use super::places::{Case, Place};
use super::records;
use super::tickets;
use crate::model::book::{Book, Pile, TALLY_LIMIT};
use crate::model::bytes;

pub fn random(place: Place, chance: &mut Chance) -> Case {
    match place {
        Place::Open => open(chance),
        Place::Take => take(chance),
        Place::Compare => compare(chance),
        Place::ReadTicket => tickets::read(chance),
        Place::WriteTicket => tickets::written(chance),
        Place::Reconcile => lists::random(chance),
        _ => on_a_book(place, chance),
    }
}

fn open(chance: &mut Chance) -> Case {
    let mut desks = 1 + chance.below(8);
    let mut piles = lawful::pile_count(chance);
    if chance.one_in(12) {
        desks = chance.pick(&[0, 9, 10, 128, 255]);
    }
    if chance.one_in(12) {
        piles = chance.pick(&[0, 33, 34, 64]);
    }
    let book = lawful::opened(chance, desks.clamp(1, 9), piles);
    let mut list = Vec::new();
    for pile in &book.piles {
        let mut opening = pile.opening.clone();
        if chance.one_in(20 + 4 * piles) {
            damage::against_the_opening(chance, &mut opening);
        }
        list.extend([pile.number, opening.floor, opening.top].map(|number| number as u32));
        list.extend(opening.draw_shares.iter().map(|&share| share as u32));
        list.extend(opening.tip_shares.iter().map(|&share| share as u32));
    }
    if !list.is_empty() && chance.one_in(8) {
        in_the_list(chance, 3 + 2 * book.desks, &mut list);
    }
    match chance.below(24) {
        0 => list.clear(),
        1 => drop(list.pop()),
        2 => list.push(0),
        3 => list.truncate(chance.below(list.len() + 1)),
        4 => list.truncate(list.len() % 256),
        5 => list.extend(chance.numbers(3 + 2 * book.desks)),
        _ => {}
    }
    let needed = bytes::book_length(book.desks, piles);
    let length = match chance.below(8) {
        0 => needed - 1,
        1 => chance.below(needed),
        2 => needed + 1 + chance.below(100),
        3 => 20_933,
        _ => needed,
    };
    let mut case = Case::at(Place::Open);
    case.desks = desks as u8;
    case.piles = piles as u8;
    case.lent.numbers = list;
    case.lent.book = chance.bytes(length);
    case
}

/// Alters pile numbers, or any number of the list.
fn in_the_list(chance: &mut Chance, step: usize, list: &mut [u32]) {
    let piles = list.len() / step;
    let pile = step * chance.below(piles);
    let other = step * chance.below(piles);
    match chance.below(5) {
        0 => list[pile] = 0,
        1 => list[pile] = 65_536,
        // The same in its 2 low bytes, but out of range.
        2 => list[pile] += 65_536,
        3 => list[pile] = list[other],
        _ => list[chance.below(list.len())] = chance.near_a_limit(),
    }
}

fn take(chance: &mut Chance) -> Case {
    let (own, copy, taker) = pairs::random(chance);
    let mut case = Case::at(Place::Take);
    case.desk = taker as u8;
    if chance.one_in(10) {
        case.desk = desk(chance, own.desks);
    }
    case.lent.book = printed_or_damaged(chance, &own, 6);
    case.lent.copy = printed_or_damaged(chance, &copy, 5);
    case.lent.numbers = chance.numbers(1);
    case
}

fn compare(chance: &mut Chance) -> Case {
    let length = match chance.below(4) {
        // 8(n + 1) bytes for n from 1 to 8, then for 0 and from 9 on.
        0 | 1 => 8 * (2 + chance.below(8)),
        2 => 8 * chance.below(14),
        _ => chance.below(100),
    };
    let start: Vec<u32> = (0..length / 4 + 1)
        .map(|_| match chance.below(3) {
            0 => chance.near_a_limit(),
            1 => chance.below(600) as u32,
            _ => chance.number() as u32,
        })
        .collect();
    let mut rows = [start.clone(), start];
    // Raised at some places of mine, of the copy's or of both.
    let raised = chance.below(5);
    for _ in 0..chance.below(4) {
        let at = chance.below(rows[0].len());
        let row = match raised {
            0 => 0,
            1 => 1,
            _ => chance.below(2),
        };
        let more = chance.pick(&[1, 1, 255, 256, 65_536, 1 << 31]);
        rows[row][at] = rows[row][at].saturating_add(more);
    }
    let mut rows = rows.map(|row| -> Vec<u8> {
        let bytes = row.iter().flat_map(|number| number.to_le_bytes());
        bytes.take(length).collect()
    });
    if chance.one_in(4) {
        let row = chance.below(2);
        match chance.below(4) {
            0 => rows[row].truncate(chance.below(length + 1)),
            1 => rows[row].extend([0; 8]),
            2 => rows[row].push(0),
            _ => rows[row] = chance.bytes(length),
        }
    }
    let [mine, copy] = rows;
    let mut case = Case::at(Place::Compare);
    case.lent.book = mine;
    case.lent.copy = copy;
    case.lent.numbers = chance.numbers(1);
    case
}

/// The places that take one book.
fn on_a_book(place: Place, chance: &mut Chance) -> Case {
    let book = lawful::book(chance);
    let (at, actor) = pile_and_desk(chance, place, &book);
    let mut case = Case::at(place);
    case.desk = actor as u8;
    if chance.one_in(8) {
        case.desk = desk(chance, book.desks);
    }
    case.receiver = receiver(chance, book.desks, case.desk);
    case.pile = pile_number(chance, &book, at);
    case.amount = amount(chance, place, &book.piles[at], case.desk, case.receiver);
    case.lent.book = printed_or_damaged(chance, &book, 3);
    match place {
        Place::Contents => {
            let p = book.piles.len();
            let counts = [0, 1].map(|_| match chance.below(8) {
                0 => 0,
                1 => p - 1,
                2 => chance.below(p + 1),
                3 => p + 1 + chance.below(40),
                4 => 32,
                _ => p,
            });
            case.lent.numbers = chance.numbers(counts[0]);
            case.lent.positions = chance.numbers(counts[1]);
        }
        Place::Body => case.lent.sizes = vec![chance.number() as usize, chance.number() as usize],
        Place::DrawRights | Place::TipRights | Place::Tonnage | Place::Least | Place::Most => {
            case.lent.numbers = chance.numbers(1);
        }
        Place::Fetch => {
            let count = match chance.below(8) {
                0 => 0,
                1 => 162,
                2 => chance.below(163),
                3 => 164 + chance.below(40),
                _ => 163,
            };
            case.lent.numbers = chance.numbers(count);
        }
        Place::Store => case.lent.numbers = records::random(chance, &book, at),
        _ => {}
    }
    case
}

fn printed_or_damaged(chance: &mut Chance, book: &Book, one_in: usize) -> Vec<u8> {
    if chance.one_in(one_in) {
        damage::some(chance, book)
    } else {
        bytes::print(book)
    }
}

/// A pile and a desk, most often one with rights of the kind that counts.
fn pile_and_desk(chance: &mut Chance, place: Place, book: &Book) -> (usize, usize) {
    let mut found = (0, 0);
    for _ in 0..6 {
        found = (chance.below(book.piles.len()), chance.below(book.desks));
        if rights(place, &book.piles[found.0], found.1) > 0 {
            break;
        }
    }
    found
}

/// The rights that an act needs, or that a query reads.
fn rights(place: Place, pile: &Pile, desk: usize) -> i64 {
    match place {
        Place::Tip | Place::GiveTip | Place::Most => pile.tip_rights(desk),
        _ => pile.draw_rights(desk),
    }
}

/// Below n or not.
fn desk(chance: &mut Chance, desks: usize) -> u8 {
    match chance.below(4) {
        0 => desks as u8,
        1 => chance.pick(&[8, 9, 127, 128, 255]),
        2 => chance.number() as u8,
        _ => chance.below(desks) as u8,
    }
}

/// Most often another desk below n.
fn receiver(chance: &mut Chance, desks: usize, giver: u8) -> u8 {
    match chance.below(16) {
        0 => giver,
        1 => desk(chance, desks),
        2 => desks as u8,
        _ => ((usize::from(giver) + 1 + chance.below(7)) % desks) as u8,
    }
}

/// Most often the number of the pile at this place.
fn pile_number(chance: &mut Chance, book: &Book, at: usize) -> u16 {
    let number = book.piles[at].number as u16;
    match chance.below(40) {
        0 => 0,
        1 => number.wrapping_add(1),
        2 => number.wrapping_sub(1),
        3 => chance.number() as u16,
        4 => 65_535,
        _ => number,
    }
}

/// Amounts at the limits 0 and 1,000, at what the rights allow, at what the
/// tally's limit allows, and any.
fn amount(chance: &mut Chance, place: Place, pile: &Pile, desk: u8, receiver: u8) -> u32 {
    let (i, j) = (usize::from(desk), usize::from(receiver));
    if i >= pile.desks() || j >= pile.desks() {
        return chance.below(1_100) as u32;
    }
    let rights = rights(place, pile, i);
    let row = &pile.rows[i];
    let tally = match place {
        Place::Tip => row.tipped,
        Place::Draw => row.drawn,
        Place::GiveTip => row.tip_gives[j],
        _ => row.draw_gives[j],
    };
    let room = TALLY_LIMIT - tally;
    match chance.below(18) {
        0 => 0,
        1 => 1_001,
        2 => chance.near_a_limit(),
        3 => chance.number() as u32,
        4 | 5 => 1_000,
        6 | 7 => rights as u32,
        8 => rights as u32 + 1,
        9 | 10 => room as u32,
        11 | 12 => room as u32 + 1,
        _ => chance.between(1, rights.clamp(1, 1_000)) as u32,
    }
}
