//! Books damaged in one or many bytes, cut short, lengthened, or never books.

use super::chance::Chance;
use crate::model::book::{Book, Opening, Pile, TALLY_LIMIT};
use crate::model::bytes;

/// Damages the book. A damaged book may still be lawful.
pub fn some(chance: &mut Chance, book: &Book) -> Vec<u8> {
    match chance.below(4) {
        0 => {
            let mut damaged = book.clone();
            for _ in 0..1 + chance.below(2) {
                let count = damaged.piles.len();
                let pile = if chance.one_in(3) {
                    count - 1
                } else {
                    chance.below(count)
                };
                against_the_rules(chance, &mut damaged.piles[pile]);
            }
            bytes::print(&damaged)
        }
        1 => {
            let mut damaged = bytes::print(book);
            in_numbers(chance, book, &mut damaged);
            damaged
        }
        2 => {
            let mut damaged = bytes::print(book);
            in_bytes(chance, &mut damaged);
            damaged
        }
        _ => {
            let mut damaged = bytes::print(book);
            in_length(chance, &mut damaged);
            if chance.one_in(4) && !damaged.is_empty() {
                in_bytes(chance, &mut damaged);
            }
            damaged
        }
    }
}

fn in_bytes(chance: &mut Chance, bytes: &mut [u8]) {
    let length = bytes.len();
    match chance.below(4) {
        // One byte of the head.
        0 => bytes[chance.below(length.min(4))] = chance.pick(&[0, 1, 2, 8, 9, 32, 33, 255]),
        // One byte or one bit anywhere.
        1 => bytes[chance.below(length)] = chance.number() as u8,
        2 => bytes[chance.below(length)] ^= 1 << chance.below(8),
        // Many bytes.
        _ => {
            for _ in 0..2 + chance.below(20) {
                bytes[chance.below(length)] = chance.number() as u8;
            }
        }
    }
}

fn in_length(chance: &mut Chance, bytes: &mut Vec<u8>) {
    let length = bytes.len();
    match chance.below(8) {
        0 => bytes.clear(),
        1 => bytes.truncate(chance.below(5)),
        2 => bytes.truncate(length - 1),
        3 => bytes.truncate(chance.below(length)),
        4 => bytes.push(0),
        5 => {
            let count = 1 + chance.below(300);
            bytes.extend(chance.bytes(count));
        }
        // Random bytes, with a right head or any head.
        6 => {
            let random = chance.bytes(length - 4);
            bytes[4..].copy_from_slice(&random);
        }
        _ => {
            let count = chance.below(300);
            *bytes = chance.bytes(count);
        }
    }
}

/// Alters entries of the contents or numbers of the bodies.
fn in_numbers(chance: &mut Chance, book: &Book, bytes: &mut [u8]) {
    let p = book.piles.len();
    let entry = 4 + 6 * chance.below(p);
    match chance.below(8) {
        0 => {
            let number = chance.pick(&[0, 1, 255, 256, 65_535]) as u16;
            bytes[entry..entry + 2].copy_from_slice(&number.to_le_bytes());
        }
        // The number of another pile.
        1 => {
            let other = 4 + 6 * chance.below(p);
            bytes.copy_within(other..other + 2, entry);
        }
        2 => {
            let other = 4 + 6 * chance.below(p);
            bytes.copy_within(other + 2..other + 6, entry + 2);
            bytes[entry + 2] ^= chance.below(2) as u8;
        }
        3 => bytes[entry + 2 + chance.below(4)] ^= 1 << chance.below(8),
        _ => {
            for _ in 0..1 + chance.below(3) {
                let start = 4 + 6 * p;
                let at = start + 4 * chance.below((bytes.len() - start) / 4);
                let old = u32::from_le_bytes(bytes[at..at + 4].try_into().unwrap());
                let new = match chance.below(4) {
                    0 => old.wrapping_add(1),
                    1 => old.wrapping_sub(1),
                    _ => chance.near_a_limit(),
                };
                bytes[at..at + 4].copy_from_slice(&new.to_le_bytes());
            }
        }
    }
}

/// Breaks one rule of a lawful pile, most often that one alone.
pub fn against_the_rules(chance: &mut Chance, pile: &mut Pile) {
    let desks = pile.desks();
    let i = chance.below(desks);
    let j = chance.below(desks);
    match chance.below(10) {
        0 | 1 => against_the_opening(chance, &mut pile.opening),
        // A tally over its limit, with the rights as they were.
        2 => {
            let row = &mut pile.rows[i];
            let more = TALLY_LIMIT + 1 - row.tipped.max(row.drawn);
            row.tipped += more;
            row.drawn += more;
        }
        3 if i != j => {
            let most = pile.rows[i].tip_gives[j].max(pile.rows[j].tip_gives[i]);
            pile.rows[i].tip_gives[j] += TALLY_LIMIT + 1 - most;
            pile.rows[j].tip_gives[i] += TALLY_LIMIT + 1 - most;
        }
        // A give to oneself, with the rights as they were.
        3 | 4 => pile.rows[i].draw_gives[i] = chance.between(1, 3),
        5 => pile.rows[i].tip_gives[i] = chance.between(1, TALLY_LIMIT),
        // Rights at 0 or just below.
        6 => pile.rows[i].drawn += pile.draw_rights(i) + chance.between(0, 1),
        7 => pile.rows[i].tipped += pile.tip_rights(i) + chance.between(0, 1),
        8 => {
            let short = chance.between(0, 1);
            if chance.one_in(2) {
                pile.rows[i].draw_gives[j] += pile.draw_rights(i) + short;
            } else {
                pile.rows[i].tip_gives[j] += pile.tip_rights(i) + short;
            }
        }
        // Gives that add up to 2^32: in 4 bytes the rights would look lawful.
        _ => {
            let sides = chance.one_in(2);
            let receivers: Vec<usize> = (0..desks).filter(|&j| j != i).collect();
            let mut left = 1i64 << 32;
            for j in receivers {
                let row = &mut pile.rows[i];
                let give = if sides {
                    &mut row.draw_gives[j]
                } else {
                    &mut row.tip_gives[j]
                };
                let more = left.min(TALLY_LIMIT - *give);
                *give += more;
                left -= more;
            }
        }
    }
}

/// Breaks one rule of a lawful opening.
pub fn against_the_opening(chance: &mut Chance, opening: &mut Opening) {
    let desks = opening.draw_shares.len();
    let i = chance.below(desks);
    match chance.below(7) {
        0 => opening.draw_shares[i] += 1,
        1 => opening.tip_shares[i] -= 1,
        // Floor above top, the shares as they were.
        2 => std::mem::swap(&mut opening.floor, &mut opening.top),
        // Top just over its limit, floor and shares in keeping with it.
        3 => {
            let more = 10_000_001 - opening.top;
            opening.top += more;
            opening.floor += more;
        }
        4 => {
            let more = 10_000_001 - opening.top;
            opening.top += more;
            opening.tip_shares[i] += more;
        }
        // Shares that are 2^32 too many: in 4 bytes the sum would look right.
        5 => {
            opening.draw_shares[i] += 1 << 31;
            opening.tip_shares[i] += 1 << 31;
        }
        // Floor above top by one, and a share of 2^32 - 1.
        _ => {
            opening.floor = opening.top + 1;
            opening.draw_shares.fill(0);
            opening.tip_shares.fill(0);
            opening.draw_shares[i] = (1 << 32) - 1;
        }
    }
}
