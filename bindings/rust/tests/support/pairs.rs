//! Pairs of books for takes: the taker's own and another desk's copy.

use super::chance::Chance;
use super::lawful;
use crate::model::book::{Book, Opening};

/// Two lawful books and a taker below the own book's n.
pub fn random(chance: &mut Chance) -> (Book, Book, usize) {
    let start = lawful::book(chance);
    let desks = start.desks;
    let taker = chance.below(desks);
    let all: Vec<usize> = (0..desks).collect();
    let others: Vec<usize> = (0..desks).filter(|&desk| desk != taker).collect();
    let mut own = start.clone();
    let mut copy = start.clone();
    match chance.below(12) {
        // Rows behind: the copy is an old one.
        0 => lawful::grow(chance, &mut own, &all),
        // Rows ahead, the taker's own not.
        1 => lawful::grow(chance, &mut copy, &others),
        // Some rows behind, some ahead.
        2 | 3 => {
            let (mut first, mut second) = (vec![taker], Vec::new());
            for &desk in &others {
                if chance.one_in(2) {
                    first.push(desk);
                } else {
                    second.push(desk);
                }
            }
            lawful::grow(chance, &mut own, &first);
            lawful::grow(chance, &mut copy, &second);
        }
        // The taker's own row later in the copy.
        4 => lawful::grow(chance, &mut copy, &[taker]),
        // Rows ahead, split, the taker's own later: whatever comes.
        5 => {
            lawful::grow(chance, &mut own, &all);
            lawful::grow(chance, &mut copy, &all);
        }
        // At one pile and desk alone, most often the last pile or the last
        // desk.
        6 | 7 => {
            let pile = at_or_last(chance, start.piles.len());
            let desk = at_or_last(chance, desks);
            for _ in 0..1 + chance.below(4) {
                if chance.one_in(2) {
                    lawful::grow_at(chance, &mut own, pile, desk);
                } else {
                    lawful::grow_at(chance, &mut copy, pile, desk);
                }
            }
        }
        // Alike but for n, pile numbers, p or openings.
        8 | 9 => {
            lawful::grow(chance, &mut copy, &others);
            make_strange(chance, &mut copy);
        }
        // Another history of the same opening.
        10 => {
            for pile in &mut copy.piles {
                lawful::swell(chance, pile);
            }
            lawful::grow(chance, &mut copy, &others);
        }
        // Nothing in common.
        _ => copy = lawful::book(chance),
    }
    (own, copy, taker)
}

fn at_or_last(chance: &mut Chance, count: usize) -> usize {
    if chance.one_in(3) {
        chance.below(count)
    } else {
        count - 1
    }
}

/// Alters what a take holds against a copy with 30.
fn make_strange(chance: &mut Chance, book: &mut Book) {
    let pile = at_or_last(chance, book.piles.len());
    match chance.below(6) {
        // Another n, the pile numbers the same.
        0 => {
            let desks = 1 + chance.below(8);
            let mut strange = lawful::opened(chance, desks, book.piles.len());
            for (new, old) in strange.piles.iter_mut().zip(&book.piles) {
                new.number = old.number;
            }
            *book = strange;
        }
        // Another pile number.
        1 => {
            let step = chance.pick(&[-1, 1]);
            book.piles[pile].number += step;
        }
        // Fewer piles.
        2 => {
            if book.piles.len() > 1 {
                book.piles.pop();
            }
        }
        // Floor and top one more or one less.
        3 => {
            let step = chance.pick(&[-1, 1]);
            book.piles[pile].opening.floor += step;
            book.piles[pile].opening.top += step;
        }
        4 => move_a_share(chance, &mut book.piles[pile].opening),
        // Another opening of the same spread or another.
        _ => book.piles[pile].opening = lawful::opening(chance, book.desks),
    }
}

/// Moves one of a share to another desk, to the other kind, or to both.
pub fn move_a_share(chance: &mut Chance, opening: &mut Opening) {
    let i = chance.below(opening.draw_shares.len());
    let j = chance.below(opening.draw_shares.len());
    match chance.below(4) {
        0 => {
            opening.draw_shares[i] += 1;
            opening.draw_shares[j] -= 1;
        }
        1 => {
            opening.tip_shares[i] += 1;
            opening.tip_shares[j] -= 1;
        }
        2 => {
            opening.draw_shares[i] += 1;
            opening.tip_shares[j] -= 1;
        }
        _ => {
            opening.tip_shares[i] += 1;
            opening.draw_shares[j] -= 1;
        }
    }
}
