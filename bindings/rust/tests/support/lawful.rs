//! Random lawful books of every n and p.

use super::chance::Chance;
use crate::model::acts;
use crate::model::acts::{Act, Kind};
use crate::model::book::{Book, Opening, Pile, Row, TALLY_LIMIT, TOP_LIMIT};

/// A lawful book: an opening, then a run of acts, and sometimes tallies
/// written near their limit.
pub fn book(chance: &mut Chance) -> Book {
    let desks = 1 + chance.below(8);
    let piles = pile_count(chance);
    let mut book = opened(chance, desks, piles);
    grow_somewhere(chance, &mut book);
    if chance.one_in(2) {
        for pile in &mut book.piles {
            swell(chance, pile);
        }
        grow_somewhere(chance, &mut book);
    }
    book
}

/// From 1 to 32, more often few.
pub fn pile_count(chance: &mut Chance) -> usize {
    match chance.below(24) {
        0 => 32,
        1..=4 => 1 + chance.below(32),
        5..=8 => 1 + chance.below(8),
        _ => 1 + chance.below(3),
    }
}

pub fn opened(chance: &mut Chance, desks: usize, piles: usize) -> Book {
    let piles = pile_numbers(chance, piles)
        .into_iter()
        .map(|number| Pile {
            number,
            opening: opening(chance, desks),
            rows: vec![Row::empty(desks); desks],
        })
        .collect();
    Book { desks, piles }
}

/// Strictly rising numbers from 1 to 65,535; close together, at either end,
/// or anywhere.
pub fn pile_numbers(chance: &mut Chance, piles: usize) -> Vec<i64> {
    let first_of_last = 65_536 - piles as i64;
    match chance.below(4) {
        0 => (1..=piles as i64).collect(),
        1 => (first_of_last..=65_535).collect(),
        2 => {
            let first = chance.between(1, first_of_last);
            (first..first + piles as i64).collect()
        }
        _ => {
            let mut numbers = Vec::new();
            while numbers.len() < piles {
                let number = chance.between(1, 65_535);
                if !numbers.contains(&number) {
                    numbers.push(number);
                }
            }
            numbers.sort();
            numbers
        }
    }
}

/// A lawful opening: all shares add up to top - floor.
pub fn opening(chance: &mut Chance, desks: usize) -> Opening {
    let spread = match chance.below(5) {
        0 => 0,
        1 => chance.between(0, 50),
        2 => chance.between(0, 5_000),
        3 => chance.between(0, TOP_LIMIT),
        _ => TOP_LIMIT,
    };
    let floor = match chance.below(3) {
        0 => 0,
        1 => TOP_LIMIT - spread,
        _ => chance.between(0, TOP_LIMIT - spread),
    };
    let even = if chance.one_in(2) {
        spread / (2 * desks as i64)
    } else {
        0
    };
    let mut shares = vec![even; 2 * desks];
    let mut left = spread - even * 2 * desks as i64;
    for _ in 0..chance.below(3 * desks) {
        let part = chance.between(0, left);
        shares[chance.below(2 * desks)] += part;
        left -= part;
    }
    shares[chance.below(2 * desks)] += left;
    let tip_shares = shares.split_off(desks);
    Opening {
        floor,
        top: floor + spread,
        draw_shares: shares,
        tip_shares,
    }
}

/// A run of acts by any desks at a few piles.
pub fn grow_somewhere(chance: &mut Chance, book: &mut Book) {
    let desks: Vec<usize> = (0..book.desks).collect();
    grow(chance, book, &desks);
}

/// A run of acts by these desks at a few piles.
pub fn grow(chance: &mut Chance, book: &mut Book, desks: &[usize]) {
    if desks.is_empty() {
        return;
    }
    for _ in 0..chance.below(24) {
        let pile = chance.below(book.piles.len());
        let desk = chance.pick(desks);
        grow_at(chance, book, pile, desk);
    }
}

/// One act entered through the model, or one written directly into the row in
/// a lawful way. Nothing where the rights are short.
pub fn grow_at(chance: &mut Chance, book: &mut Book, pile: usize, desk: usize) {
    let kind = kind(chance, book.desks, desk);
    let found = &mut book.piles[pile];
    let rights = match kind {
        Kind::Tip | Kind::GiveTip { .. } => found.tip_rights(desk),
        Kind::Draw | Kind::GiveDraw { .. } => found.draw_rights(desk),
    };
    if chance.one_in(3) {
        write_directly(chance, found, desk, kind, rights);
        return;
    }
    let amount = if chance.one_in(3) {
        rights.min(1_000)
    } else {
        chance.between(0, rights.min(1_000))
    };
    let act = Act {
        desk,
        pile: found.number as u16,
        kind,
        amount,
    };
    // Refused where the amount is 0 or the tally is full; then nothing grows.
    acts::enter(book, &act);
}

fn kind(chance: &mut Chance, desks: usize, desk: usize) -> Kind {
    let receiver = chance.below(desks);
    match chance.below(4) {
        0 => Kind::Tip,
        1 => Kind::Draw,
        2 if receiver != desk => Kind::GiveDraw { receiver },
        3 if receiver != desk => Kind::GiveTip { receiver },
        _ => Kind::Tip,
    }
}

/// As an act, but of any amount that the rights and the limit allow.
fn write_directly(chance: &mut Chance, pile: &mut Pile, desk: usize, kind: Kind, rights: i64) {
    let row = &mut pile.rows[desk];
    let tally = match kind {
        Kind::Tip => &mut row.tipped,
        Kind::Draw => &mut row.drawn,
        Kind::GiveDraw { receiver } => &mut row.draw_gives[receiver],
        Kind::GiveTip { receiver } => &mut row.tip_gives[receiver],
    };
    let most = rights.min(TALLY_LIMIT - *tally);
    *tally += if chance.one_in(2) {
        most
    } else {
        chance.between(0, most)
    };
}

/// Writes rows near the limit and leaves every desk's rights as they were:
/// what a desk tips it draws again, and what it gives it is given back.
pub fn swell(chance: &mut Chance, pile: &mut Pile) {
    let desks = pile.desks();
    let everywhere = chance.one_in(3);
    for i in 0..desks {
        if everywhere || chance.one_in(3) {
            let row = &mut pile.rows[i];
            let more = swelling(chance, row.tipped.max(row.drawn));
            row.tipped += more;
            row.drawn += more;
        }
        for j in 0..i {
            if everywhere || chance.one_in(6) {
                let most = pile.rows[i].draw_gives[j].max(pile.rows[j].draw_gives[i]);
                let more = swelling(chance, most);
                pile.rows[i].draw_gives[j] += more;
                pile.rows[j].draw_gives[i] += more;
            }
            if everywhere || chance.one_in(6) {
                let most = pile.rows[i].tip_gives[j].max(pile.rows[j].tip_gives[i]);
                let more = swelling(chance, most);
                pile.rows[i].tip_gives[j] += more;
                pile.rows[j].tip_gives[i] += more;
            }
        }
    }
}

/// What brings a tally to its limit, or near it, or somewhere.
fn swelling(chance: &mut Chance, tally: i64) -> i64 {
    let room = TALLY_LIMIT - tally;
    match chance.below(4) {
        0 => room,
        1 => chance.between(0, room),
        _ => (room - chance.between(0, 1_500)).max(0),
    }
}
