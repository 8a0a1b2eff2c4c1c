//! Document 01, the four acts on a lawful book.

use super::book::{Book, TALLY_LIMIT};

#[derive(Clone, Copy, Debug, PartialEq, Eq)]
pub enum Kind {
    Tip,
    Draw,
    GiveDraw { receiver: usize },
    GiveTip { receiver: usize },
}

#[derive(Clone, Copy, Debug, PartialEq, Eq)]
pub struct Act {
    pub desk: usize,
    pub pile: u16,
    pub kind: Kind,
    pub amount: i64,
}

/// Table, place "Act or rights query", after the book's own refusals. A
/// refused act changes nothing.
pub fn enter(book: &mut Book, act: &Act) -> u8 {
    // "11: desk >= n."
    if act.desk >= book.desks {
        return 11;
    }
    // "10: pile absent (books only)."
    let Some(k) = book.find(act.pile) else {
        return 10;
    };
    // "12: receiver >= n or the giver itself."
    let receiver = match act.kind {
        Kind::GiveDraw { receiver } | Kind::GiveTip { receiver } => Some(receiver),
        Kind::Tip | Kind::Draw => None,
    };
    if receiver.is_some_and(|receiver| receiver >= book.desks || receiver == act.desk) {
        return 12;
    }
    // "13: amount 0 or over 1,000."
    if act.amount == 0 || act.amount > 1_000 {
        return 13;
    }
    // "14: rights short." Tipping needs tip rights, drawing draw rights,
    // giving rights of that kind.
    let pile = &mut book.piles[k];
    let rights = match act.kind {
        Kind::Tip | Kind::GiveTip { .. } => pile.tip_rights(act.desk),
        Kind::Draw | Kind::GiveDraw { .. } => pile.draw_rights(act.desk),
    };
    if rights < act.amount {
        return 14;
    }
    // "15: tally would pass its limit"
    let row = &mut pile.rows[act.desk];
    let tally = match act.kind {
        Kind::Tip => &mut row.tipped,
        Kind::Draw => &mut row.drawn,
        Kind::GiveDraw { receiver } => &mut row.draw_gives[receiver],
        Kind::GiveTip { receiver } => &mut row.tip_gives[receiver],
    };
    if *tally + act.amount > TALLY_LIMIT {
        return 15;
    }
    *tally += act.amount;
    0
}
