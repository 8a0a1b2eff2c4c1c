//! Document 01's "Bytes", "Rights" and table of refusals in plain code of the
//! simulator's own: nothing here calls the library, so that the lone
//! dispatcher's book does not lean on what is tried.

use super::act::{Act, Kind};

/// "Opening takes n, p and a list of 4-byte numbers, for each pile its number,
/// floor, top and shares."
#[derive(Clone, Debug)]
pub struct Opening {
    pub desks: u8,
    pub piles: u8,
    pub list: Vec<u32>,
}

impl Opening {
    /// The opened book: "tallies start at 0".
    pub fn book(&self) -> Vec<u8> {
        let (n, p) = (usize::from(self.desks), usize::from(self.piles));
        let body_length = 8 * (n + 1) * (n + 1);
        let mut book = vec![1, self.desks, self.piles, 0];
        for (k, pile) in self.list.chunks(3 + 2 * n).enumerate() {
            let position = 4 + 6 * p + k * body_length;
            book.extend_from_slice(&(pile[0] as u16).to_le_bytes());
            book.extend_from_slice(&(position as u32).to_le_bytes());
        }
        for pile in self.list.chunks(3 + 2 * n) {
            let end = book.len() + body_length;
            for number in &pile[1..] {
                book.extend_from_slice(&number.to_le_bytes());
            }
            book.resize(end, 0);
        }
        book
    }

    pub fn pile_numbers(&self) -> Vec<u16> {
        let length = 3 + 2 * usize::from(self.desks);
        let piles = self.list.chunks(length);
        piles.map(|pile| pile[0] as u16).collect()
    }
}

/// One pile's body, "in 4-byte numbers: floor, top, n draw shares, n tip
/// shares, then n rows, each tipped, drawn, draw gives, tip gives".
pub struct Body<'a> {
    n: usize,
    bytes: &'a [u8],
}

/// The body's position, found by the contents: "pile number (2 bytes) and body
/// position (4 bytes)".
fn position(book: &[u8], pile: u16) -> Option<usize> {
    let p = usize::from(book[2]);
    let mut contents = book[4..4 + 6 * p].chunks(6);
    let entry = contents.find(|entry| u16::from_le_bytes([entry[0], entry[1]]) == pile)?;
    Some(u32::from_le_bytes([entry[2], entry[3], entry[4], entry[5]]) as usize)
}

/// How many rows of desks differ between two books of one opening: bodies are
/// "without gaps", each an opening row and then n rows.
pub fn changed_rows(before: &[u8], after: &[u8]) -> u32 {
    let (n, p) = (usize::from(before[1]), usize::from(before[2]));
    let rows = |book: &[u8]| -> Vec<Vec<u8>> {
        let bodies = book[4 + 6 * p..].chunks(8 * (n + 1) * (n + 1));
        let rows = bodies.flat_map(|body| body.chunks(8 * (n + 1)).skip(1));
        rows.map(<[u8]>::to_vec).collect()
    };
    let pairs = rows(before).into_iter().zip(rows(after));
    pairs.filter(|(old, new)| old != new).count() as u32
}

/// The place, counted in 4-byte numbers from the body's start, of the one
/// tally that an act adds to: "in the acting desk's row of that pile".
fn tally_place(n: usize, act: &Act) -> usize {
    let row = (1 + usize::from(act.desk)) * (2 + 2 * n);
    let receiver = usize::from(act.receiver);
    match act.kind {
        Kind::Tip => row,
        Kind::Draw => row + 1,
        Kind::GiveDraw => row + 2 + receiver,
        Kind::GiveTip => row + 2 + n + receiver,
    }
}

/// "Entering adds the amount to that act's one tally." The act is one that the
/// table does not refuse.
pub fn enter(book: &mut [u8], act: &Act) {
    let n = usize::from(book[1]);
    let body = position(book, act.pile).expect("the act's pile is in the book");
    let tally = body + 4 * tally_place(n, act);
    let bytes: [u8; 4] = book[tally..tally + 4].try_into().unwrap();
    let sum = u32::from_le_bytes(bytes) + act.amount;
    book[tally..tally + 4].copy_from_slice(&sum.to_le_bytes());
}

/// The row "Act or rights query" of the table, the first in table order. The
/// book's own refusals stand before it; they are 0 here, which part 2 checks
/// after each entered act.
pub fn refusal(book: &[u8], act: &Act) -> u8 {
    let n = usize::from(book[1]);
    let desk = usize::from(act.desk);
    let receiver = usize::from(act.receiver);
    if desk >= n {
        return 11;
    }
    let Some(body) = Body::of(book, act.pile) else {
        return 10;
    };
    if act.kind.gives() && (receiver >= n || receiver == desk) {
        return 12;
    }
    if act.amount == 0 || act.amount > 1_000 {
        return 13;
    }
    if body.rights(act.kind, desk) < i64::from(act.amount) {
        return 14;
    }
    if body.number(tally_place(n, act)) + i64::from(act.amount) > 1_000_000_000 {
        return 15;
    }
    0
}

impl<'a> Body<'a> {
    pub fn of(book: &'a [u8], pile: u16) -> Option<Body<'a>> {
        let n = usize::from(book[1]);
        let start = position(book, pile)?;
        let bytes = &book[start..start + 8 * (n + 1) * (n + 1)];
        Some(Body { n, bytes })
    }

    fn number(&self, place: usize) -> i64 {
        let bytes: [u8; 4] = self.bytes[4 * place..4 * place + 4].try_into().unwrap();
        i64::from(u32::from_le_bytes(bytes))
    }

    fn row(&self, desk: usize, place: usize) -> i64 {
        self.number((1 + desk) * (2 + 2 * self.n) + place)
    }

    pub fn floor(&self) -> i64 {
        self.number(0)
    }

    pub fn top(&self) -> i64 {
        self.number(1)
    }

    fn draw_share(&self, desk: usize) -> i64 {
        self.number(2 + desk)
    }

    fn tip_share(&self, desk: usize) -> i64 {
        self.number(2 + self.n + desk)
    }

    fn tipped(&self, desk: usize) -> i64 {
        self.row(desk, 0)
    }

    fn drawn(&self, desk: usize) -> i64 {
        self.row(desk, 1)
    }

    fn draw_give(&self, giver: usize, receiver: usize) -> i64 {
        self.row(giver, 2 + receiver)
    }

    fn tip_give(&self, giver: usize, receiver: usize) -> i64 {
        self.row(giver, 2 + self.n + receiver)
    }

    /// "Draw rights of i = draw share + tipped + draw gives received − draw
    /// gives made − drawn."
    pub fn draw_rights(&self, i: usize) -> i64 {
        let received: i64 = (0..self.n).map(|j| self.draw_give(j, i)).sum();
        let made: i64 = (0..self.n).map(|j| self.draw_give(i, j)).sum();
        self.draw_share(i) + self.tipped(i) + received - made - self.drawn(i)
    }

    /// "Tip rights of i = tip share + drawn + tip gives received − tip gives
    /// made − tipped."
    pub fn tip_rights(&self, i: usize) -> i64 {
        let received: i64 = (0..self.n).map(|j| self.tip_give(j, i)).sum();
        let made: i64 = (0..self.n).map(|j| self.tip_give(i, j)).sum();
        self.tip_share(i) + self.drawn(i) + received - made - self.tipped(i)
    }

    /// The rights that an act of this kind needs.
    pub fn rights(&self, kind: Kind, desk: usize) -> i64 {
        match kind {
            Kind::Draw | Kind::GiveDraw => self.draw_rights(desk),
            Kind::Tip | Kind::GiveTip => self.tip_rights(desk),
        }
    }

    /// 1/12: "`least` (floor + its draw rights)"
    pub fn least(&self, i: usize) -> i64 {
        self.floor() + self.draw_rights(i)
    }

    /// 1/12: "`most` (top − its tip rights)"
    pub fn most(&self, i: usize) -> i64 {
        self.top() - self.tip_rights(i)
    }

    /// "Its tonnage now = floor + all draw shares + all tipped − all drawn."
    /// In a desk's book that is what the desk knows.
    pub fn tonnage(&self) -> i64 {
        let moved = |i| self.draw_share(i) + self.tipped(i) - self.drawn(i);
        self.floor() + (0..self.n).map(moved).sum::<i64>()
    }

    /// The table's row "Each body": 5, 6, 7, or 0.
    pub fn refusal(&self) -> u8 {
        let desks = 0..self.n;
        let share = |i| self.draw_share(i) + self.tip_share(i);
        let shares: i64 = desks.clone().map(share).sum();
        if self.floor() > self.top()
            || self.top() > 10_000_000
            || shares != self.top() - self.floor()
        {
            return 5;
        }
        let tallies = 2 + 2 * self.n..self.bytes.len() / 4;
        if tallies.into_iter().any(|t| self.number(t) > 1_000_000_000)
            || desks
                .clone()
                .any(|i| self.draw_give(i, i) + self.tip_give(i, i) > 0)
        {
            return 6;
        }
        if desks
            .into_iter()
            .any(|i| self.draw_rights(i) < 0 || self.tip_rights(i) < 0)
        {
            return 7;
        }
        0
    }
}
