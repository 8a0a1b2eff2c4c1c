//! An independent model of the pit book, written from document 01 alone.
//!
//! It is plain and slow on purpose: every call parses the whole book into
//! structures, goes along the table of refusals line by line, alters the
//! structures and prints the whole book again. Answers are document 01's
//! numbers; 0 is done. A refused call leaves every lent byte as it was.

pub mod acts;
pub mod book;
pub mod bytes;
pub mod lists;
pub mod record;
pub mod tickets;
#[cfg(test)]
mod worked;

use acts::{Act, Kind};
use book::{Book, Opening, Order, Pile, Row};
use tickets::Ticket;

// Table, place "Opening".
pub fn open(desks: u8, piles: u8, list: &[u32], out: &mut [u8]) -> u8 {
    let n = desks as usize;
    let p = piles as usize;
    // "2: n or p out of range."
    if !(1..=8).contains(&n) || !(1..=32).contains(&p) {
        return 2;
    }
    // "3: list length not p(3 + 2n)."
    if list.len() != p * (3 + 2 * n) {
        return 3;
    }
    let entries: Vec<Vec<i64>> = list
        .chunks(3 + 2 * n)
        .map(|entry| entry.iter().map(|&number| i64::from(number)).collect())
        .collect();
    // "4: numbers not rising or out of range."
    let numbers: Vec<i64> = entries.iter().map(|entry| entry[0]).collect();
    if !book::numbers_are_lawful(&numbers) {
        return 4;
    }
    // "5, by pile."
    let mut opened = Book {
        desks: n,
        piles: Vec::new(),
    };
    for entry in &entries {
        let opening = Opening {
            floor: entry[1],
            top: entry[2],
            draw_shares: entry[3..3 + n].to_vec(),
            tip_shares: entry[3 + n..].to_vec(),
        };
        if !opening.is_lawful() {
            return 5;
        }
        // "tallies start at 0"
        opened.piles.push(Pile {
            number: entry[0],
            opening,
            rows: vec![Row::empty(n); n],
        });
    }
    // "8: shorter than the book ... need[s]"
    let printed = bytes::print(&opened);
    if out.len() < printed.len() {
        return 8;
    }
    // "Bytes past the book stay."
    out[..printed.len()].copy_from_slice(&printed);
    0
}

// Table, places "Book bytes" and "Each body, in file order".
pub fn check(book: &[u8]) -> u8 {
    match bytes::parse(book) {
        Ok(_) => 0,
        Err(refusal) => refusal,
    }
}

// The book's own, then table, place "Lent output".
pub fn contents(book: &[u8], numbers: &mut [u32], positions: &mut [u32]) -> u8 {
    let parsed = match bytes::parse(book) {
        Ok(parsed) => parsed,
        Err(refusal) => return refusal,
    };
    // "8: shorter than ... the contents need"
    let p = parsed.piles.len();
    if numbers.len() < p || positions.len() < p {
        return 8;
    }
    // "entries past p stay"
    for (k, pile) in parsed.piles.iter().enumerate() {
        numbers[k] = pile.number as u32;
        positions[k] = bytes::body_position(parsed.desks, p, k) as u32;
    }
    0
}

// "The body found for a pile number is handed out as a part of the book",
// "empty exactly where fetch would refuse".
pub fn body(book: &[u8], pile: u16, start: &mut usize, length: &mut usize) -> u8 {
    let parsed = match bytes::parse(book) {
        Ok(parsed) => parsed,
        Err(refusal) => return refusal,
    };
    // "then 10"
    let Some(k) = parsed.find(pile) else {
        return 10;
    };
    *start = bytes::body_position(parsed.desks, parsed.piles.len(), k);
    *length = bytes::body_length(parsed.desks);
    0
}

pub fn tip(book: &mut [u8], desk: u8, pile: u16, amount: u32) -> u8 {
    act_on_bytes(book, desk, pile, Kind::Tip, amount)
}

pub fn draw(book: &mut [u8], desk: u8, pile: u16, amount: u32) -> u8 {
    act_on_bytes(book, desk, pile, Kind::Draw, amount)
}

pub fn give_draw(book: &mut [u8], desk: u8, pile: u16, receiver: u8, amount: u32) -> u8 {
    let receiver = receiver as usize;
    act_on_bytes(book, desk, pile, Kind::GiveDraw { receiver }, amount)
}

pub fn give_tip(book: &mut [u8], desk: u8, pile: u16, receiver: u8, amount: u32) -> u8 {
    let receiver = receiver as usize;
    act_on_bytes(book, desk, pile, Kind::GiveTip { receiver }, amount)
}

// Table, place "Act or rights query", for the four acts.
fn act_on_bytes(book: &mut [u8], desk: u8, pile: u16, kind: Kind, amount: u32) -> u8 {
    // "the book's ... own, then"
    let mut parsed = match bytes::parse(book) {
        Ok(parsed) => parsed,
        Err(refusal) => return refusal,
    };
    let act = Act {
        desk: desk as usize,
        pile,
        kind,
        amount: i64::from(amount),
    };
    let answer = acts::enter(&mut parsed, &act);
    if answer == 0 {
        book.copy_from_slice(&bytes::print(&parsed));
    }
    answer
}

// Table, places "Take" and "Take, by pile, then by desk".
pub fn take(own: &mut [u8], copy: &[u8], desk: u8, changed: &mut u32) -> u8 {
    // "own book's,"
    let mut taken = match bytes::parse(own) {
        Ok(parsed) => parsed,
        Err(refusal) => return refusal,
    };
    // "then the copy's as 21 to 27 (1 to 7 plus 20),"
    let copied = match bytes::parse(copy) {
        Ok(parsed) => parsed,
        Err(refusal) => return refusal + 20,
    };
    let taker = desk as usize;
    // "then 11,"
    if taker >= taken.desks {
        return 11;
    }
    // "then 30: n, pile numbers or an opening differ"
    if taken.desks != copied.desks || taken.piles.len() != copied.piles.len() {
        return 30;
    }
    for (ours, theirs) in taken.piles.iter().zip(&copied.piles) {
        if ours.number != theirs.number || ours.opening != theirs.opening {
            return 30;
        }
    }
    let before = taken.clone();
    // "by pile, then by desk"
    for (ours, theirs) in taken.piles.iter_mut().zip(&copied.piles) {
        for i in 0..copied.desks {
            let our_row = &ours.rows[i];
            let their_row = &theirs.rows[i];
            match our_row.order(their_row) {
                // "31: rows split."
                Order::Split => return 31,
                // "32: the copy's row of the taker's own desk is later"
                Order::CopyLater if i == taker => return 32,
                // "the later row, or the common row"
                Order::CopyLater => ours.rows[i] = their_row.clone(),
                Order::Alike | Order::MineLater => {}
            }
        }
    }
    own.copy_from_slice(&bytes::print(&taken));
    // 5/12: "the number of pile and desk pairs whose row changed"
    let piles = before.piles.iter().zip(&taken.piles);
    let pairs = piles.flat_map(|(old, new)| old.rows.iter().zip(&new.rows));
    *changed = pairs.filter(|(old, new)| old != new).count() as u32;
    0
}

pub fn draw_rights(book: &[u8], desk: u8, pile: u16, out: &mut u32) -> u8 {
    match rights_query(book, desk, pile) {
        Ok(found) => {
            *out = found.draw_rights(desk as usize) as u32;
            0
        }
        Err(refusal) => refusal,
    }
}

pub fn tip_rights(book: &[u8], desk: u8, pile: u16, out: &mut u32) -> u8 {
    match rights_query(book, desk, pile) {
        Ok(found) => {
            *out = found.tip_rights(desk as usize) as u32;
            0
        }
        Err(refusal) => refusal,
    }
}

pub fn least(book: &[u8], desk: u8, pile: u16, out: &mut u32) -> u8 {
    match rights_query(book, desk, pile) {
        Ok(found) => {
            *out = found.least(desk as usize) as u32;
            0
        }
        Err(refusal) => refusal,
    }
}

pub fn most(book: &[u8], desk: u8, pile: u16, out: &mut u32) -> u8 {
    match rights_query(book, desk, pile) {
        Ok(found) => {
            *out = found.most(desk as usize) as u32;
            0
        }
        Err(refusal) => refusal,
    }
}

// Table, place "Act or rights query", for the queries of a desk: its rights,
// and what it can be sure of, which answers as they do.
fn rights_query(book: &[u8], desk: u8, pile: u16) -> Result<Pile, u8> {
    // "the book's ... own, then"
    let parsed = bytes::parse(book)?;
    // "11: desk >= n."
    if desk as usize >= parsed.desks {
        return Err(11);
    }
    // "10: pile absent"
    let k = parsed.find(pile).ok_or(10)?;
    Ok(parsed.piles[k].clone())
}

// Table, place "Tonnage, fetch, store".
pub fn tonnage(book: &[u8], pile: u16, out: &mut u32) -> u8 {
    // "the book's own,"
    let parsed = match bytes::parse(book) {
        Ok(parsed) => parsed,
        Err(refusal) => return refusal,
    };
    // "then 10"
    let Some(k) = parsed.find(pile) else {
        return 10;
    };
    *out = parsed.piles[k].tonnage() as u32;
    0
}

// Table, place "Tonnage, fetch, store"; the record is a lent output.
pub fn fetch(book: &[u8], pile: u16, record: &mut [u32]) -> u8 {
    // "the book's own,"
    let parsed = match bytes::parse(book) {
        Ok(parsed) => parsed,
        Err(refusal) => return refusal,
    };
    // "then 10"
    let Some(k) = parsed.find(pile) else {
        return 10;
    };
    // Last, 8: the lent record is shorter than its 163 numbers.
    if record.len() < record::NUMBERS {
        return 8;
    }
    let printed = record::print(parsed.desks, &parsed.piles[k]);
    record[..record::NUMBERS].copy_from_slice(&printed);
    0
}

// Table, place "Tonnage, fetch, store".
pub fn store(book: &mut [u8], pile: u16, record: &[u32]) -> u8 {
    // "the book's own,"
    let mut parsed = match bytes::parse(book) {
        Ok(parsed) => parsed,
        Err(refusal) => return refusal,
    };
    // "then 10;"
    let Some(k) = parsed.find(pile) else {
        return 10;
    };
    // Then 3: the record has not 163 numbers.
    if record.len() != record::NUMBERS {
        return 3;
    }
    // "store then the record's own,"
    let (desks, stored) = match record::parse(record) {
        Ok(parsed) => parsed,
        Err(refusal) => return refusal,
    };
    // "then 30: n or opening differs"
    if desks != parsed.desks || stored.opening != parsed.piles[k].opening {
        return 30;
    }
    parsed.piles[k].rows = stored.rows;
    book.copy_from_slice(&bytes::print(&parsed));
    0
}

// 5/12: "alike, mine later, the copy's later, split", as 1 to 4. "Rows of
// lengths for which document 01 hands on an empty part meet 3."
pub fn compare(mine: &[u8], copy: &[u8], order: &mut u32) -> u8 {
    // "differ in length"
    if mine.len() != copy.len() {
        return 3;
    }
    // "a length other than 8(n + 1) bytes for an n from 1 to 8"
    let Some(n) = (1..=8).find(|n| 8 * (n + 1) == mine.len()) else {
        return 3;
    };
    let mine = Row::from_numbers(n, &bytes::numbers(mine));
    let copy = Row::from_numbers(n, &bytes::numbers(copy));
    *order = mine.order(&copy) as u32;
    0
}

pub fn read_ticket(
    bytes: &[u8],
    number: &mut u32,
    pile: &mut u32,
    tonnes: &mut u32,
    kind: &mut u8,
    desk: &mut u8,
) -> u8 {
    match tickets::parse(bytes) {
        Ok(ticket) => {
            (*number, *pile, *tonnes) = (ticket.number, ticket.pile, ticket.tonnes);
            (*kind, *desk) = (ticket.kind, ticket.desk);
            0
        }
        Err(refusal) => refusal,
    }
}

pub fn write_ticket(number: u32, pile: u32, tonnes: u32, kind: u8, desk: u8, out: &mut [u8]) -> u8 {
    let ticket = Ticket {
        number,
        pile,
        tonnes,
        kind,
        desk,
    };
    let printed = match tickets::print(&ticket) {
        Ok(printed) => printed,
        Err(refusal) => return refusal,
    };
    // "Writing meets 8 last; bytes past the ticket stay."
    if out.len() < printed.len() {
        return 8;
    }
    out[..printed.len()].copy_from_slice(&printed);
    0
}

pub fn reconcile(
    bridge: &[u8],
    desk: &[u8],
    alike: &mut u32,
    differing: &mut u32,
    only_bridge: &mut u32,
    only_desk: &mut u32,
) -> u8 {
    match lists::counts(bridge, desk) {
        Ok(counts) => {
            [*alike, *differing, *only_bridge, *only_desk] = counts;
            0
        }
        Err(refusal) => refusal,
    }
}
