//! Document 01, "Bytes": a book parsed from its bytes and printed again.

use super::book;
use super::book::{Book, Opening, Pile, Row};

/// "A body is 8(n + 1)^2 bytes"
pub fn body_length(desks: usize) -> usize {
    8 * (desks + 1) * (desks + 1)
}

/// "body k, from 0, starts at 4 + 6p + 8k(n + 1)^2"
pub fn body_position(desks: usize, piles: usize, k: usize) -> usize {
    4 + 6 * piles + k * body_length(desks)
}

/// The bodies lie without gaps, so the book ends where a body p would start.
pub fn book_length(desks: usize, piles: usize) -> usize {
    body_position(desks, piles, piles)
}

/// "Numbers are unsigned, low byte first."
pub fn number(bytes: &[u8]) -> i64 {
    let mut value = 0;
    for &byte in bytes.iter().rev() {
        value = value * 256 + i64::from(byte);
    }
    value
}

/// Bytes read as 4-byte numbers.
pub fn numbers(bytes: &[u8]) -> Vec<i64> {
    bytes.chunks(4).map(number).collect()
}

/// Table, places "Book bytes" and "Each body, in file order".
pub fn parse(bytes: &[u8]) -> Result<Book, u8> {
    // "1: fewer than 4 bytes."
    if bytes.len() < 4 {
        return Err(1);
    }
    // "2: head wrong." Head: "version 1, n, pile count p (1 to 32), 0".
    let desks = bytes[1] as usize;
    let piles = bytes[2] as usize;
    if bytes[0] != 1 || !(1..=8).contains(&desks) || !(1..=32).contains(&piles) || bytes[3] != 0 {
        return Err(2);
    }
    // "3: length not as the head says."
    if bytes.len() != book_length(desks, piles) {
        return Err(3);
    }
    // "4: pile number or position wrong"
    let mut pile_numbers = Vec::new();
    for k in 0..piles {
        let entry = &bytes[4 + 6 * k..10 + 6 * k];
        pile_numbers.push(number(&entry[..2]));
        if number(&entry[2..]) != body_position(desks, piles, k) as i64 {
            return Err(4);
        }
    }
    if !book::numbers_are_lawful(&pile_numbers) {
        return Err(4);
    }
    // "Each body, in file order"
    let mut parsed = Book {
        desks,
        piles: Vec::new(),
    };
    for (k, &pile_number) in pile_numbers.iter().enumerate() {
        let start = body_position(desks, piles, k);
        let body = &bytes[start..start + body_length(desks)];
        let pile = parse_body(desks, pile_number, body);
        match pile.refusal() {
            0 => parsed.piles.push(pile),
            refusal => return Err(refusal),
        }
    }
    Ok(parsed)
}

/// "floor, top, n draw shares, n tip shares, then n rows"
fn parse_body(desks: usize, pile_number: i64, body: &[u8]) -> Pile {
    let all = numbers(body);
    let (opening, rows) = all.split_at(2 + 2 * desks);
    Pile {
        number: pile_number,
        opening: Opening {
            floor: opening[0],
            top: opening[1],
            draw_shares: opening[2..2 + desks].to_vec(),
            tip_shares: opening[2 + desks..].to_vec(),
        },
        rows: rows
            .chunks(2 + 2 * desks)
            .map(|row| Row::from_numbers(desks, row))
            .collect(),
    }
}

/// The bytes of a book, lawful or not. A number too large for its place keeps
/// its low bytes.
pub fn print(book: &Book) -> Vec<u8> {
    let piles = book.piles.len();
    let mut out = vec![1, book.desks as u8, piles as u8, 0];
    for (k, pile) in book.piles.iter().enumerate() {
        out.extend((pile.number as u16).to_le_bytes());
        out.extend((body_position(book.desks, piles, k) as u32).to_le_bytes());
    }
    for pile in &book.piles {
        let mut body = vec![pile.opening.floor, pile.opening.top];
        body.extend(&pile.opening.draw_shares);
        body.extend(&pile.opening.tip_shares);
        for row in &pile.rows {
            body.extend(row.to_numbers());
        }
        for value in body {
            out.extend((value as u32).to_le_bytes());
        }
    }
    out
}
