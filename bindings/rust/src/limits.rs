//! How many and how long.

/// The most desks of a book.
pub const DESKS: usize = 8;

/// The most piles of a book.
pub const PILES: usize = 32;

/// The most tonnes of an act.
pub const AMOUNT_LIMIT: u32 = 1_000;

/// The most tonnes of a tally.
pub const TALLY_LIMIT: u32 = 1_000_000_000;

/// The most tonnes of a top.
pub const TOP_LIMIT: u32 = 10_000_000;

/// The length of the longest book, of 8 desks and 32 piles.
pub const BOOK_LONGEST: usize = 20_932;

/// How many numbers a [`Record`](crate::Record) is to [`raw::fetch`](crate::raw::fetch) and [`raw::store`](crate::raw::store).
pub const RECORD_NUMBERS: usize = 163;

/// The length of a book in bytes; `None` where the number of desks or piles is out of range.
///
/// ```
/// assert_eq!(pitbook::book_length(3, 1), Some(138));
/// assert_eq!(pitbook::book_length(8, 32), Some(pitbook::BOOK_LONGEST));
/// assert_eq!(pitbook::book_length(9, 1), None);
/// ```
pub const fn book_length(desks: u8, piles: u8) -> Option<usize> {
    let (n, p) = (desks as usize, piles as usize);
    if n < 1 || DESKS < n || p < 1 || PILES < p {
        return None;
    }
    Some(4 + p * (6 + row_length(n) * (n + 1)))
}

/// The length of a row of a body in bytes, where the book has so many desks: the body is its opening row and then a row for each desk.
pub const fn row_length(desks: usize) -> usize {
    8 * (desks + 1)
}
