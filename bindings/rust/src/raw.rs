//! The library's functions as they are: slices in, the refusal's number out, 0 for done.
//!
//! [`Book`](crate::Book) and [`Opening`](crate::Opening) say the same in types. A refused call leaves all that it was lent as it was,
//! and every value of every argument has an answer.
//!
//! ```
//! use pitbook::raw;
//!
//! let mut f = [0; 138];
//! assert_eq!(raw::open(3, 1, &[7, 10, 110, 0, 0, 0, 40, 30, 30], &mut f), 0);
//! assert_eq!(raw::tip(&mut f, 0, 7, 41), 14);
//! assert_eq!(raw::tip(&mut f, 0, 7, 40), 0);
//! let mut known = 0;
//! assert_eq!(raw::tonnage(&f, 7, &mut known), 0);
//! assert_eq!(known, 50);
//! ```

use crate::ffi;

// SAFETY of every call below: include/pitbook.h asks that no pointer is null or misaligned, that as many elements as the length says
// stand there and nobody else writes them meanwhile, and that what may be written overlaps nothing else. A reference or slice has all
// of that, an empty one too. The library reads and writes nothing past a length, keeps no pointer and never unwinds.

/// Opens a book of `desks` and `piles` at the start of `out`, from a list of each pile's number, floor, top, draw shares and tip
/// shares. Refused with 2, 3, 4, 5 or 8. Bytes past the book stay.
pub fn open(desks: u8, piles: u8, list: &[u32], out: &mut [u8]) -> u8 {
    // SAFETY: the references lend all that the call reads and writes; see the top.
    unsafe {
        ffi::pit_open(
            desks,
            piles,
            list.as_ptr(),
            list.len(),
            out.as_mut_ptr(),
            out.len(),
        )
    }
}

/// Checks a book, all of it. Refused with 1 to 7.
pub fn check(book: &[u8]) -> u8 {
    // SAFETY: the references lend all that the call reads and writes; see the top.
    unsafe { ffi::pit_check(book.as_ptr(), book.len()) }
}

/// Fills in each entry's pile number and body position, in file order. Refused with 1 to 7, then 8 where either list is shorter than
/// the contents. Entries past the number of piles stay.
pub fn contents(book: &[u8], numbers: &mut [u32], positions: &mut [u32]) -> u8 {
    // SAFETY: the references lend all that the call reads and writes; see the top.
    unsafe {
        ffi::pit_contents(
            book.as_ptr(),
            book.len(),
            numbers.as_mut_ptr(),
            numbers.len(),
            positions.as_mut_ptr(),
            positions.len(),
        )
    }
}

/// Where a pile's body starts in the book, and its length. Refused with 1 to 7 or 10.
pub fn body(book: &[u8], pile: u16, start: &mut usize, length: &mut usize) -> u8 {
    // SAFETY: the references lend all that the call reads and writes; see the top.
    unsafe { ffi::pit_body(book.as_ptr(), book.len(), pile, start, length) }
}

/// A desk tips. Refused with 1 to 7, 11, 10, 13, 14 or 15.
pub fn tip(book: &mut [u8], desk: u8, pile: u16, amount: u32) -> u8 {
    // SAFETY: the references lend all that the call reads and writes; see the top.
    unsafe { ffi::pit_tip(book.as_mut_ptr(), book.len(), desk, pile, amount) }
}

/// A desk draws. Refused with 1 to 7, 11, 10, 13, 14 or 15.
pub fn draw(book: &mut [u8], desk: u8, pile: u16, amount: u32) -> u8 {
    // SAFETY: the references lend all that the call reads and writes; see the top.
    unsafe { ffi::pit_draw(book.as_mut_ptr(), book.len(), desk, pile, amount) }
}

/// A desk gives draw rights to another. Refused with 1 to 7, 11, 10, 12, 13, 14 or 15.
pub fn give_draw(book: &mut [u8], desk: u8, pile: u16, receiver: u8, amount: u32) -> u8 {
    // SAFETY: the references lend all that the call reads and writes; see the top.
    unsafe { ffi::pit_give_draw(book.as_mut_ptr(), book.len(), desk, pile, receiver, amount) }
}

/// A desk gives tip rights to another. Refused with 1 to 7, 11, 10, 12, 13, 14 or 15.
pub fn give_tip(book: &mut [u8], desk: u8, pile: u16, receiver: u8, amount: u32) -> u8 {
    // SAFETY: the references lend all that the call reads and writes; see the top.
    unsafe { ffi::pit_give_tip(book.as_mut_ptr(), book.len(), desk, pile, receiver, amount) }
}

/// A desk takes a copy into its own book; the number of pile and desk pairs whose row changed goes to `changed`. Refused with 1 to 7, 21 to
/// 27 for the copy, 11, 30, then by pile and by desk 31 or 32, and then `changed` stays.
pub fn take(own: &mut [u8], copy: &[u8], desk: u8, changed: &mut u32) -> u8 {
    // SAFETY: the references lend all that the call reads and writes; see the top.
    unsafe {
        ffi::pit_take(
            own.as_mut_ptr(),
            own.len(),
            copy.as_ptr(),
            copy.len(),
            desk,
            changed,
        )
    }
}

/// A desk's draw rights of a pile. Refused with 1 to 7, 11 or 10, and then `out` stays.
pub fn draw_rights(book: &[u8], desk: u8, pile: u16, out: &mut u32) -> u8 {
    // SAFETY: the references lend all that the call reads and writes; see the top.
    unsafe { ffi::pit_draw_rights(book.as_ptr(), book.len(), desk, pile, out) }
}

/// A desk's tip rights of a pile. Refused with 1 to 7, 11 or 10, and then `out` stays.
pub fn tip_rights(book: &[u8], desk: u8, pile: u16, out: &mut u32) -> u8 {
    // SAFETY: the references lend all that the call reads and writes; see the top.
    unsafe { ffi::pit_tip_rights(book.as_ptr(), book.len(), desk, pile, out) }
}

/// A pile's known tonnage: by the acts that this book holds, and no others. Refused with 1 to 7 or 10, and then `out` stays.
pub fn tonnage(book: &[u8], pile: u16, out: &mut u32) -> u8 {
    // SAFETY: the references lend all that the call reads and writes; see the top.
    unsafe { ffi::pit_tonnage(book.as_ptr(), book.len(), pile, out) }
}

/// The least that a pile has, as far as a desk can be sure: floor + its draw rights. Refused with 1 to 7, 11 or 10, and then `out` stays.
pub fn least(book: &[u8], desk: u8, pile: u16, out: &mut u32) -> u8 {
    // SAFETY: the references lend all that the call reads and writes; see the top.
    unsafe { ffi::pit_least(book.as_ptr(), book.len(), desk, pile, out) }
}

/// The most that a pile has, as far as a desk can be sure: top - its tip rights. Refused with 1 to 7, 11 or 10, and then `out` stays.
pub fn most(book: &[u8], desk: u8, pile: u16, out: &mut u32) -> u8 {
    // SAFETY: the references lend all that the call reads and writes; see the top.
    unsafe { ffi::pit_most(book.as_ptr(), book.len(), desk, pile, out) }
}

/// A pile's record as [`RECORD_NUMBERS`](crate::RECORD_NUMBERS) numbers. Refused with 1 to 7, 10, then 8 where `record` is shorter.
/// Numbers past the record stay.
pub fn fetch(book: &[u8], pile: u16, record: &mut [u32]) -> u8 {
    // SAFETY: the references lend all that the call reads and writes; see the top.
    unsafe {
        ffi::pit_fetch(
            book.as_ptr(),
            book.len(),
            pile,
            record.as_mut_ptr(),
            record.len(),
        )
    }
}

/// Stores a record as its pile's body. Refused with 1 to 7, 10, 3 where it has not [`RECORD_NUMBERS`](crate::RECORD_NUMBERS) numbers,
/// then the record's own 2, 5, 6 or 7, then 30.
pub fn store(book: &mut [u8], pile: u16, record: &[u32]) -> u8 {
    // SAFETY: the references lend all that the call reads and writes; see the top.
    unsafe {
        ffi::pit_store(
            book.as_mut_ptr(),
            book.len(),
            pile,
            record.as_ptr(),
            record.len(),
        )
    }
}

/// Compares two rows: to `order` goes 1 where they are alike, 2 where mine is later, 3 where the copy's is, 4 where they are split. Refused
/// with 3 where they differ in length or have the length of no row, and then `order` stays.
pub fn compare(mine: &[u8], copy: &[u8], order: &mut u32) -> u8 {
    // SAFETY: the references lend all that the call reads and writes; see the top.
    unsafe { ffi::pit_compare(mine.as_ptr(), mine.len(), copy.as_ptr(), copy.len(), order) }
}

/// Reads a weighbridge ticket of 11 bytes. Refused with 3, then field by field, digits before values, with 33, 34, 13 or 35, and then
/// all five numbers stay.
pub fn read_ticket(
    bytes: &[u8],
    number: &mut u32,
    pile: &mut u32,
    tonnes: &mut u32,
    kind: &mut u8,
    desk: &mut u8,
) -> u8 {
    // SAFETY: the references lend all that the call reads and writes; see the top.
    unsafe {
        ffi::pit_read_ticket(
            bytes.as_ptr(),
            bytes.len(),
            number,
            pile,
            tonnes,
            kind,
            desk,
        )
    }
}

/// Writes a weighbridge ticket to the start of `out`. Refused with 33, 34, 13 or 35, then 8 where `out` is shorter than 11 bytes.
/// Bytes past the ticket stay.
pub fn write_ticket(number: u32, pile: u32, tonnes: u32, kind: u8, desk: u8, out: &mut [u8]) -> u8 {
    // SAFETY: the references lend all that the call reads and writes; see the top.
    unsafe {
        ffi::pit_write_ticket(
            number,
            pile,
            tonnes,
            kind,
            desk,
            out.as_mut_ptr(),
            out.len(),
        )
    }
}

/// Compares the bridge's list of tickets with the desk's, and counts ticket numbers: alike in both, differing, only at the bridge, only
/// at the desk. Refused with 3 for a length, then with each ticket's own refusal, the bridge's list first, then with 36 and 37 where
/// the bridge's numbers and the desk's do not rise; and then all four counts stay.
pub fn reconcile(
    bridge: &[u8],
    desk: &[u8],
    alike: &mut u32,
    differing: &mut u32,
    only_bridge: &mut u32,
    only_desk: &mut u32,
) -> u8 {
    // SAFETY: the references lend all that the call reads and writes; see the top.
    unsafe {
        ffi::pit_reconcile(
            bridge.as_ptr(),
            bridge.len(),
            desk.as_ptr(),
            desk.len(),
            alike,
            differing,
            only_bridge,
            only_desk,
        )
    }
}
