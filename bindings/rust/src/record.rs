//! A pile's record.

use crate::{DESKS, RECORD_NUMBERS};

/// A pile's record: its opening, and a row for each desk. All that belongs to desks past `desks` is 0.
///
/// ```
/// use pitbook::Opening;
///
/// let mut f = Opening::new(3).pile(7, 10, 110, &[0, 0, 0], &[40, 30, 30]).to_book()?;
/// f.tip(0, 7, 30)?;
/// f.give_draw(0, 7, 1, 10)?;
/// let record = f.fetch(7)?;
/// assert_eq!((record.desks, record.floor, record.top), (3, 10, 110));
/// assert_eq!(record.tip_shares, [40, 30, 30, 0, 0, 0, 0, 0]);
/// assert_eq!(record.rows[0].tipped, 30);
/// assert_eq!(record.rows[0].draw_gives[1], 10);
/// # Ok::<(), pitbook::Refusal>(())
/// ```
#[derive(Clone, Copy, Debug, Default, PartialEq, Eq, Hash)]
pub struct Record {
    /// How many desks the book has.
    pub desks: u8,
    /// The tonnage that the crusher needs.
    pub floor: u32,
    /// The tonnage that the slope allows.
    pub top: u32,
    /// The draw rights that each desk starts with.
    pub draw_shares: [u32; DESKS],
    /// The tip rights that each desk starts with.
    pub tip_shares: [u32; DESKS],
    /// The tallies of each desk, written by that desk alone.
    pub rows: [Row; DESKS],
}

/// A desk's tallies of a pile.
#[derive(Clone, Copy, Debug, Default, PartialEq, Eq, Hash)]
pub struct Row {
    /// All that the desk has tipped.
    pub tipped: u32,
    /// All that the desk has drawn.
    pub drawn: u32,
    /// The draw rights that it has given to each desk.
    pub draw_gives: [u32; DESKS],
    /// The tip rights that it has given to each desk.
    pub tip_gives: [u32; DESKS],
}

/// Where the rows start among a record's numbers, and how many numbers each has.
const ROWS: usize = 3 + 2 * DESKS;
const ROW: usize = 2 + 2 * DESKS;
const _: () = assert!(ROWS + DESKS * ROW == RECORD_NUMBERS);

impl Record {
    /// The record as [`raw::store`](crate::raw::store) takes it.
    pub fn to_numbers(&self) -> [u32; RECORD_NUMBERS] {
        let mut numbers = [0; RECORD_NUMBERS];
        numbers[..3].copy_from_slice(&[u32::from(self.desks), self.floor, self.top]);
        numbers[3..3 + DESKS].copy_from_slice(&self.draw_shares);
        numbers[3 + DESKS..ROWS].copy_from_slice(&self.tip_shares);
        for (row, to) in self.rows.iter().zip(numbers[ROWS..].chunks_exact_mut(ROW)) {
            to[..2].copy_from_slice(&[row.tipped, row.drawn]);
            to[2..2 + DESKS].copy_from_slice(&row.draw_gives);
            to[2 + DESKS..].copy_from_slice(&row.tip_gives);
        }
        numbers
    }

    /// The record that [`raw::fetch`](crate::raw::fetch) fills in; `None` where the first number, of desks, is over 255 and so no record's.
    pub fn from_numbers(numbers: &[u32; RECORD_NUMBERS]) -> Option<Record> {
        let mut record = Record {
            desks: u8::try_from(numbers[0]).ok()?,
            floor: numbers[1],
            top: numbers[2],
            ..Record::default()
        };
        record.draw_shares.copy_from_slice(&numbers[3..3 + DESKS]);
        record.tip_shares.copy_from_slice(&numbers[3 + DESKS..ROWS]);
        for (row, from) in record
            .rows
            .iter_mut()
            .zip(numbers[ROWS..].chunks_exact(ROW))
        {
            row.tipped = from[0];
            row.drawn = from[1];
            row.draw_gives.copy_from_slice(&from[2..2 + DESKS]);
            row.tip_gives.copy_from_slice(&from[2 + DESKS..]);
        }
        Some(record)
    }
}
