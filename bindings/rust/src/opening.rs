//! Opening a book.

use crate::{Book, Refusal, book_length, raw, refusal::done};

/// A new book in the making: its desks, then its piles by rising number. All tallies start at 0.
///
/// Nothing is judged before [`open`](Opening::open), [`to_vec`](Opening::to_vec) or [`to_book`](Opening::to_book), which refuse with
///
/// - [`HeadWrong`](Refusal::HeadWrong) where there are not 1 to 8 desks and 1 to 32 piles, then
/// - [`LengthWrong`](Refusal::LengthWrong) where a pile has not one draw share and one tip share for each desk, then
/// - [`ContentsWrong`](Refusal::ContentsWrong) where the pile numbers do not rise from 1 on, then
/// - [`OpeningUnlawful`](Refusal::OpeningUnlawful) where a pile has a floor above its top, a top above 10,000,000, or shares that do
///   not add up to top − floor, then
/// - [`BufferShort`](Refusal::BufferShort) where the buffer is shorter than [`length`](Opening::length).
///
/// ```
/// use pitbook::Opening;
///
/// // F of document 01: 3 desks, pile 7, floor 10, top 110, draw shares 0, 0, 0, tip shares 40, 30, 30.
/// let opening = Opening::new(3).pile(7, 10, 110, &[0, 0, 0], &[40, 30, 30]);
/// let f = opening.to_book()?;
/// assert_eq!(f.as_bytes().len(), 138);
/// assert_eq!(f.tonnage(7)?, 10);
///
/// // The same in a buffer of the caller's; bytes past the book stay.
/// let mut buffer = [0xff; 140];
/// let book = opening.open(&mut buffer)?;
/// assert_eq!(book, f);
/// assert_eq!(buffer[138..], [0xff, 0xff]);
/// # Ok::<(), pitbook::Refusal>(())
/// ```
#[derive(Clone, Debug)]
pub struct Opening {
    desks: u8,
    piles: usize,
    list: Vec<u32>,
    // A pile came with too many or too few shares. In the list such a pile could pass for another one: 2 draw and 4 tip shares for 3 and 3.
    misfit: bool,
}

impl Opening {
    /// An opening of so many desks, with no pile yet.
    pub fn new(desks: u8) -> Opening {
        Opening {
            desks,
            piles: 0,
            list: Vec::new(),
            misfit: false,
        }
    }

    /// Adds a pile, with a share of each kind for each desk.
    #[must_use]
    pub fn pile(
        mut self,
        number: u16,
        floor: u32,
        top: u32,
        draw_shares: &[u32],
        tip_shares: &[u32],
    ) -> Opening {
        let desks = usize::from(self.desks);
        self.misfit |= draw_shares.len() != desks || tip_shares.len() != desks;
        self.piles += 1;
        self.list.extend([u32::from(number), floor, top]);
        self.list.extend(draw_shares);
        self.list.extend(tip_shares);
        self
    }

    /// How many bytes the book has; `None` where the number of desks or piles is out of range.
    pub fn length(&self) -> Option<usize> {
        book_length(self.desks, self.pile_count())
    }

    /// Opens the book at the start of a buffer. Bytes past it stay, and all bytes where it is refused.
    pub fn open<'a>(&self, buffer: &'a mut [u8]) -> Result<Book<&'a mut [u8]>, Refusal> {
        // No opening has an empty list, so a misfit is refused by the table's order: 2, then 3.
        let list = if self.misfit { &[] } else { &self.list[..] };
        done(raw::open(self.desks, self.pile_count(), list, buffer))?;
        let length = self.length().expect("what was opened has sizes in range");
        Ok(Book {
            bytes: &mut buffer[..length],
        })
    }

    /// The book's bytes.
    pub fn to_vec(&self) -> Result<Vec<u8>, Refusal> {
        // Where there is no length, the opening is refused before the buffer's length counts.
        let mut bytes = vec![0; self.length().unwrap_or(0)];
        self.open(&mut bytes)?;
        Ok(bytes)
    }

    /// The book, over bytes of its own.
    pub fn to_book(&self) -> Result<Book<Vec<u8>>, Refusal> {
        Ok(Book {
            bytes: self.to_vec()?,
        })
    }

    // More piles than a byte counts are too many in any case.
    fn pile_count(&self) -> u8 {
        u8::try_from(self.piles).unwrap_or(u8::MAX)
    }
}
