//! A book, and what it says.

use crate::{Entry, PILES, RECORD_NUMBERS, Record, Refusal, raw, refusal::done};

/// A book over a caller's bytes: a `Vec<u8>`, an array, a `&mut [u8]`, or a `&[u8]` to ask only.
///
/// The library checks the whole book again at every call, so nothing rests on what became of the bytes meanwhile: what is no lawful book
/// is refused, with [`BookShort`](Refusal::BookShort) to [`RightsNegative`](Refusal::RightsNegative), before anything else. Two books are
/// equal when their bytes are.
///
/// ```
/// use pitbook::{Book, Opening, Refusal};
///
/// // G of document 01 is F after these acts.
/// let mut g = Opening::new(3).pile(7, 10, 110, &[0, 0, 0], &[40, 30, 30]).to_book()?;
/// g.tip(0, 7, 30)?;
/// g.tip(1, 7, 1)?;
/// g.give_draw(0, 7, 1, 10)?;
/// g.give_draw(0, 7, 2, 10)?;
/// g.draw(0, 7, 5)?;
/// g.draw(1, 7, 4)?;
/// g.draw(2, 7, 2)?;
///
/// // Whoever has the bytes has the book.
/// let book = Book::new(g.as_bytes())?;
/// assert_eq!(book.desks(), 3);
/// assert_eq!(book.tonnage(7)?, 30);
/// assert_eq!((book.draw_rights(0, 7)?, book.tip_rights(0, 7)?), (5, 15));
/// assert_eq!((book.draw_rights(1, 7)?, book.tip_rights(1, 7)?), (7, 33));
/// assert_eq!((book.draw_rights(2, 7)?, book.tip_rights(2, 7)?), (8, 32));
/// assert_eq!((book.least(0, 7)?, book.most(0, 7)?), (15, 95));
/// assert_eq!(book.tonnage(8), Err(Refusal::PileAbsent));
/// # Ok::<(), Refusal>(())
/// ```
#[derive(Clone, Copy, Debug)]
pub struct Book<B> {
    pub(crate) bytes: B,
}

impl<B: AsRef<[u8]>> Book<B> {
    /// A book over these bytes, which are checked, all of them. Refused with what is wrong: [`BookShort`](Refusal::BookShort) to
    /// [`RightsNegative`](Refusal::RightsNegative).
    ///
    /// ```
    /// use pitbook::{Book, Refusal};
    ///
    /// assert_eq!(Book::new([1, 3, 1]).unwrap_err(), Refusal::BookShort);
    /// ```
    pub fn new(bytes: B) -> Result<Book<B>, Refusal> {
        done(raw::check(bytes.as_ref()))?;
        Ok(Book { bytes })
    }

    /// The book's bytes: its file, and the copy that is sent to other desks.
    pub fn as_bytes(&self) -> &[u8] {
        self.bytes.as_ref()
    }

    /// What the book was made over.
    pub fn into_inner(self) -> B {
        self.bytes
    }

    /// How many desks the book has; they are numbered from 0.
    pub fn desks(&self) -> u8 {
        self.as_bytes()[1]
    }

    /// How many piles the book has.
    pub fn piles(&self) -> u8 {
        self.as_bytes()[2]
    }

    /// Each pile's number and where its body starts, in file order.
    ///
    /// ```
    /// use pitbook::{Entry, Opening};
    ///
    /// let f = Opening::new(3).pile(7, 10, 110, &[0, 0, 0], &[40, 30, 30]).to_book()?;
    /// assert_eq!(f.contents()?, [Entry { number: 7, position: 10 }]);
    /// # Ok::<(), pitbook::Refusal>(())
    /// ```
    pub fn contents(&self) -> Result<Vec<Entry>, Refusal> {
        let mut numbers = [0; PILES];
        let mut positions = [0; PILES];
        done(raw::contents(self.as_bytes(), &mut numbers, &mut positions))?;
        let entries = numbers.into_iter().zip(positions);
        Ok(entries
            .take(usize::from(self.piles()))
            // A pile number has 2 bytes in the file.
            .map(|(number, position)| Entry {
                number: number as u16,
                position,
            })
            .collect())
    }

    /// A pile's body, a part of the book. Refused with [`PileAbsent`](Refusal::PileAbsent).
    ///
    /// ```
    /// use pitbook::Opening;
    ///
    /// let f = Opening::new(3).pile(7, 10, 110, &[0, 0, 0], &[40, 30, 30]).to_book()?;
    /// assert_eq!(f.body(7)?, &f.as_bytes()[10..138]);
    /// # Ok::<(), pitbook::Refusal>(())
    /// ```
    pub fn body(&self, pile: u16) -> Result<&[u8], Refusal> {
        let book = self.as_bytes();
        let (mut start, mut length) = (0, 0);
        done(raw::body(book, pile, &mut start, &mut length))?;
        Ok(&book[start..start + length])
    }

    /// A desk's draw rights of a pile, in tonnes. Refused with [`DeskAbsent`](Refusal::DeskAbsent), then
    /// [`PileAbsent`](Refusal::PileAbsent).
    pub fn draw_rights(&self, desk: u8, pile: u16) -> Result<u32, Refusal> {
        let mut tonnes = 0;
        done(raw::draw_rights(self.as_bytes(), desk, pile, &mut tonnes))?;
        Ok(tonnes)
    }

    /// A desk's tip rights of a pile, in tonnes. Refused with [`DeskAbsent`](Refusal::DeskAbsent), then
    /// [`PileAbsent`](Refusal::PileAbsent).
    pub fn tip_rights(&self, desk: u8, pile: u16) -> Result<u32, Refusal> {
        let mut tonnes = 0;
        done(raw::tip_rights(self.as_bytes(), desk, pile, &mut tonnes))?;
        Ok(tonnes)
    }

    /// A pile's known tonnage: by the acts that this book holds, and no others. It is not what lies on the ground while acts of other desks
    /// have not come in yet; [`least`](Book::least) and [`most`](Book::most) say how far off that can be. Refused with
    /// [`PileAbsent`](Refusal::PileAbsent).
    pub fn tonnage(&self, pile: u16) -> Result<u32, Refusal> {
        let mut tonnes = 0;
        done(raw::tonnage(self.as_bytes(), pile, &mut tonnes))?;
        Ok(tonnes)
    }

    /// The least that a pile has, as far as a desk can be sure: floor + its draw rights, for these nobody else can draw. Where this is the
    /// desk's own newest book, all acts made so far anywhere, whether it holds them or not, leave the pile at least so many tonnes.
    ///
    /// Refused with [`DeskAbsent`](Refusal::DeskAbsent), then [`PileAbsent`](Refusal::PileAbsent).
    ///
    /// ```
    /// use pitbook::{Opening, Refusal};
    ///
    /// # let mut g = Opening::new(3).pile(7, 10, 110, &[0, 0, 0], &[40, 30, 30]).to_book()?;
    /// # g.tip(0, 7, 30)?;
    /// # g.tip(1, 7, 1)?;
    /// # g.give_draw(0, 7, 1, 10)?;
    /// # g.give_draw(0, 7, 2, 10)?;
    /// # g.draw(0, 7, 5)?;
    /// # g.draw(1, 7, 4)?;
    /// # g.draw(2, 7, 2)?;
    /// // G of document 01, see `Book`.
    /// assert_eq!([g.least(0, 7)?, g.least(1, 7)?, g.least(2, 7)?], [15, 17, 18]);
    ///
    /// // Desk 1 has not heard of what desk 0 draws, and still knows how little there can be.
    /// let mut elsewhere = g.clone();
    /// elsewhere.draw(0, 7, 5)?;
    /// assert_eq!((g.tonnage(7)?, elsewhere.tonnage(7)?), (30, 25));
    /// assert!(g.least(1, 7)? <= elsewhere.tonnage(7)?);
    /// assert_eq!(g.least(3, 8), Err(Refusal::DeskAbsent));
    /// # Ok::<(), Refusal>(())
    /// ```
    pub fn least(&self, desk: u8, pile: u16) -> Result<u32, Refusal> {
        let mut tonnes = 0;
        done(raw::least(self.as_bytes(), desk, pile, &mut tonnes))?;
        Ok(tonnes)
    }

    /// The most that a pile has, as far as a desk can be sure: top - its tip rights, for that space nobody else can fill. Where this is the
    /// desk's own newest book, all acts made so far anywhere, whether it holds them or not, leave the pile at most so many tonnes.
    ///
    /// Refused with [`DeskAbsent`](Refusal::DeskAbsent), then [`PileAbsent`](Refusal::PileAbsent).
    ///
    /// ```
    /// use pitbook::{Opening, Refusal};
    ///
    /// # let mut g = Opening::new(3).pile(7, 10, 110, &[0, 0, 0], &[40, 30, 30]).to_book()?;
    /// # g.tip(0, 7, 30)?;
    /// # g.tip(1, 7, 1)?;
    /// # g.give_draw(0, 7, 1, 10)?;
    /// # g.give_draw(0, 7, 2, 10)?;
    /// # g.draw(0, 7, 5)?;
    /// # g.draw(1, 7, 4)?;
    /// # g.draw(2, 7, 2)?;
    /// // G of document 01, see `Book`.
    /// assert_eq!([g.most(0, 7)?, g.most(1, 7)?, g.most(2, 7)?], [95, 77, 78]);
    ///
    /// // Desk 1 has not heard of what desk 0 tips, and still knows how much there can be.
    /// let mut elsewhere = g.clone();
    /// elsewhere.tip(0, 7, 15)?;
    /// assert_eq!((g.tonnage(7)?, elsewhere.tonnage(7)?), (30, 45));
    /// assert!(elsewhere.tonnage(7)? <= g.most(1, 7)?);
    /// assert_eq!(g.most(0, 8), Err(Refusal::PileAbsent));
    /// # Ok::<(), Refusal>(())
    /// ```
    pub fn most(&self, desk: u8, pile: u16) -> Result<u32, Refusal> {
        let mut tonnes = 0;
        done(raw::most(self.as_bytes(), desk, pile, &mut tonnes))?;
        Ok(tonnes)
    }

    /// A pile's record. Refused with [`PileAbsent`](Refusal::PileAbsent).
    pub fn fetch(&self, pile: u16) -> Result<Record, Refusal> {
        let mut numbers = [0; RECORD_NUMBERS];
        done(raw::fetch(self.as_bytes(), pile, &mut numbers))?;
        // A fetched record has at most 8 desks.
        Record::from_numbers(&numbers).ok_or(Refusal::HeadWrong)
    }
}

impl<B: AsRef<[u8]>> AsRef<[u8]> for Book<B> {
    fn as_ref(&self) -> &[u8] {
        self.as_bytes()
    }
}

impl<B: AsRef<[u8]>, C: AsRef<[u8]>> PartialEq<Book<C>> for Book<B> {
    fn eq(&self, other: &Book<C>) -> bool {
        self.as_bytes() == other.as_bytes()
    }
}

impl<B: AsRef<[u8]>> Eq for Book<B> {}
