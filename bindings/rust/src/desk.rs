//! What a desk does to its own book.

use crate::{Book, Record, Refusal, raw, refusal::done};

impl<B: AsMut<[u8]>> Book<B> {
    /// A desk tips so many tonnes, 1 to 1,000: it spends tip rights and earns draw rights.
    ///
    /// Refused with [`DeskAbsent`](Refusal::DeskAbsent), [`PileAbsent`](Refusal::PileAbsent), [`AmountWrong`](Refusal::AmountWrong),
    /// [`RightsShort`](Refusal::RightsShort) or [`LimitReached`](Refusal::LimitReached), in this order.
    ///
    /// ```
    /// use pitbook::{Opening, Refusal};
    ///
    /// let mut f = Opening::new(3).pile(7, 10, 110, &[0, 0, 0], &[40, 30, 30]).to_book()?;
    /// assert_eq!(f.tip(0, 7, 41), Err(Refusal::RightsShort));
    /// f.tip(0, 7, 40)?;
    /// assert_eq!(f.tonnage(7)?, 50);
    /// assert_eq!(f.tip_rights(0, 7)?, 0);
    /// # Ok::<(), Refusal>(())
    /// ```
    pub fn tip(&mut self, desk: u8, pile: u16, amount: u32) -> Result<(), Refusal> {
        done(raw::tip(self.bytes.as_mut(), desk, pile, amount))
    }

    /// A desk draws so many tonnes, 1 to 1,000: it spends draw rights and earns tip rights. Refused as [`tip`](Book::tip) is.
    pub fn draw(&mut self, desk: u8, pile: u16, amount: u32) -> Result<(), Refusal> {
        done(raw::draw(self.bytes.as_mut(), desk, pile, amount))
    }

    /// A desk gives draw rights, 1 to 1,000 tonnes, to another desk.
    ///
    /// Refused as [`tip`](Book::tip) is, and with [`ReceiverWrong`](Refusal::ReceiverWrong) before [`AmountWrong`](Refusal::AmountWrong).
    ///
    /// ```
    /// use pitbook::{Opening, Refusal};
    ///
    /// let mut f = Opening::new(3).pile(7, 10, 110, &[0, 0, 0], &[40, 30, 30]).to_book()?;
    /// f.tip(0, 7, 30)?;
    /// f.give_draw(0, 7, 1, 10)?;
    /// assert_eq!((f.draw_rights(0, 7)?, f.draw_rights(1, 7)?), (20, 10));
    /// assert_eq!(f.give_draw(0, 7, 0, 10), Err(Refusal::ReceiverWrong));
    /// # Ok::<(), Refusal>(())
    /// ```
    pub fn give_draw(
        &mut self,
        desk: u8,
        pile: u16,
        receiver: u8,
        amount: u32,
    ) -> Result<(), Refusal> {
        let book = self.bytes.as_mut();
        done(raw::give_draw(book, desk, pile, receiver, amount))
    }

    /// A desk gives tip rights, 1 to 1,000 tonnes, to another desk. Refused as [`give_draw`](Book::give_draw) is.
    pub fn give_tip(
        &mut self,
        desk: u8,
        pile: u16,
        receiver: u8,
        amount: u32,
    ) -> Result<(), Refusal> {
        let book = self.bytes.as_mut();
        done(raw::give_tip(book, desk, pile, receiver, amount))
    }

    /// A desk, whose own newest book this is, takes in the copy of another desk's book: afterwards this book holds the acts of both. The
    /// copy may be old, or taken before. Tells the number of pile and desk pairs whose row changed: 0 exactly when the book's bytes are as
    /// they were, since the copy held no act that this book lacked.
    ///
    /// Order and grouping are of no consequence where no take is refused: if a desk's takes of two copies are both accepted, and so is a
    /// take of one of these copies into the other, then taking both in either order, or the copy that has taken the other, is accepted and
    /// leaves the same bytes.
    ///
    /// Refused where the copy is no lawful book (`Copy…`), with [`DeskAbsent`](Refusal::DeskAbsent), where it is a copy of another book
    /// ([`OpeningDiffers`](Refusal::OpeningDiffers)), and where some desk acted twice from one old book
    /// ([`RowsSplit`](Refusal::RowsSplit), [`OwnRowBehind`](Refusal::OwnRowBehind)).
    ///
    /// ```
    /// use pitbook::{Opening, Refusal};
    ///
    /// let f = Opening::new(3).pile(7, 10, 110, &[0, 0, 0], &[40, 30, 30]).to_book()?;
    /// let (mut east, mut west) = (f.clone(), f);
    /// east.tip(0, 7, 30)?;
    /// west.tip(1, 7, 1)?;
    ///
    /// // Desk 1 takes desk 0's book, twice: the second time there is nothing new.
    /// assert_eq!(west.take(&east, 1)?, 1);
    /// assert_eq!(west.take(&east, 1)?, 0);
    /// assert_eq!(west.tonnage(7)?, 41);
    ///
    /// // Then desk 0 takes desk 1's, as bytes, and both books are equal.
    /// east.take(west.as_bytes(), 0)?;
    /// assert_eq!(east, west);
    /// # Ok::<(), Refusal>(())
    /// ```
    pub fn take<C: AsRef<[u8]> + ?Sized>(&mut self, copy: &C, desk: u8) -> Result<u32, Refusal> {
        let mut changed = 0;
        let own = self.bytes.as_mut();
        done(raw::take(own, copy.as_ref(), desk, &mut changed))?;
        Ok(changed)
    }

    /// Stores a record of the pile. Storing is no act: what other desks' copies hold is not looked at.
    ///
    /// Refused with [`PileAbsent`](Refusal::PileAbsent), then where the record is unlawful ([`HeadWrong`](Refusal::HeadWrong),
    /// [`OpeningUnlawful`](Refusal::OpeningUnlawful), [`TallyWrong`](Refusal::TallyWrong),
    /// [`RightsNegative`](Refusal::RightsNegative)), then with [`OpeningDiffers`](Refusal::OpeningDiffers).
    ///
    /// ```
    /// use pitbook::{Opening, Refusal};
    ///
    /// let mut f = Opening::new(3).pile(7, 10, 110, &[0, 0, 0], &[40, 30, 30]).to_book()?;
    /// let mut record = f.fetch(7)?;
    /// record.rows[1].tipped = 30;
    /// f.store(7, &record)?;
    /// assert_eq!(f.tip_rights(1, 7)?, 0);
    /// record.rows[1].tipped = 31;
    /// assert_eq!(f.store(7, &record), Err(Refusal::RightsNegative));
    /// # Ok::<(), Refusal>(())
    /// ```
    pub fn store(&mut self, pile: u16, record: &Record) -> Result<(), Refusal> {
        done(raw::store(self.bytes.as_mut(), pile, &record.to_numbers()))
    }
}
