//! Why a call was refused.

use std::{error::Error, fmt};

/// Lists the refusals once: each with its number, its phrase and what it means.
macro_rules! refusals {
    ($($name:ident = $number:literal, $phrase:literal, $meaning:literal;)*) => {
        /// Why a call was refused. A refused call has altered nothing.
        ///
        /// ```
        /// use pitbook::{Opening, Refusal};
        ///
        /// let mut f = Opening::new(3).pile(7, 10, 110, &[0, 0, 0], &[40, 30, 30]).to_book()?;
        /// let refusal = f.tip(0, 7, 41).unwrap_err();
        /// assert_eq!(refusal, Refusal::RightsShort);
        /// assert_eq!(refusal.number(), 14);
        /// assert_eq!(refusal.to_string(), "rights short");
        /// # Ok::<(), Refusal>(())
        /// ```
        #[derive(Clone, Copy, Debug, PartialEq, Eq, PartialOrd, Ord, Hash)]
        #[non_exhaustive]
        #[repr(u8)]
        pub enum Refusal {
            $(#[doc = $meaning] $name = $number,)*
        }

        impl Refusal {
            /// All refusals, by rising number.
            pub const ALL: &'static [Refusal] = &[$(Refusal::$name,)*];

            /// The refusal of a number; `None` for 0, which is done, and for numbers that no refusal has.
            pub const fn from_number(number: u8) -> Option<Refusal> {
                match number {
                    $($number => Some(Refusal::$name),)*
                    _ => None,
                }
            }

            /// The refusal's phrase.
            pub const fn phrase(self) -> &'static str {
                match self {
                    $(Refusal::$name => $phrase,)*
                }
            }
        }
    };
}

refusals! {
    BookShort = 1, "book short", "The book has fewer than 4 bytes.";
    HeadWrong = 2, "head wrong", "The book's head is wrong; of an opening or a record, the number of desks or piles is out of range.";
    LengthWrong = 3, "length wrong", "The book's length is not as its head says; of an opening, a pile has not one share of each kind for each desk; two rows differ in length or have the length of no row; a ticket has not 11 bytes, or a list of tickets not whole ones, or over 4,096.";
    ContentsWrong = 4, "contents wrong", "A pile number or position is wrong: numbers are 1 to 65,535 and rise strictly.";
    OpeningUnlawful = 5, "opening unlawful", "An opening is unlawful: floor ≤ top ≤ 10,000,000, and all shares add up to top − floor; those of a record past its desks are 0.";
    TallyWrong = 6, "tally wrong", "A tally is over its limit, or a desk gives to itself; of a record, a tally past its desks is not 0.";
    RightsNegative = 7, "rights negative", "A desk has spent or given more than it held.";
    BufferShort = 8, "buffer short", "What was lent for the result is too short.";
    PileAbsent = 10, "pile absent", "The book has no such pile.";
    DeskAbsent = 11, "desk absent", "The book has no such desk.";
    ReceiverWrong = 12, "receiver wrong", "The book has no such receiver, or it is the giver itself.";
    AmountWrong = 13, "amount wrong", "The amount, or a ticket's tonnes, is 0 or over 1,000.";
    RightsShort = 14, "rights short", "The desk holds less rights of that kind than the amount.";
    LimitReached = 15, "limit reached", "The tally would pass its limit.";
    CopyShort = 21, "the copy: book short", "The copy has fewer than 4 bytes.";
    CopyHeadWrong = 22, "the copy: head wrong", "The copy's head is wrong.";
    CopyLengthWrong = 23, "the copy: length wrong", "The copy's length is not as its head says.";
    CopyContentsWrong = 24, "the copy: contents wrong", "A pile number or position of the copy is wrong.";
    CopyOpeningUnlawful = 25, "the copy: opening unlawful", "An opening of the copy is unlawful.";
    CopyTallyWrong = 26, "the copy: tally wrong", "A tally of the copy is over its limit, or a desk gives to itself.";
    CopyRightsNegative = 27, "the copy: rights negative", "In the copy a desk has spent or given more than it held.";
    OpeningDiffers = 30, "opening differs", "The number of desks, the pile numbers or an opening differ from the book's.";
    RowsSplit = 31, "rows split", "Two rows of one desk differ and neither is later: the desk acted twice from one old book.";
    OwnRowBehind = 32, "own row behind", "The copy has a later row of the taker's own desk: this book is not the desk's newest.";
    DigitsWrong = 33, "digits wrong", "A ticket has a packed digit above 9; in writing, its number is over 99,999,999.";
    TicketPileWrong = 34, "ticket's pile wrong", "A ticket's pile is 0 or over 65,535.";
    KindOrDeskWrong = 35, "kind or desk wrong", "A ticket's kind is not 1, tip, or 2, draw, or its desk is above 7.";
    BridgeNotRising = 36, "bridge numbers not rising", "The ticket numbers of the bridge's list do not rise strictly.";
    DeskNotRising = 37, "desk numbers not rising", "The ticket numbers of the desk's list do not rise strictly.";
}

impl Refusal {
    /// The refusal's number in document 01's table.
    pub const fn number(self) -> u8 {
        self as u8
    }

    /// What is wrong with the copy, as it would be said of a book; `None` where the refusal is not about the copy's bytes.
    ///
    /// ```
    /// use pitbook::Refusal;
    ///
    /// assert_eq!(Refusal::CopyHeadWrong.of_copy(), Some(Refusal::HeadWrong));
    /// assert_eq!(Refusal::RowsSplit.of_copy(), None);
    /// ```
    pub const fn of_copy(self) -> Option<Refusal> {
        match self.number() {
            number @ 21..=27 => Refusal::from_number(number - 20),
            _ => None,
        }
    }
}

impl fmt::Display for Refusal {
    fn fmt(&self, f: &mut fmt::Formatter<'_>) -> fmt::Result {
        f.pad(self.phrase())
    }
}

impl Error for Refusal {}

/// An answer of [`raw`](crate::raw) as a `Result`.
pub(crate) fn done(answer: u8) -> Result<(), Refusal> {
    match Refusal::from_number(answer) {
        Some(refusal) => Err(refusal),
        None if answer == 0 => Ok(()),
        None => panic!("the library answers {answer}, which this edition has no refusal for"),
    }
}

#[cfg(test)]
mod tests {
    use super::{Refusal, done};

    #[test]
    fn answers_are_done_or_refused() {
        assert_eq!(done(0), Ok(()));
        assert_eq!(done(14), Err(Refusal::RightsShort));
    }

    #[test]
    #[should_panic(expected = "the library answers 9")]
    fn no_other_number_is_taken_for_done() {
        let _ = done(9);
    }
}
