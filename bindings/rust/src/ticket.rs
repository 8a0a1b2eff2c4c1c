//! Weighbridge tickets.

use crate::{Refusal, raw, refusal::done};

/// A weighbridge ticket: a load that was tipped or drawn. The fields may have any values; what is wrong is refused in writing.
///
/// ```
/// use pitbook::{Refusal, Ticket};
///
/// // Number in 4 bytes, pile in 3, tonnes in 2, two digits a byte, then kind and desk.
/// let bytes = [0x12, 0x34, 0x56, 0x78, 0x00, 0x00, 0x07, 0x00, 0x30, 1, 0];
/// let ticket = Ticket::read(&bytes)?;
/// assert_eq!((ticket.number, ticket.pile, ticket.tonnes), (12_345_678, 7, 30));
/// assert_eq!((ticket.kind, ticket.desk), (Ticket::TIP, 0));
/// assert_eq!(ticket.to_bytes()?, bytes);
/// assert_eq!(Ticket { pile: 0, ..ticket }.to_bytes(), Err(Refusal::TicketPileWrong));
/// # Ok::<(), Refusal>(())
/// ```
#[derive(Clone, Copy, Debug, Default, PartialEq, Eq, Hash)]
pub struct Ticket {
    /// The bridge's number of the load, up to [`Ticket::NUMBER_LIMIT`].
    pub number: u32,
    /// The pile's number, 1 to 65,535.
    pub pile: u32,
    /// 1 to 1,000 tonnes.
    pub tonnes: u32,
    /// [`Ticket::TIP`] or [`Ticket::DRAW`].
    pub kind: u8,
    /// The desk, 0 to 7.
    pub desk: u8,
}

impl Ticket {
    /// How many bytes a ticket has.
    pub const LENGTH: usize = 11;

    /// The highest number of a ticket.
    pub const NUMBER_LIMIT: u32 = 99_999_999;

    /// The kind of a load that was tipped.
    pub const TIP: u8 = 1;

    /// The kind of a load that was drawn.
    pub const DRAW: u8 = 2;

    /// Reads a ticket from its 11 bytes.
    ///
    /// # Errors
    ///
    /// [`LengthWrong`](Refusal::LengthWrong), then field by field, digits before values: [`DigitsWrong`](Refusal::DigitsWrong),
    /// [`TicketPileWrong`](Refusal::TicketPileWrong), [`AmountWrong`](Refusal::AmountWrong) for the tonnes,
    /// [`KindOrDeskWrong`](Refusal::KindOrDeskWrong).
    pub fn read(bytes: &[u8]) -> Result<Ticket, Refusal> {
        let mut ticket = Ticket::default();
        done(raw::read_ticket(
            bytes,
            &mut ticket.number,
            &mut ticket.pile,
            &mut ticket.tonnes,
            &mut ticket.kind,
            &mut ticket.desk,
        ))?;
        Ok(ticket)
    }

    /// Writes the ticket to the start of `out`. Bytes past it stay.
    ///
    /// # Errors
    ///
    /// [`DigitsWrong`](Refusal::DigitsWrong) for the number, [`TicketPileWrong`](Refusal::TicketPileWrong),
    /// [`AmountWrong`](Refusal::AmountWrong) for the tonnes, [`KindOrDeskWrong`](Refusal::KindOrDeskWrong), and last
    /// [`BufferShort`](Refusal::BufferShort).
    pub fn write(&self, out: &mut [u8]) -> Result<(), Refusal> {
        done(raw::write_ticket(
            self.number,
            self.pile,
            self.tonnes,
            self.kind,
            self.desk,
            out,
        ))
    }

    /// The ticket's bytes.
    ///
    /// # Errors
    ///
    /// As [`write`](Ticket::write), save the last.
    pub fn to_bytes(&self) -> Result<[u8; Ticket::LENGTH], Refusal> {
        let mut bytes = [0; Ticket::LENGTH];
        self.write(&mut bytes)?;
        Ok(bytes)
    }
}
