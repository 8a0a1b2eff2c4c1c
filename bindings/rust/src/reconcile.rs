//! The bridge's tickets against the desk's.

use crate::{Refusal, Ticket, raw, refusal::done};

/// How many ticket numbers two lists have alike, differing, and alone.
#[derive(Clone, Copy, Debug, Default, PartialEq, Eq, Hash)]
pub struct Reconciliation {
    /// In both lists with the same ticket.
    pub alike: u32,
    /// In both lists with tickets that differ.
    pub differing: u32,
    /// In the bridge's list only.
    pub only_bridge: u32,
    /// In the desk's list only.
    pub only_desk: u32,
}

impl Ticket {
    /// How many tickets a list can have.
    pub const LIST_LIMIT: usize = 4_096;
}

/// Compares the bridge's list of tickets with the desk's own. A list is its tickets' bytes one behind the other, rising strictly by
/// ticket number, at most [`Ticket::LIST_LIMIT`] of them.
///
/// ```
/// use pitbook::{Refusal, Ticket, reconcile};
///
/// let ticket = |number, tonnes| Ticket { number, pile: 7, tonnes, kind: Ticket::TIP, desk: 0 }.to_bytes();
/// let bridge = [ticket(1, 30)?, ticket(2, 28)?, ticket(5, 31)?].concat();
/// let desk = [ticket(2, 30)?, ticket(5, 31)?, ticket(6, 12)?].concat();
/// let counts = reconcile(&bridge, &desk)?;
/// assert_eq!((counts.alike, counts.differing), (1, 1));
/// assert_eq!((counts.only_bridge, counts.only_desk), (1, 1));
///
/// let falling = [ticket(2, 28)?, ticket(1, 30)?].concat();
/// assert_eq!(reconcile(&bridge, &falling), Err(Refusal::DeskNotRising));
/// # Ok::<(), Refusal>(())
/// ```
///
/// # Errors
///
/// [`LengthWrong`](Refusal::LengthWrong) where a length is no multiple of 11 or a list has over 4,096 tickets; then the first refusal of
/// [`Ticket::read`], of the bridge's tickets and then of the desk's, in list order; then
/// [`BridgeNotRising`](Refusal::BridgeNotRising) and [`DeskNotRising`](Refusal::DeskNotRising).
pub fn reconcile(bridge: &[u8], desk: &[u8]) -> Result<Reconciliation, Refusal> {
    let mut counts = Reconciliation::default();
    done(raw::reconcile(
        bridge,
        desk,
        &mut counts.alike,
        &mut counts.differing,
        &mut counts.only_bridge,
        &mut counts.only_desk,
    ))?;
    Ok(counts)
}
