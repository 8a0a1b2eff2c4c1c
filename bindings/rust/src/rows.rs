//! Two rows of a desk: which of them is later.

use crate::refusal::done;
use crate::{Refusal, raw};

/// What comparing two rows of a desk tells, mine and the copy's. One row is later than another if it is at least the other at every place
/// and differs from it.
#[derive(Clone, Copy, Debug, Eq, Hash, PartialEq)]
pub enum RowOrder {
    /// The rows have the same numbers.
    Alike,
    /// My row is later.
    MineLater,
    /// The copy's row is later.
    CopyLater,
    /// The rows differ and neither is later: the desk acted twice from one old book.
    Split,
}

/// Compares two rows of a desk.
///
/// Refused with [`LengthWrong`](Refusal::LengthWrong) where they differ in length or have a length that is no row's.
///
/// ```
/// use pitbook::{Opening, RowOrder, compare_rows, row_length};
///
/// let f = Opening::new(3).pile(7, 10, 110, &[0, 0, 0], &[40, 30, 30]).to_book()?;
/// let mut tipped = f.clone();
/// tipped.tip(0, 7, 30)?;
///
/// // A body is its opening row and then a row for each desk.
/// let row = row_length(3);
/// let mine = &f.body(7)?[row..2 * row];
/// let copy = &tipped.body(7)?[row..2 * row];
/// assert_eq!(compare_rows(mine, copy)?, RowOrder::CopyLater);
/// assert_eq!(compare_rows(mine, mine)?, RowOrder::Alike);
/// # Ok::<(), pitbook::Refusal>(())
/// ```
pub fn compare_rows(mine: &[u8], copy: &[u8]) -> Result<RowOrder, Refusal> {
    let mut order = 0;
    done(raw::compare(mine, copy, &mut order))?;
    Ok(match order {
        1 => RowOrder::Alike,
        2 => RowOrder::MineLater,
        3 => RowOrder::CopyLater,
        4 => RowOrder::Split,
        _ => unreachable!("the library tells an order from 1 to 4"),
    })
}

/// The later of two rows of a desk, handed on as that part of whichever slice has it; of two alike rows the first. `None` where the
/// rows are split, differ in length, or have a length that is no row's.
///
/// ```
/// use pitbook::{Opening, later_row, row_length};
///
/// let f = Opening::new(3).pile(7, 10, 110, &[0, 0, 0], &[40, 30, 30]).to_book()?;
/// let mut tipped = f.clone();
/// tipped.tip(0, 7, 30)?;
///
/// let row = row_length(3);
/// let mine = &f.body(7)?[row..2 * row];
/// let copy = &tipped.body(7)?[row..2 * row];
/// assert_eq!(later_row(mine, copy), Some(copy));
/// # Ok::<(), pitbook::Refusal>(())
/// ```
pub fn later_row<'a>(mine: &'a [u8], copy: &'a [u8]) -> Option<&'a [u8]> {
    match compare_rows(mine, copy).ok()? {
        RowOrder::Alike | RowOrder::MineLater => Some(mine),
        RowOrder::CopyLater => Some(copy),
        RowOrder::Split => None,
    }
}
