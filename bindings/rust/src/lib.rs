//! A quarry's book of stockpiles, kept by several dispatch desks.
//!
//! Each of 1 to 8 desks acts on its own copy of the book without waiting for the others, and takes in their copies when they come: late,
//! repeated, or never. Each pile stays between the floor that the crusher needs and the top that the slope allows, because a desk spends
//! only rights that it holds: draw rights guard the floor, tip rights the top.
//!
//! [`Opening`] makes a book, [`Book`] is one over a caller's bytes, with its queries, the four acts and the take, [`Record`] is a pile of it
//! by value, [`compare_rows`] tells which of two rows is later, [`Ticket`] is a load's record from the weighbridge, [`reconcile`] compares two
//! lists of those, and [`Refusal`] says why a call was refused. [`raw`] has the functions of the static library, which is proved to answer as
//! document 01 has it.
//!
//! ```
//! use pitbook::{Opening, Refusal};
//!
//! // Three desks with a book each, opened alike.
//! let f = Opening::new(3).pile(7, 10, 110, &[0, 0, 0], &[40, 30, 30]).to_book()?;
//! let mut desks = [f.clone(), f.clone(), f];
//!
//! // Desk 0 tips and gives desk 2 the right to draw, which desk 2 has once it takes desk 0's copy.
//! desks[0].tip(0, 7, 30)?;
//! desks[0].give_draw(0, 7, 2, 10)?;
//! assert_eq!(desks[2].draw(2, 7, 2), Err(Refusal::RightsShort));
//! let copy = desks[0].clone();
//! assert_eq!(desks[2].take(&copy, 2)?, 1);
//! desks[2].draw(2, 7, 2)?;
//! assert_eq!(desks[2].tonnage(7)?, 38);
//! # Ok::<(), Refusal>(())
//! ```
//!
//! To build, cargo has to find libpitbook.a: in the folder that `PITBOOK_LIB_DIR` names, or in target/staticlib of the repository.

#![warn(missing_docs)]
#![deny(unsafe_code)]

mod book;
mod desk;
mod entry;
#[allow(unsafe_code)]
mod ffi;
mod limits;
mod opening;
#[allow(unsafe_code)]
pub mod raw;
mod reconcile;
mod record;
mod refusal;
mod rows;
mod ticket;

pub use book::Book;
pub use entry::Entry;
pub use limits::{
    AMOUNT_LIMIT, BOOK_LONGEST, DESKS, PILES, RECORD_NUMBERS, TALLY_LIMIT, TOP_LIMIT, book_length,
    row_length,
};
pub use opening::Opening;
pub use reconcile::{Reconciliation, reconcile};
pub use record::{Record, Row};
pub use refusal::Refusal;
pub use rows::{RowOrder, compare_rows, later_row};
pub use ticket::Ticket;
