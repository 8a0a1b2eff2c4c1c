//! Document 01's worked book, F, G and cases a to j, by the library: the same
//! calls and bytes that the model is held to.

use pitbook::raw::*;

#[path = "model/worked.rs"]
mod worked_book;
