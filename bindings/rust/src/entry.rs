//! An entry of the contents.

/// An entry of a book's contents.
#[derive(Clone, Copy, Debug, PartialEq, Eq, Hash)]
pub struct Entry {
    /// The pile's number.
    pub number: u16,
    /// Where the pile's body starts in the book.
    pub position: u32,
}
