//! A simulator of the histories that document 01's demand 3 speaks of, and of
//! what a desk can be sure of in them.

pub mod act;
pub mod book;
pub mod choice;
pub mod dice;
pub mod directed;
pub mod ledger;
pub mod reached;
pub mod summary;
pub mod sure;
pub mod trial;
