//! The crate's types over the worked books of document 01 and what a caller can get wrong.

mod opening;
mod parts;
mod raw;
mod reconcile;
mod refusals;
mod takes;
mod tickets;
mod worked;

use pitbook::{Book, Opening};

/// F of document 01: 3 desks, pile 7, floor 10, top 110, draw shares 0, 0, 0, tip shares 40, 30, 30.
fn f() -> Book<Vec<u8>> {
    let opening = Opening::new(3).pile(7, 10, 110, &[0, 0, 0], &[40, 30, 30]);
    opening.to_book().unwrap()
}

/// G of document 01: F after seven acts.
fn g() -> Book<Vec<u8>> {
    let mut book = f();
    book.tip(0, 7, 30).unwrap();
    book.tip(1, 7, 1).unwrap();
    book.give_draw(0, 7, 1, 10).unwrap();
    book.give_draw(0, 7, 2, 10).unwrap();
    book.draw(0, 7, 5).unwrap();
    book.draw(1, 7, 4).unwrap();
    book.draw(2, 7, 2).unwrap();
    book
}

/// Two desks: pile 3 has 30 of 0 to 100, and pile 500 has 10 of 5 to 10.
fn two_piles() -> Book<Vec<u8>> {
    let opening =
        Opening::new(2)
            .pile(3, 0, 100, &[10, 20], &[30, 40])
            .pile(500, 5, 10, &[5, 0], &[0, 0]);
    opening.to_book().unwrap()
}
