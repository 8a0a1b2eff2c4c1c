//! The worked book: its bytes, its listing and cases a to g; h to j are takes.

use crate::{f, g};
use pitbook::{Book, Refusal};

#[test]
fn bytes_of_g() {
    let mut want = vec![1, 3, 1, 0, 7, 0, 10, 0, 0, 0];
    let rows: [[u32; 8]; 4] = [
        [10, 110, 0, 0, 0, 40, 30, 30],
        [30, 5, 0, 10, 10, 0, 0, 0],
        [1, 4, 0, 0, 0, 0, 0, 0],
        [0, 2, 0, 0, 0, 0, 0, 0],
    ];
    want.extend(rows.as_flattened().iter().flat_map(|x| x.to_le_bytes()));
    assert_eq!(g().as_bytes(), want);
    assert_eq!(want.len(), 138);
}

#[test]
fn listing_of_g() {
    let g = g();
    assert_eq!((g.desks(), g.piles()), (3, 1));
    assert_eq!(g.tonnage(7), Ok(30));
    for (desk, draw, tip) in [(0, 5, 15), (1, 7, 33), (2, 8, 32)] {
        assert_eq!(g.draw_rights(desk, 7), Ok(draw));
        assert_eq!(g.tip_rights(desk, 7), Ok(tip));
    }
    for (desk, least, most) in [(0, 15, 95), (1, 17, 77), (2, 18, 78)] {
        assert_eq!(g.least(desk, 7), Ok(least));
        assert_eq!(g.most(desk, 7), Ok(most));
    }
}

/// A desk that has all rights knows the tonnage; one that has none knows floor and top alone.
#[test]
fn what_a_desk_can_be_sure_of() {
    let mut book = f();
    for (desk, most) in [(0, 70), (1, 80), (2, 80)] {
        assert_eq!(
            (book.least(desk, 7), book.most(desk, 7)),
            (Ok(10), Ok(most))
        );
    }
    book.give_tip(1, 7, 0, 30).unwrap();
    book.give_tip(2, 7, 0, 30).unwrap();
    book.tip(0, 7, 20).unwrap();
    assert_eq!(book.tonnage(7), Ok(30));
    assert_eq!((book.least(0, 7), book.most(0, 7)), (Ok(30), Ok(30)));
    assert_eq!((book.least(1, 7), book.most(1, 7)), (Ok(10), Ok(110)));
}

#[test]
fn a_to_d() {
    let mut book = f();
    assert_eq!(book.tonnage(7), Ok(10));
    assert_eq!(book.draw(0, 7, 1), Err(Refusal::RightsShort));
    assert_eq!(book.tip(0, 7, 41), Err(Refusal::RightsShort));
    assert_eq!(book, f());
    assert_eq!(book.tip(0, 7, 40), Ok(()));
    assert_eq!(book.tonnage(7), Ok(50));
    assert_eq!(book.tip_rights(0, 7), Ok(0));
}

#[test]
fn e_to_g() {
    let mut book = g();
    assert_eq!(book.give_draw(0, 7, 1, 6), Err(Refusal::RightsShort));
    assert_eq!(book.give_draw(0, 7, 0, 5), Err(Refusal::ReceiverWrong));
    assert_eq!(book.give_tip(0, 7, 0, 5), Err(Refusal::ReceiverWrong));
    for (amount, refusal) in [
        (0, Refusal::AmountWrong),
        (1_001, Refusal::AmountWrong),
        (1_000, Refusal::RightsShort),
    ] {
        assert_eq!(book.tip(0, 7, amount), Err(refusal));
        assert_eq!(book.draw(0, 7, amount), Err(refusal));
        assert_eq!(book.give_draw(0, 7, 1, amount), Err(refusal));
        assert_eq!(book.give_tip(0, 7, 1, amount), Err(refusal));
    }
    assert_eq!(book, g());
    assert_eq!(book.give_draw(0, 7, 1, 5), Ok(()));
    assert_eq!(book.draw_rights(0, 7), Ok(0));
    assert_eq!(book.draw_rights(1, 7), Ok(12));
}

#[test]
fn over_whatever_holds_bytes() {
    let mut array = [0; 138];
    array.copy_from_slice(f().as_bytes());
    let mut lent = Book::new(&mut array[..]).unwrap();
    lent.tip(0, 7, 30).unwrap();
    let read_only = Book::new(&array).unwrap();
    assert_eq!(read_only.tonnage(7), Ok(40));
    let mut own = Book::new(array).unwrap();
    own.tip(0, 7, 10).unwrap();
    assert_eq!(own.into_inner()[42], 40);
}
