//! Takes: cases h to j, two piles, and copies that are none.

use crate::{f, g, two_piles};
use pitbook::{Opening, Refusal};

#[test]
fn h_to_j() {
    let mut book = g();
    assert_eq!(book.take(&f(), 0), Ok(0));
    assert_eq!(book, g());

    let mut book = f();
    assert_eq!(book.take(&g(), 2), Err(Refusal::OwnRowBehind));
    assert_eq!(book, f());

    book.tip(0, 7, 10).unwrap();
    book.give_tip(0, 7, 1, 5).unwrap();
    let before = book.clone();
    let mut copy = f();
    copy.tip(0, 7, 30).unwrap();
    assert_eq!(book.take(&copy, 1), Err(Refusal::RowsSplit));
    assert_eq!(book, before);
}

#[test]
fn rows_of_every_pile_once() {
    let (mut own, mut copy) = (two_piles(), two_piles());
    own.tip(1, 3, 2).unwrap();
    copy.tip(0, 3, 30).unwrap();
    copy.draw(0, 500, 4).unwrap();
    for changed in [2, 0] {
        assert_eq!(own.take(&copy, 1), Ok(changed));
        assert_eq!((own.tonnage(3), own.tonnage(500)), (Ok(62), Ok(6)));
    }
    assert_eq!(copy.take(own.as_bytes(), 0), Ok(1));
    assert_eq!(copy, own);
}

/// Two copies reach desk 2: one by one, in either order, or by way of desk 1.
#[test]
fn relays_in_any_order_and_grouping() {
    let (mut zero, mut one) = (f(), f());
    zero.tip(0, 7, 30).unwrap();
    let mut two = zero.clone();
    two.tip(2, 7, 1).unwrap();
    zero.draw(0, 7, 4).unwrap();
    one.tip(1, 7, 2).unwrap();

    let (mut in_turn, mut exchanged, mut at_once) = (two.clone(), two.clone(), two);
    assert_eq!(in_turn.take(&zero, 2), Ok(1));
    assert_eq!(in_turn.take(&one, 2), Ok(1));
    assert_eq!(exchanged.take(&one, 2), Ok(1));
    assert_eq!(exchanged.take(&zero, 2), Ok(1));
    assert_eq!(one.take(&zero, 1), Ok(1));
    assert_eq!(at_once.take(&one, 2), Ok(2));
    assert_eq!(exchanged, in_turn);
    assert_eq!(at_once, in_turn);
}

/// What changed is counted by pile and desk.
#[test]
fn news_of_two_desks_on_three_piles() {
    let shares = [10, 10, 10];
    let mut opening = Opening::new(3);
    for number in 1..=3 {
        opening = opening.pile(number, 0, 60, &shares, &shares);
    }
    let mut own = opening.to_book().unwrap();
    let mut copy = own.clone();
    own.draw(0, 2, 1).unwrap();
    for pile in 1..=3 {
        copy.tip(1, pile, 1).unwrap();
        copy.draw(2, pile, 1).unwrap();
    }
    assert_eq!(own.take(&copy, 0), Ok(6));
    assert_eq!(own.take(&copy, 0), Ok(0));
    // Two acts of a desk on a pile change one row.
    copy.tip(1, 3, 1).unwrap();
    copy.draw(1, 3, 1).unwrap();
    copy.tip(2, 3, 1).unwrap();
    assert_eq!(own.take(&copy, 0), Ok(2));
}

#[test]
fn nothing_is_written_before_the_last_pile_is_judged() {
    let (mut own, mut copy) = (two_piles(), two_piles());
    own.draw(0, 500, 1).unwrap();
    copy.tip(0, 3, 30).unwrap();
    copy.give_draw(0, 500, 1, 1).unwrap();
    let before = own.clone();
    assert_eq!(own.take(&copy, 1), Err(Refusal::RowsSplit));
    assert_eq!(own, before);
}

#[test]
fn refused_copies() {
    let mut own = g();
    let mut head = g().into_inner();
    head[0] = 2;
    assert_eq!(own.take(&head[..3], 3), Err(Refusal::CopyShort));
    assert_eq!(own.take(&head, 3), Err(Refusal::CopyHeadWrong));
    head[0] = 1;
    assert_eq!(own.take(&head[..137], 3), Err(Refusal::CopyLengthWrong));
    head[46] = 11;
    assert_eq!(own.take(&head, 3), Err(Refusal::CopyRightsNegative));
    assert_eq!(own.take(&g(), 3), Err(Refusal::DeskAbsent));
    assert_eq!(own.take(&two_piles(), 2), Err(Refusal::OpeningDiffers));
    let other = Opening::new(3).pile(7, 10, 110, &[0, 0, 0], &[30, 40, 30]);
    let other = other.to_book().unwrap();
    assert_eq!(own.take(&other, 2), Err(Refusal::OpeningDiffers));
    assert_eq!(own, g());
}
