//! What an opening is refused for, and what it leaves.

use crate::f;
use pitbook::{BOOK_LONGEST, Opening, Refusal, book_length};

/// The refusal of an opening, and that its buffer stayed.
fn refused(opening: &Opening) -> Refusal {
    let mut buffer = [0xa5; BOOK_LONGEST];
    let refusal = opening.open(&mut buffer).map(|_| ()).unwrap_err();
    assert!(buffer.iter().all(|&byte| byte == 0xa5));
    assert_eq!(opening.to_vec(), Err(refusal));
    refusal
}

#[test]
fn desks_and_piles_out_of_range() {
    assert_eq!(refused(&Opening::new(3)), Refusal::HeadWrong);
    assert_eq!(Opening::new(3).length(), None);
    assert_eq!(
        refused(&Opening::new(0).pile(1, 0, 0, &[], &[])),
        Refusal::HeadWrong
    );
    let nine = Opening::new(9).pile(1, 0, 0, &[0; 9], &[0; 9]);
    assert_eq!(refused(&nine), Refusal::HeadWrong);
    for too_many in [33, 256, 257, 65_535] {
        let opening = (1..=too_many).fold(Opening::new(1), |o, k| o.pile(k, 0, 0, &[0], &[0]));
        assert_eq!(refused(&opening), Refusal::HeadWrong);
    }
}

#[test]
fn shares_that_are_no_ones() {
    // 2 and 4 shares are as many as 3 and 3, and still no opening for 3 desks.
    let crossed = Opening::new(3).pile(7, 10, 110, &[0, 0], &[0, 40, 30, 30]);
    assert_eq!(refused(&crossed), Refusal::LengthWrong);
    let short = Opening::new(3).pile(7, 10, 110, &[], &[40, 30, 30]);
    assert_eq!(refused(&short), Refusal::LengthWrong);
    let mended = short.pile(8, 0, 0, &[0, 0, 0], &[0, 0, 0]);
    assert_eq!(refused(&mended), Refusal::LengthWrong);
    // The number of desks is judged first.
    let nine = Opening::new(9).pile(7, 0, 0, &[0], &[0]);
    assert_eq!(refused(&nine), Refusal::HeadWrong);
}

#[test]
fn numbers_that_do_not_rise() {
    let zero = Opening::new(1).pile(0, 0, 0, &[0], &[0]);
    assert_eq!(refused(&zero), Refusal::ContentsWrong);
    // Before the second pile's opening, which is unlawful too.
    let twice = Opening::new(1)
        .pile(2, 0, 0, &[0], &[0])
        .pile(2, 1, 0, &[0], &[0]);
    assert_eq!(refused(&twice), Refusal::ContentsWrong);
    let ends = Opening::new(1)
        .pile(1, 0, 0, &[0], &[0])
        .pile(65_535, 0, 0, &[0], &[0]);
    assert!(ends.to_book().is_ok());
}

#[test]
fn unlawful_piles() {
    for (floor, top, draw, tip) in [
        (2, 1, 0, 0),
        (0, 10_000_001, 0, 10_000_001),
        (0, 10, 4, 5),
        (0, 10, u32::MAX, 11),
    ] {
        let opening = Opening::new(1).pile(1, floor, top, &[draw], &[tip]);
        assert_eq!(refused(&opening), Refusal::OpeningUnlawful);
    }
    let full = Opening::new(1).pile(1, 10_000_000, 10_000_000, &[0], &[0]);
    assert_eq!(full.to_book().unwrap().tonnage(1), Ok(10_000_000));
}

#[test]
fn buffers() {
    let opening = Opening::new(3).pile(7, 10, 110, &[0, 0, 0], &[40, 30, 30]);
    assert_eq!(opening.length(), Some(138));
    let mut buffer = [0xa5; 140];
    let refusal = opening.open(&mut buffer[..137]).unwrap_err();
    assert_eq!(refusal, Refusal::BufferShort);
    assert_eq!(buffer, [0xa5; 140]);
    {
        let mut book = opening.open(&mut buffer).unwrap();
        assert_eq!(book, f());
        book.tip(0, 7, 1).unwrap();
    }
    assert_eq!(buffer[42], 1);
    assert_eq!(buffer[138..], [0xa5, 0xa5]);
}

#[test]
fn shortest_and_longest() {
    let shortest = Opening::new(1).pile(1, 0, 0, &[0], &[0]).to_book().unwrap();
    assert_eq!(shortest.as_bytes().len(), 42);
    let pile = |o: Opening, k| o.pile(k, 0, 9, &[0; 8], &[0, 0, 0, 0, 0, 0, 0, 9]);
    let mut longest = (1..=32).fold(Opening::new(8), pile).to_book().unwrap();
    assert_eq!(longest.as_bytes().len(), BOOK_LONGEST);
    longest.tip(7, 32, 9).unwrap();
    assert_eq!(longest.tonnage(32), Ok(9));
    assert_eq!(longest.tonnage(31), Ok(0));
}

#[test]
fn lengths() {
    let manual = [32, 72, 128, 200, 288, 392, 512, 648];
    for (n, body) in (1..).zip(manual) {
        for p in 1..=32 {
            assert_eq!(book_length(n, p), Some(4 + usize::from(p) * (6 + body)));
        }
    }
    for (n, p) in [(0, 1), (9, 1), (1, 0), (1, 33), (255, 255)] {
        assert_eq!(book_length(n, p), None);
    }
}
