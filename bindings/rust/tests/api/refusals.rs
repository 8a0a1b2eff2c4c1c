//! Refusals: numbers, phrases, and the order in which a book and an act meet them.

use crate::{f, g};
use pitbook::{Book, Refusal, TALLY_LIMIT};

#[test]
fn numbers_go_round() {
    let table: Vec<u8> = (1..=8)
        .chain(10..=15)
        .chain(21..=27)
        .chain(30..=37)
        .collect();
    let all: Vec<u8> = Refusal::ALL.iter().map(|r| r.number()).collect();
    assert_eq!(all, table);
    for number in 0..=u8::MAX {
        let refusal = Refusal::from_number(number);
        assert_eq!(refusal.is_some(), table.contains(&number));
        assert!(refusal.is_none_or(|r| r.number() == number));
    }
}

#[test]
fn phrases_tell_refusals_apart() {
    let mut phrases: Vec<String> = Refusal::ALL.iter().map(|r| r.to_string()).collect();
    phrases.sort();
    phrases.dedup();
    assert_eq!(phrases.len(), Refusal::ALL.len());
}

#[test]
fn the_copys_say_so() {
    for refusal in Refusal::ALL {
        let of_copy = refusal.of_copy();
        assert_eq!(of_copy.is_some(), (21..=27).contains(&refusal.number()));
        if let Some(own) = of_copy {
            assert_eq!(own.number() + 20, refusal.number());
            assert_eq!(refusal.phrase(), format!("the copy: {own}"));
        }
    }
}

#[test]
fn goes_as_an_error() {
    fn tip_too_much() -> Result<(), Box<dyn std::error::Error>> {
        f().tip(0, 7, 41)?;
        Ok(())
    }
    assert_eq!(tip_too_much().unwrap_err().to_string(), "rights short");
}

#[test]
fn books() {
    let g = g().into_inner();
    let with = |at: usize, byte: u8| {
        let mut bytes = g.clone();
        bytes[at] = byte;
        Book::new(bytes).map(Book::into_inner).unwrap_err()
    };
    assert_eq!(Book::new(&g[..3]).unwrap_err(), Refusal::BookShort);
    assert_eq!(with(0, 2), Refusal::HeadWrong);
    assert_eq!(Book::new(&g[..137]).unwrap_err(), Refusal::LengthWrong);
    assert_eq!(with(4, 0), Refusal::ContentsWrong);
    assert_eq!(with(10, 111), Refusal::OpeningUnlawful);
    assert_eq!(with(50, 1), Refusal::TallyWrong);
    assert_eq!(with(46, 11), Refusal::RightsNegative);
}

#[test]
fn acts_and_queries() {
    let mut book = g();
    assert_eq!(book.tip(3, 8, 0), Err(Refusal::DeskAbsent));
    assert_eq!(book.draw(0, 8, 0), Err(Refusal::PileAbsent));
    assert_eq!(book.give_draw(0, 7, 3, 0), Err(Refusal::ReceiverWrong));
    assert_eq!(book.give_tip(0, 7, 1, 0), Err(Refusal::AmountWrong));
    assert_eq!(book.draw_rights(3, 8), Err(Refusal::DeskAbsent));
    assert_eq!(book.tip_rights(0, 8), Err(Refusal::PileAbsent));
    assert_eq!(book.tonnage(8), Err(Refusal::PileAbsent));
    assert_eq!(book.least(3, 8), Err(Refusal::DeskAbsent));
    assert_eq!(book.least(0, 8), Err(Refusal::PileAbsent));
    assert_eq!(book.most(3, 8), Err(Refusal::DeskAbsent));
    assert_eq!(book.most(0, 8), Err(Refusal::PileAbsent));
    assert_eq!(book, g());
}

#[test]
fn a_tally_at_its_limit() {
    let mut book = f();
    let mut record = book.fetch(7).unwrap();
    record.rows[0].tipped = TALLY_LIMIT - 10;
    record.rows[0].drawn = TALLY_LIMIT - 10;
    book.store(7, &record).unwrap();
    assert_eq!(book.tip(0, 7, 11), Err(Refusal::LimitReached));
    assert_eq!(book.tip(0, 7, 10), Ok(()));
}
