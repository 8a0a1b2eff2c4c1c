//! What a book hands out: contents, bodies, records, rows.

use crate::{f, g, two_piles};
use pitbook::{Entry, Opening, RECORD_NUMBERS, Record, Refusal, Row, RowOrder};
use pitbook::{compare_rows, later_row, row_length};

#[test]
fn contents_and_bodies() {
    let book = two_piles();
    let entries = [(3, 16), (500, 88)];
    let entries = entries.map(|(number, position)| Entry { number, position });
    assert_eq!(book.contents().unwrap(), entries);
    for entry in entries {
        let at = entry.position as usize;
        let part = &book.as_bytes()[at..at + 72];
        // The part of the book itself, and not like bytes elsewhere.
        assert!(std::ptr::eq(book.body(entry.number).unwrap(), part));
    }
    assert_eq!(book.body(4), Err(Refusal::PileAbsent));
}

/// The site manual's page of body lengths; head and contents of one pile are 10 bytes.
#[test]
fn body_lengths() {
    let page = [32, 72, 128, 200, 288, 392, 512, 648];
    for (desks, length) in (1..).zip(page) {
        let none = vec![0; desks];
        let opening = Opening::new(desks as u8).pile(7, 0, 0, &none, &none);
        assert_eq!(opening.length(), Some(10 + length), "{desks} desks");
        let book = opening.to_book().unwrap();
        assert_eq!(book.as_bytes().len(), 10 + length, "{desks} desks");
        assert_eq!(book.body(7).unwrap().len(), length, "{desks} desks");
    }
}

#[test]
fn record_of_g() {
    let mut want = Record {
        desks: 3,
        floor: 10,
        top: 110,
        tip_shares: [40, 30, 30, 0, 0, 0, 0, 0],
        ..Record::default()
    };
    want.rows[0] = Row {
        tipped: 30,
        drawn: 5,
        draw_gives: [0, 10, 10, 0, 0, 0, 0, 0],
        tip_gives: [0; 8],
    };
    want.rows[1].tipped = 1;
    want.rows[1].drawn = 4;
    want.rows[2].drawn = 2;
    assert_eq!(g().fetch(7), Ok(want));
    assert_eq!(g().fetch(8), Err(Refusal::PileAbsent));

    let mut book = f();
    book.store(7, &want).unwrap();
    assert_eq!(book, g());
}

#[test]
fn records_and_numbers() {
    let numbers: [u32; RECORD_NUMBERS] = std::array::from_fn(|k| k as u32);
    let record = Record::from_numbers(&numbers).unwrap();
    assert_eq!(record.to_numbers(), numbers);
    assert_eq!((record.desks, record.floor, record.top), (0, 1, 2));
    assert_eq!((record.draw_shares[0], record.tip_shares[0]), (3, 11));
    assert_eq!((record.rows[7].tipped, record.rows[7].drawn), (145, 146));
    assert_eq!(
        (record.rows[7].draw_gives[0], record.rows[7].tip_gives[7]),
        (147, 162)
    );
    assert_eq!(Record::from_numbers(&[256; RECORD_NUMBERS]), None);
}

#[test]
fn refused_stores() {
    let mut book = f();
    let lawful = g().fetch(7).unwrap();
    let mut refused = |pile, change: fn(&mut Record)| {
        let mut record = lawful;
        change(&mut record);
        let refusal = book.store(pile, &record).unwrap_err();
        assert_eq!(book, f());
        refusal
    };
    assert_eq!(refused(8, |r| r.desks = 0), Refusal::PileAbsent);
    assert_eq!(refused(7, |r| r.desks = 9), Refusal::HeadWrong);
    assert_eq!(
        refused(7, |r| r.tip_shares[3] = 1),
        Refusal::OpeningUnlawful
    );
    assert_eq!(
        refused(7, |r| r.rows[1].tip_gives[1] = 1),
        Refusal::TallyWrong
    );
    assert_eq!(refused(7, |r| r.rows[3].tipped = 1), Refusal::TallyWrong);
    assert_eq!(
        refused(7, |r| r.rows[2].drawn = 11),
        Refusal::RightsNegative
    );
    assert_eq!(refused(7, |r| r.desks = 4), Refusal::OpeningDiffers);
    // A share of a desk that the book does not have, and that the others make up for.
    let lost = |r: &mut Record| (r.tip_shares[2], r.tip_shares[3]) = (29, 1);
    assert_eq!(refused(7, lost), Refusal::OpeningUnlawful);
    let moved = |r: &mut Record| (r.floor, r.top) = (11, 111);
    assert_eq!(refused(7, moved), Refusal::OpeningDiffers);
}

/// The row of desk 0 in F, in G and where it acted twice from F.
fn rows_of_desk_0() -> [Vec<u8>; 3] {
    let mut other = f();
    other.tip(0, 7, 31).unwrap();
    let row = row_length(3);
    [f(), g(), other].map(|book| book.body(7).unwrap()[row..2 * row].to_vec())
}

#[test]
fn compared_rows() {
    let rows = rows_of_desk_0();
    let [f0, g0, other0] = rows.each_ref().map(|row| &row[..]);
    assert_eq!(compare_rows(g0, g0), Ok(RowOrder::Alike));
    assert_eq!(compare_rows(g0, f0), Ok(RowOrder::MineLater));
    assert_eq!(compare_rows(f0, g0), Ok(RowOrder::CopyLater));
    assert_eq!(compare_rows(g0, other0), Ok(RowOrder::Split));
    let wrong = Err(Refusal::LengthWrong);
    assert_eq!(compare_rows(f0, &g0[..24]), wrong);
    assert_eq!(compare_rows(&f0[1..], &g0[1..]), wrong);
    assert_eq!(compare_rows(&[], &[]), wrong);
    assert_eq!(compare_rows(&[0; 80], &[0; 80]), wrong);
}

#[test]
fn later_rows() {
    let rows = rows_of_desk_0();
    let [f0, g0, other0] = rows.each_ref().map(|row| &row[..]);
    assert!(std::ptr::eq(later_row(f0, g0).unwrap(), g0));
    assert!(std::ptr::eq(later_row(g0, f0).unwrap(), g0));
    let alike = g0.to_vec();
    assert!(std::ptr::eq(later_row(&alike, g0).unwrap(), &alike[..]));
    assert_eq!(later_row(g0, other0), None);
    assert_eq!(later_row(f0, &g0[..24]), None);
    assert_eq!(later_row(&f0[1..], &g0[1..]), None);
    assert_eq!(later_row(&[], &[]), None);
    assert_eq!(later_row(&[0; 80], &[0; 80]), None);
}
