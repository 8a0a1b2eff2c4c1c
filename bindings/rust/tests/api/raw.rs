//! The raw functions at lengths and values that the types leave out, and what a refused call leaves.

use crate::{f, g, two_piles};
use pitbook::{RECORD_NUMBERS, raw};

#[test]
fn lists_of_contents() {
    let book = two_piles();
    let (mut numbers, mut positions) = ([77; 3], [77; 3]);
    let answer = raw::contents(
        &book.as_bytes()[..3],
        &mut numbers[..0],
        &mut positions[..0],
    );
    assert_eq!(answer, 1);
    for (a, b) in [(1, 3), (3, 1), (0, 0)] {
        let (numbers, positions) = (&mut numbers[..a], &mut positions[..b]);
        assert_eq!(raw::contents(book.as_bytes(), numbers, positions), 8);
    }
    assert_eq!((numbers, positions), ([77; 3], [77; 3]));
    assert_eq!(
        raw::contents(book.as_bytes(), &mut numbers, &mut positions),
        0
    );
    assert_eq!((numbers, positions), ([3, 500, 77], [16, 88, 77]));
}

#[test]
fn lists_of_records() {
    let mut book = g().into_inner();
    let mut record = [77; RECORD_NUMBERS + 1];
    assert_eq!(raw::fetch(&book, 8, &mut []), 10);
    assert_eq!(raw::fetch(&book, 7, &mut record[..RECORD_NUMBERS - 1]), 8);
    assert_eq!(record, [77; RECORD_NUMBERS + 1]);
    assert_eq!(raw::fetch(&book, 7, &mut record), 0);
    assert_eq!(record[RECORD_NUMBERS], 77);
    assert_eq!(raw::store(&mut book, 8, &record), 10);
    assert_eq!(raw::store(&mut book, 7, &record), 3);
    assert_eq!(raw::store(&mut book, 7, &record[1..RECORD_NUMBERS]), 3);
    // A number of desks that has the right low byte.
    record[0] += 256;
    assert_eq!(raw::store(&mut book, 7, &record[..RECORD_NUMBERS]), 2);
    assert_eq!(book, g().as_bytes());
}

#[test]
fn results_stay_where_refused() {
    let book = f();
    let book = book.as_bytes();
    let mut tonnes = 77;
    assert_eq!(raw::draw_rights(book, 3, 8, &mut tonnes), 11);
    assert_eq!(raw::tip_rights(book, 0, 8, &mut tonnes), 10);
    assert_eq!(raw::tonnage(book, 8, &mut tonnes), 10);
    assert_eq!(raw::least(book, 3, 8, &mut tonnes), 11);
    assert_eq!(raw::least(book, 0, 8, &mut tonnes), 10);
    assert_eq!(raw::most(book, 3, 8, &mut tonnes), 11);
    assert_eq!(raw::most(book, 0, 8, &mut tonnes), 10);
    assert_eq!(raw::least(&book[..3], 3, 8, &mut tonnes), 1);
    assert_eq!(raw::most(&book[..3], 3, 8, &mut tonnes), 1);
    let (mut start, mut length) = (77, 78);
    assert_eq!(raw::body(book, 8, &mut start, &mut length), 10);
    assert_eq!((tonnes, start, length), (77, 77, 78));
}

#[test]
fn openings_and_checks() {
    let mut out = [0xa5; 80];
    let list = |number| [7, 0, 10, 4, 6, number, 0, 10, 4, 6];
    assert_eq!(raw::open(1, 2, &list(8)[..9], &mut out), 3);
    assert_eq!(raw::open(1, 2, &list(65_536), &mut out), 4);
    assert_eq!(raw::open(1, 2, &list(65_535), &mut out[..79]), 8);
    assert_eq!(out, [0xa5; 80]);
    assert_eq!(raw::open(1, 2, &list(65_535), &mut out), 0);
    assert_eq!(raw::check(&out), 0);
    let wrongs: [(usize, &[u8], u8); 3] = [(3, &[1], 2), (6, &[17], 4), (10, &[7, 0], 4)];
    for (at, bytes, answer) in wrongs {
        let mut wrong = out;
        wrong[at..at + bytes.len()].copy_from_slice(bytes);
        assert_eq!(raw::check(&wrong), answer);
    }
}

#[test]
fn rows() {
    for length in 0..100 {
        let (a, b) = (vec![0; length], vec![1; length]);
        let is_row = length % 8 == 0 && (16..=72).contains(&length);
        let compared = |mine: &[u8], copy: &[u8]| {
            let mut order = 9;
            (raw::compare(mine, copy, &mut order), order)
        };
        let orders = [(&a, &a, 1), (&b, &a, 2), (&a, &b, 3)];
        for (mine, copy, order) in orders {
            let due = if is_row { (0, order) } else { (3, 9) };
            assert_eq!(compared(mine, copy), due);
        }
        if length > 0 {
            assert_eq!(compared(&a, &b[..length / 2]), (3, 9));
        }
    }
}
