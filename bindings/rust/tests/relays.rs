//! 6/12, the order of relays, on the compiled library. Three lawful books of one
//! opening with no split between any two of them are taken into each other in
//! every order and grouping, by every desk. A take must be accepted where the
//! desk's own row is nowhere behind and meet 32 elsewhere, never 30 or 31; and
//! what comes out in the end must be the same, whichever way it came. So it must
//! for random plans of relays, which name a book more than once.
//!
//! PITBOOK_RELAYS sets how many threes, PITBOOK_SEED which.

// The other tests use the rest of them.
#[allow(dead_code)]
mod model;
#[allow(dead_code)]
mod support;

use model::book::{Book, Order, Row};
use model::bytes;
use pitbook::raw;
use support::chance::Chance;
use support::{from_environment, lawful, say, seed};

const RELAYS: u64 = 2_000;
/// Other random numbers than those of the calls beside the model, whose places
/// count from 0.
const PLACE: u64 = 612;

/// Each order of three books.
const ORDERS: [[usize; 3]; 6] = [
    [0, 1, 2],
    [0, 2, 1],
    [1, 0, 2],
    [1, 2, 0],
    [2, 0, 1],
    [2, 1, 0],
];

/// Three books whose rows are stages of one growth, so that none is split.
/// Which stage is chosen row by row, where that makes a lawful pile: such a
/// book need not come up in any history.
fn three(chance: &mut Chance) -> [Book; 3] {
    let mut stages = vec![lawful::book(chance)];
    for _ in 0..3 {
        let mut next = stages[stages.len() - 1].clone();
        lawful::grow_somewhere(chance, &mut next);
        stages.push(next);
    }
    std::array::from_fn(|_| {
        let whole = chance.below(stages.len());
        let mut book = stages[whole].clone();
        for (k, pile) in book.piles.iter_mut().enumerate() {
            let mut mixed = pile.clone();
            for (desk, row) in mixed.rows.iter_mut().enumerate() {
                *row = stages[chance.below(stages.len())].piles[k].rows[desk].clone();
            }
            if mixed.refusal() == 0 {
                *pile = mixed;
            }
        }
        book
    })
}

/// Rows that are not split: the later or common one has the greater tally at
/// every place.
fn joined(first: &Book, second: &Book) -> Book {
    let mut book = first.clone();
    for (pile, other) in book.piles.iter_mut().zip(&second.piles) {
        for (row, other) in pile.rows.iter_mut().zip(&other.rows) {
            let (mine, copy) = (row.to_numbers(), other.to_numbers());
            let greater: Vec<i64> = mine.iter().zip(&copy).map(|(m, c)| *m.max(c)).collect();
            *row = Row::from_numbers(first.desks, &greater);
        }
    }
    book
}

/// Whether a desk's own row is nowhere behind in the first of two books.
fn is_ahead(own: &Book, copy: &Book, desk: usize) -> bool {
    own.piles.iter().zip(&copy.piles).all(|(mine, theirs)| {
        matches!(
            mine.rows[desk].order(&theirs.rows[desk]),
            Order::Alike | Order::MineLater
        )
    })
}

#[derive(Default)]
struct Seen {
    takes: u64,
    refused: u64,
    /// Of the twelve ways to join three books, how many were open; and the
    /// threes of which all were.
    ways: u64,
    all_ways: u64,
    /// Threes whose join is none of the three.
    new_books: u64,
}

impl Seen {
    /// Takes the copy into the own book at every desk; whether one may.
    fn join(&mut self, own: &Book, copy: &Book, at: &str) -> bool {
        let (before, sent) = (bytes::print(own), bytes::print(copy));
        let due = bytes::print(&joined(own, copy));
        let mut open = false;
        for desk in 0..own.desks {
            let mut book = before.clone();
            let answer = raw::take(&mut book, &sent, desk as u8, &mut 0);
            let ahead = is_ahead(own, copy, desk);
            assert_eq!(answer, if ahead { 0 } else { 32 }, "{at}: desk {desk}");
            assert!(
                book == if ahead { &due[..] } else { &before[..] },
                "{at}: desk {desk} is left another book"
            );
            self.takes += 1;
            self.refused += u64::from(!ahead);
            open |= ahead;
        }
        assert_eq!(raw::check(&due), 0, "{at}: what is left is not readable");
        open
    }

    fn try_all(&mut self, books: &[Book; 3], at: &str) {
        let mut ways = 0;
        let all = joined(&joined(&books[0], &books[1]), &books[2]);
        for [x, y, z] in ORDERS.map(|order| order.map(|k| &books[k])) {
            let (xy, yz) = (joined(x, y), joined(y, z));
            let in_turn = self.join(x, y, at) & self.join(&xy, z, at);
            let at_once = self.join(y, z, at) & self.join(x, &yz, at);
            assert!(joined(&xy, z) == all && joined(x, &yz) == all, "{at}");
            ways += u64::from(in_turn) + u64::from(at_once);
        }
        for book in books {
            assert!(self.join(book, book, at), "{at}: a book and itself");
        }
        self.ways += ways;
        self.all_ways += u64::from(ways == 12);
        self.new_books += u64::from(!books.contains(&all));
    }
}

/// A random plan over so many books, some of them the same; what it gives, and
/// which it names.
fn plan(
    seen: &mut Seen,
    chance: &mut Chance,
    books: &[Book; 3],
    count: usize,
    at: &str,
) -> (Book, [bool; 3]) {
    if count == 1 {
        let k = chance.below(3);
        return (books[k].clone(), std::array::from_fn(|j| j == k));
    }
    let first = 1 + chance.below(count - 1);
    let (x, in_x) = plan(seen, chance, books, first, at);
    let (y, in_y) = plan(seen, chance, books, count - first, at);
    seen.join(&x, &y, at);
    (joined(&x, &y), std::array::from_fn(|k| in_x[k] || in_y[k]))
}

/// What a plan gives depends on the books that it names alone.
fn try_plan(seen: &mut Seen, chance: &mut Chance, books: &[Book; 3], at: &str) {
    let count = 2 + chance.below(7);
    let (given, named) = plan(seen, chance, books, count, at);
    let named: Vec<&Book> = (0..3).filter(|&k| named[k]).map(|k| &books[k]).collect();
    let due = named
        .iter()
        .fold(named[0].clone(), |all, book| joined(&all, book));
    assert!(given == due, "{at}: a plan of {count} books");
}

#[test]
fn grouping_is_of_no_consequence() {
    let (relays, seed) = (from_environment("PITBOOK_RELAYS", RELAYS), seed());
    let mut seen = Seen::default();
    for number in 0..relays {
        let mut chance = Chance::new(seed, PLACE, number);
        let at = format!("PITBOOK_SEED={seed}, relay {number}");
        let books = three(&mut chance);
        seen.try_all(&books, &at);
        try_plan(&mut seen, &mut chance, &books, &at);
    }
    say(&format!(
        "\nPITBOOK_SEED={seed} PITBOOK_RELAYS={relays}\n\
         takes {}, that met 32 {}; ways open {} of {}, all of them {} times; threes with a new book {}",
        seen.takes,
        seen.refused,
        seen.ways,
        12 * relays,
        seen.all_ways,
        seen.new_books
    ));
    assert!(relays < 100 || (seen.refused > 0 && seen.all_ways > 0 && seen.new_books > 0));
}
