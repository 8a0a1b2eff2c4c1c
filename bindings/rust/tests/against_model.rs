//! The library against the independent model of document 01.
//!
//! Each test makes random calls of one entry point, runs the model and the
//! library on equal inputs and compares the answer and every lent byte and
//! number afterwards. It counts how often each number was answered and fails
//! if one that document 01's table lets come from that place never came.
//!
//! PITBOOK_SEED sets the seed, PITBOOK_CASES the number of calls in all. Far
//! fewer calls than the default may be too few to reach every number.

mod model;
mod support;

use std::collections::BTreeMap;
use support::places::{Case, Place};
use support::places::{LIBRARY, MODEL, PLACES};
use support::{Outcome, case, from_environment, judge, say, seed};

/// Calls compared in all, if PITBOOK_CASES is not set.
const CASES: u64 = 600_000;

/// Document 01, "Refusals by place", 3/12 to 5/12: the numbers that can come from a
/// place, 0 (done) first. Each must be reached.
const EXPECTED: [(&str, &[u8]); 26] = [
    // "Opening: 2, 3, 4, 5, by pile. 8"
    ("open", &[0, 2, 3, 4, 5, 8]),
    // "Book bytes: 1 to 4", "Each body, in file order: 5 to 7"
    ("check", &[0, 1, 2, 3, 4, 5, 6, 7]),
    // The book's own, "Lent output: 8"
    ("contents", &[0, 1, 2, 3, 4, 5, 6, 7, 8]),
    // As fetch, without a lent record.
    ("body", &[0, 1, 2, 3, 4, 5, 6, 7, 10]),
    // "Act or rights query: the book's ... own, then 11, 10, 12, 13, 14, 15";
    // tip and draw have no receiver.
    ("tip", &[0, 1, 2, 3, 4, 5, 6, 7, 11, 10, 13, 14, 15]),
    ("draw", &[0, 1, 2, 3, 4, 5, 6, 7, 11, 10, 13, 14, 15]),
    (
        "give_draw",
        &[0, 1, 2, 3, 4, 5, 6, 7, 11, 10, 12, 13, 14, 15],
    ),
    (
        "give_tip",
        &[0, 1, 2, 3, 4, 5, 6, 7, 11, 10, 12, 13, 14, 15],
    ),
    // "Take: own book's, then the copy's as 21 to 27, then 11, then 30",
    // "Take, by pile, then by desk: 31, 32"
    (
        "take",
        &[
            0, 1, 2, 3, 4, 5, 6, 7, 21, 22, 23, 24, 25, 26, 27, 11, 30, 31, 32,
        ],
    ),
    // 5/12: a take that reports 0; the others above report more.
    ("take, nothing new", &[0]),
    ("draw_rights", &[0, 1, 2, 3, 4, 5, 6, 7, 11, 10]),
    ("tip_rights", &[0, 1, 2, 3, 4, 5, 6, 7, 11, 10]),
    // "Tonnage, fetch, store: the book's own, then 10"
    ("tonnage", &[0, 1, 2, 3, 4, 5, 6, 7, 10]),
    // As rights.
    ("least", &[0, 1, 2, 3, 4, 5, 6, 7, 11, 10]),
    ("most", &[0, 1, 2, 3, 4, 5, 6, 7, 11, 10]),
    // Last 8, the lent record too short.
    ("fetch", &[0, 1, 2, 3, 4, 5, 6, 7, 10, 8]),
    // The book's own.
    ("store", &[1, 2, 3, 4, 5, 6, 7]),
    // "then 10; store then" 3, a count other than 163, "the record's own, then
    // 30": all with a lawful book.
    ("store, lawful book", &[0, 10, 3, 2, 5, 6, 7, 30]),
    // 5/12: "alike, mine later, the copy's later, split. Rows of lengths for
    // which document 01 hands on an empty part meet 3."
    ("compare, alike", &[0]),
    ("compare, mine later", &[0]),
    ("compare, the copy's later", &[0]),
    ("compare, split", &[0]),
    ("compare, no rows", &[3]),
    // 3/12: "Checked in field order after length, which is refusal 3"
    ("read_ticket", &[0, 3, 33, 34, 13, 35]),
    // "Writing meets 8 last"
    ("write_ticket", &[0, 33, 34, 13, 35, 8]),
    // 4/12: "3 comes first", "every ticket's own checks", "36 ... 37"
    ("reconcile", &[0, 3, 33, 34, 13, 35, 36, 37]),
];

/// How often each number was answered, by name of EXPECTED.
type Reached = BTreeMap<&'static str, BTreeMap<u8, u64>>;

/// The name in EXPECTED that a case is counted under, by what came of it.
fn counted_as(case: &Case, found: &Outcome) -> &'static str {
    let numbers = &found.lent.numbers;
    match case.place {
        Place::Store if model::check(&case.lent.book) == 0 => "store, lawful book",
        Place::Take if found.answer == 0 && numbers[0] == 0 => "take, nothing new",
        Place::Compare if found.answer != 0 => "compare, no rows",
        Place::Compare => match numbers[0] {
            1 => "compare, alike",
            2 => "compare, mine later",
            3 => "compare, the copy's later",
            _ => "compare, split",
        },
        place => place.name(),
    }
}

/// Rows, tickets and lists of them are no books.
fn has_a_book(place: Place) -> bool {
    use Place::{Compare, ReadTicket, Reconcile, WriteTicket};
    !matches!(place, Compare | ReadTicket | WriteTicket | Reconcile)
}

/// Compares this place's part of all cases.
fn side_by_side(place: Place) {
    let seed = seed();
    let count = from_environment("PITBOOK_CASES", CASES).div_ceil(PLACES.len() as u64);
    let mut reached = Reached::new();
    let mut desks_seen = [0u64; 9];
    let mut piles_seen = [0u64; 33];
    for number in 0..count {
        let case = case(place, seed, number);
        let expected = MODEL.outcome(&case);
        let found = LIBRARY.outcome(&case);
        judge(&case, seed, number, &expected, &found);
        let answers = reached.entry(counted_as(&case, &found)).or_default();
        *answers.entry(found.answer).or_default() += 1;
        if has_a_book(place) && found.answer == 0 {
            desks_seen[usize::from(found.lent.book[1])] += 1;
            piles_seen[usize::from(found.lent.book[2])] += 1;
        }
    }
    report(place, seed, count, &reached);
    if has_a_book(place) {
        // Where there is one desk alone, a give is never done.
        let gives = matches!(place, Place::GiveDraw | Place::GiveTip);
        let fewest = if gives { 2 } else { 1 };
        let missing_n = (fewest..=8).find(|&n| desks_seen[n] == 0);
        let missing_p = (1..=32).find(|&p| piles_seen[p] == 0);
        assert_eq!(missing_n, None, "{}: this n was never done", place.name());
        assert_eq!(missing_p, None, "{}: this p was never done", place.name());
    }
}

/// Prints what was reached and fails where an expected number is missing or
/// another came.
fn report(place: Place, seed: u64, count: u64, reached: &Reached) {
    let mut summary = format!("{}: {count} calls, PITBOOK_SEED={seed}\n", place.name());
    for (name, answers) in reached {
        summary += &format!("  {name}:");
        for (answer, times) in answers {
            summary += &format!(" {answer} x {times},");
        }
        summary.pop();
        summary += "\n";
    }
    say(summary.trim_end());
    for (name, expected) in EXPECTED {
        if name.split(',').next() != Some(place.name()) {
            continue;
        }
        let answers = reached.get(name).cloned().unwrap_or_default();
        for answer in expected {
            assert!(
                answers.contains_key(answer),
                "{name}: {answer} was never reached"
            );
        }
        for answer in answers.keys() {
            assert!(
                expected.contains(answer),
                "{name}: {answer} cannot come from here"
            );
        }
    }
}

#[test]
fn open() {
    side_by_side(Place::Open);
}

#[test]
fn check() {
    side_by_side(Place::Check);
}

#[test]
fn contents() {
    side_by_side(Place::Contents);
}

#[test]
fn body() {
    side_by_side(Place::Body);
}

#[test]
fn tip() {
    side_by_side(Place::Tip);
}

#[test]
fn draw() {
    side_by_side(Place::Draw);
}

#[test]
fn give_draw() {
    side_by_side(Place::GiveDraw);
}

#[test]
fn give_tip() {
    side_by_side(Place::GiveTip);
}

#[test]
fn take() {
    side_by_side(Place::Take);
}

#[test]
fn draw_rights() {
    side_by_side(Place::DrawRights);
}

#[test]
fn tip_rights() {
    side_by_side(Place::TipRights);
}

#[test]
fn tonnage() {
    side_by_side(Place::Tonnage);
}

#[test]
fn least() {
    side_by_side(Place::Least);
}

#[test]
fn most() {
    side_by_side(Place::Most);
}

#[test]
fn fetch() {
    side_by_side(Place::Fetch);
}

#[test]
fn store() {
    side_by_side(Place::Store);
}

#[test]
fn compare() {
    side_by_side(Place::Compare);
}

#[test]
fn read_ticket() {
    side_by_side(Place::ReadTicket);
}

#[test]
fn write_ticket() {
    side_by_side(Place::WriteTicket);
}

#[test]
fn reconcile() {
    side_by_side(Place::Reconcile);
}
