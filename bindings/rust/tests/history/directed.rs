//! Histories written by hand. Every step of theirs is checked like those of the
//! random ones; what is asserted here comes on top.

use super::act::Kind::{Draw, GiveDraw, GiveTip, Tip};
use super::book::{Body, Opening};
use super::choice;
use super::dice::Dice;
use super::ledger::Set;
use super::trial::Trial;
use pitbook::raw;

/// A tip and a draw have no receiver.
const NOBODY: u8 = 0;

/// "F: 3 desks, pile 7, floor 10, top 110, draw shares 0, 0, 0, tip shares 40,
/// 30, 30."
fn f() -> Opening {
    Opening {
        desks: 3,
        piles: 1,
        list: vec![7, 10, 110, 0, 0, 0, 40, 30, 30],
    }
}

/// G's bytes, written out from "Bytes" and "Worked book".
fn g() -> Vec<u8> {
    let mut book = vec![1, 3, 1, 0, 7, 0, 10, 0, 0, 0];
    let body: [[u32; 8]; 4] = [
        [10, 110, 0, 0, 0, 40, 30, 30],
        [30, 5, 0, 10, 10, 0, 0, 0],
        [1, 4, 0, 0, 0, 0, 0, 0],
        [0, 2, 0, 0, 0, 0, 0, 0],
    ];
    for number in body.iter().flatten() {
        book.extend_from_slice(&number.to_le_bytes());
    }
    assert_eq!(book.len(), 138);
    book
}

/// Four desks and two piles, with rights of both kinds everywhere.
fn yard() -> Opening {
    Opening {
        desks: 4,
        piles: 2,
        list: vec![
            3, 0, 400, 50, 50, 50, 50, 50, 50, 50, 50, //
            900, 5, 85, 10, 10, 10, 10, 10, 10, 10, 10,
        ],
    }
}

#[test]
fn g_in_two_orders_at_two_desks() {
    // The paper's own order, as far as the acts go.
    let mut one = Trial::open("G, the paper's order", f());
    assert_eq!(one.act(0, Tip, 7, NOBODY, 30), 0);
    assert_eq!(one.act(1, Tip, 7, NOBODY, 1), 0);
    assert_eq!(one.act(0, GiveDraw, 7, 1, 10), 0);
    assert_eq!(one.act(0, GiveDraw, 7, 2, 10), 0);
    assert_eq!(one.act(0, Draw, 7, NOBODY, 5), 0);
    // The rights come with the copy and not before.
    assert_eq!(one.act(1, Draw, 7, NOBODY, 4), 14);
    one.take(1, 0);
    assert_eq!(one.act(1, Draw, 7, NOBODY, 4), 0);
    assert_eq!(one.act(2, Draw, 7, NOBODY, 2), 14);
    one.take(2, 1);
    assert_eq!(one.act(2, Draw, 7, NOBODY, 2), 0);
    one.take(1, 2);
    assert!(one.book(2) == g());
    assert!(one.book(1) == g());

    // Desk 2 first, desk 1 last, and the copies go the other way round.
    let mut two = Trial::open("G, another order", f());
    assert_eq!(two.act(0, Tip, 7, NOBODY, 30), 0);
    assert_eq!(two.act(0, Draw, 7, NOBODY, 5), 0);
    assert_eq!(two.act(0, GiveDraw, 7, 2, 10), 0);
    two.take(2, 0);
    assert_eq!(two.act(2, Draw, 7, NOBODY, 2), 0);
    assert_eq!(two.act(0, GiveDraw, 7, 1, 10), 0);
    two.take(1, 2);
    two.take(1, 0);
    assert_eq!(two.act(1, Draw, 7, NOBODY, 4), 0);
    assert_eq!(two.act(1, Tip, 7, NOBODY, 1), 0);
    two.take(2, 1);
    assert!(two.book(1) == g());
    assert!(two.book(2) == g());

    // The simulator's own formulas give the paper's listing of G.
    let bytes = g();
    let body = Body::of(&bytes, 7).unwrap();
    let rights = |desk| (body.draw_rights(desk), body.tip_rights(desk));
    assert_eq!(body.tonnage(), 30);
    assert_eq!([0, 1, 2].map(rights), [(5, 15), (7, 33), (8, 32)]);
}

#[test]
fn a_copy_arrives_three_times() {
    let mut trial = Trial::open("three times", yard());
    trial.act(0, Tip, 3, NOBODY, 20);
    trial.act(0, GiveTip, 900, 1, 7);
    let made = trial.moment();
    trial.take_of(1, 0, made);
    let once = trial.book(1).to_vec();
    trial.take_of(1, 0, made);
    assert!(trial.book(1) == once);
    // The third comes when both desks have gone on.
    assert_eq!(trial.act(1, Tip, 900, NOBODY, 17), 0);
    trial.act(0, Draw, 3, NOBODY, 9);
    let on = trial.book(1).to_vec();
    trial.take_of(1, 0, made);
    assert!(trial.book(1) == on);
    // Late at its own desk, a copy brings nothing either.
    let own = trial.book(0).to_vec();
    trial.take_of(0, 0, made);
    trial.take_of(0, 0, 0);
    assert!(trial.book(0) == own);
}

#[test]
fn a_copy_is_lost() {
    let mut trial = Trial::open("lost", yard());
    // The copy of this moment never arrives: desk 1 lacks the give.
    assert_eq!(trial.act(0, GiveDraw, 900, 1, 10), 0);
    assert_eq!(trial.act(1, Draw, 900, NOBODY, 20), 14);
    assert_eq!(trial.act(0, Tip, 900, NOBODY, 3), 0);
    assert!(trial.book(0) != trial.book(1));
    // The next one holds what the lost one held.
    trial.take(1, 0);
    assert!(trial.book(0) == trial.book(1));
    assert_eq!(trial.act(1, Draw, 900, NOBODY, 20), 0);
    // Nothing ever came to desk 3.
    assert!(trial.book(3) == yard().book());
}

#[test]
fn relays_and_direct_copies() {
    let mut trial = Trial::open("relays", yard());
    trial.act(0, Tip, 3, NOBODY, 50);
    trial.act(0, GiveDraw, 900, 2, 4);
    trial.act(1, Draw, 3, NOBODY, 50);
    let (zero, one) = (trial.moment(), trial.moment());
    // Desk 0 to 1 to 2.
    trial.take_of(1, 0, zero);
    trial.take(2, 1);
    // Directly to desk 3, one after the other, the later one first.
    trial.take_of(3, 1, one);
    trial.take_of(3, 0, zero);
    assert!(trial.book(2) == trial.book(3));
    // What was relayed can be used: the four given and ten of its own.
    assert_eq!(trial.act(2, Draw, 900, NOBODY, 15), 14);
    assert_eq!(trial.act(2, Draw, 900, NOBODY, 14), 0);
    // A relay may come back to where it started.
    trial.take(0, 2);
    assert!(trial.book(0) == trial.book(2));
}

#[test]
fn everyone_takes_everyones_last_copy() {
    let mut trial = Trial::open("convergence", yard());
    for desk in 0..4 {
        let next = (desk + 1) % 4;
        assert_eq!(trial.act(desk, Tip, 3, NOBODY, 50), 0);
        assert_eq!(trial.act(desk, Tip, 3, NOBODY, 1), 14);
        assert_eq!(trial.act(desk, GiveDraw, 3, next, 100), 0);
        assert_eq!(trial.act(desk, GiveTip, 900, next, 10), 0);
        assert_eq!(trial.act(desk, Draw, 900, NOBODY, 10), 0);
    }
    trial.converge();
    let book = trial.book(0).to_vec();
    let tonnage = |pile| Body::of(&book, pile).unwrap().tonnage();
    assert_eq!((tonnage(3), tonnage(900)), (400, 5));
    trial.converge();
    assert!(trial.book(3) == book);
}

#[test]
fn random_desks_converge() {
    for number in 0..50 {
        let mut dice = Dice::new(3, number);
        let opening = choice::opening(&mut dice);
        let manner = choice::Manner::choose(&mut dice);
        let mut trial = Trial::open(&format!("convergence {number}"), opening);
        for _ in 0..dice.between(1, 60) {
            let call = choice::call(&mut dice, &manner, &trial);
            trial.step(call);
        }
        trial.converge();
    }
}

/// 1/12: "while another desk's tips were still in the air". What desk 1 knows
/// is far off then, and what it is sure of holds, to the last tonne.
#[test]
fn tips_in_the_air() {
    let mut trial = Trial::open("tips in the air", f());
    assert_eq!(trial.act(0, Tip, 7, NOBODY, 40), 0);
    assert_eq!(trial.act(2, Tip, 7, NOBODY, 30), 0);
    let all = &trial.ledger().lone_of_all().book;
    assert_eq!(Body::of(all, 7).unwrap().tonnage(), 80);
    let body = Body::of(trial.book(1), 7).unwrap();
    assert_eq!(body.tonnage(), 10);
    assert_eq!((body.least(1), body.most(1)), (10, 80));
    // "On that desk's own line": desk 1's book has desk 0's line, too, and there
    // the most is less.
    assert_eq!(body.most(0), 70);
    let mut most = 0;
    assert_eq!(raw::most(trial.book(1), 0, 7, &mut most), 0);
    assert_eq!(most, 70);
}

/// No step of a history, and so beyond the five parts: "the desk acted twice
/// from one old book". Histories never bring split rows together, hence they
/// cannot tell the later row from "the maximum place by place without the split
/// check"; the paper's case j can.
#[test]
fn acting_twice_from_one_old_book_is_split() {
    let (mut own, mut copy) = (f().book(), f().book());
    assert_eq!(raw::tip(&mut own, 0, 7, 10), 0);
    assert_eq!(raw::give_tip(&mut own, 0, 7, 1, 5), 0);
    assert_eq!(raw::tip(&mut copy, 0, 7, 30), 0);
    let before = own.clone();
    assert_eq!(raw::take(&mut own, &copy, 1, &mut 0), 31);
    assert!(own == before);
}

/// Part 2 can speak: a set that is no desk's, an act without the ones it stood
/// on, does break it.
#[test]
fn an_act_without_its_ground_is_refused_in_the_lone_run() {
    let mut trial = Trial::open("ground", f());
    trial.act(0, Tip, 7, NOBODY, 30);
    trial.act(0, Draw, 7, NOBODY, 5);
    let lone = |set: &[usize]| trial.ledger().lone(&set.iter().copied().collect::<Set>());
    assert!(lone(&[0, 1]).faults.is_empty());
    let groundless = lone(&[1]);
    assert_eq!(groundless.faults, ["place 1 is refused 14"]);
    assert!(groundless.book == f().book());
}
