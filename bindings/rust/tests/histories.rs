//! Demand 3 of document 01 on the compiled library, "one claim about the whole
//! list, of any length", and what a desk can be sure of (1/12). Random
//! histories here, some by hand in `history/directed.rs`; `history/trial.rs`
//! names the parts checked, `history/reached.rs` builds histories that reach a
//! tonnage.
//!
//! PITBOOK_HISTORIES and PITBOOK_REACHED set how many, PITBOOK_SEED which. A
//! failure prints the seed, the number of the history and its list of calls.

mod history;

use history::choice;
use history::dice::Dice;
use history::reached::Reached;
use history::summary::Summary;
use history::trial::Trial;
use pitbook::raw;
use std::io::Write;

const HISTORIES: u64 = 2_500;
const REACHED: u64 = 400;
const SEED: u64 = 1;

fn setting(name: &str, otherwise: u64) -> u64 {
    match std::env::var(name) {
        Ok(text) => text.parse().expect(name),
        Err(_) => otherwise,
    }
}

/// Past the test harness, which keeps the output of a passed test to itself.
fn say(text: &str) {
    writeln!(std::io::stdout(), "{text}").expect("standard output");
}

fn random(dice: &mut Dice, name: &str) -> Trial {
    let opening = choice::opening(dice);
    let manner = choice::Manner::choose(dice);
    let mut trial = Trial::open(name, opening);
    for _ in 0..dice.between(1, 200) {
        let call = choice::call(dice, &manner, &trial);
        trial.step(call);
    }
    trial
}

#[test]
fn random_histories() {
    let histories = setting("PITBOOK_HISTORIES", HISTORIES);
    let seed = setting("PITBOOK_SEED", SEED);
    say(&format!(
        "\nPITBOOK_SEED={seed} PITBOOK_HISTORIES={histories}"
    ));
    let mut total = Summary::default();
    for number in 0..histories {
        let mut dice = Dice::new(seed, number);
        let mut trial = random(&mut dice, &format!("seed {seed}, history {number}"));
        if dice.chance(20) {
            trial.converge();
        }
        total.add(&trial.summary());
    }
    say(&total.to_string());
    // A handful of histories may miss one refusal or another.
    assert!(histories < 200 || total.is_alive(), "{total}");
}

/// "Each whole number between them is reached by some history ending with that
/// same book": the least, the most and one more, of a desk and a pile where a
/// random history ends. Its tallies are far below 990,000,000.
#[test]
fn numbers_between_are_reached() {
    let histories = setting("PITBOOK_REACHED", REACHED);
    let seed = setting("PITBOOK_SEED", SEED);
    let mut total = Reached::default();
    for number in 0..histories {
        // Other histories than those above.
        let mut dice = Dice::new(!seed, number);
        let trial = random(&mut dice, &format!("seed {seed}, reached {number}"));
        let desk = dice.between(0, u64::from(trial.opening().desks) - 1) as u8;
        let pile = dice.pick(&trial.opening().pile_numbers());
        let (mut least, mut most) = (u32::MAX, 0);
        assert_eq!(raw::least(trial.book(desk), desk, pile, &mut least), 0);
        assert_eq!(raw::most(trial.book(desk), desk, pile, &mut most), 0);
        let between = dice.between(u64::from(least), u64::from(most));
        for x in [i64::from(least), i64::from(most), between as i64] {
            total.reach(&trial, desk, pile, x);
        }
        total.histories += 1;
    }
    say(&format!(
        "\nPITBOOK_SEED={seed} PITBOOK_REACHED={histories}"
    ));
    say(&total.to_string());
    assert_eq!(total.numbers, 3 * histories);
    assert!(histories < 50 || (total.below > 0 && total.above > 0));
}
