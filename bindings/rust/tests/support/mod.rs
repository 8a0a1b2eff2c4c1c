//! What the comparison and the guarded runs share: random inputs, the calls by
//! place, and the judgement of one call.

pub mod cases;
pub mod chance;
pub mod damage;
pub mod lawful;
pub mod lists;
pub mod pairs;
pub mod places;
pub mod records;
pub mod tickets;

use chance::Chance;
use places::Case;
use std::io::Write;

/// Past the test harness, which keeps the output of a passed test to itself.
pub fn say(text: &str) {
    writeln!(std::io::stdout(), "{text}").expect("standard output");
}

/// The seed, from PITBOOK_SEED.
pub fn seed() -> u64 {
    from_environment("PITBOOK_SEED", 20_260_701)
}

pub fn from_environment(name: &str, otherwise: u64) -> u64 {
    match std::env::var(name) {
        Ok(text) => text
            .trim()
            .parse()
            .unwrap_or_else(|_| panic!("{name} must be a whole number, not {text:?}")),
        Err(_) => otherwise,
    }
}

/// Case `number` at this place. It depends on the seed, the place and the
/// number alone.
pub fn case(place: places::Place, seed: u64, number: u64) -> Case {
    let mut chance = Chance::new(seed, place as u64, number);
    cases::random(place, &mut chance)
}

/// What one call of the library or of the model left behind.
#[derive(Clone, Debug, PartialEq, Eq)]
pub struct Outcome {
    pub answer: u8,
    pub lent: places::Lent,
}

/// The model's outcome and the library's must be equal in the answer and in
/// every lent byte and number; and where the call is refused, every lent byte
/// and number must be as it was.
pub fn judge(case: &Case, seed: u64, number: u64, model: &Outcome, library: &Outcome) {
    let at = format!(
        "{}, PITBOOK_SEED={seed}, case {number} ({})",
        case.place.name(),
        case.arguments()
    );
    assert!(
        model.answer == library.answer,
        "{at}: the model answers {}, the library {}",
        model.answer,
        library.answer
    );
    if let Some(difference) = model.lent.difference(&library.lent) {
        panic!(
            "{at}: both answer {}, but the model and the library leave different things: {difference}",
            model.answer
        );
    }
    if library.answer == 0 {
        return;
    }
    if let Some(difference) = case.lent.difference(&library.lent) {
        panic!(
            "{at}: refused with {}, but not everything stayed: {difference}",
            library.answer
        );
    }
}
