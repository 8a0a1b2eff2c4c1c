//! Random openings and calls.

use super::act::{Act, Call, Kind};
use super::book::{Body, Opening};
use super::dice::Dice;
use super::trial::Trial;

/// What one history is like; all numbers are percentages.
pub struct Manner {
    takes: u64,
    wrong: u64,
    /// Copies made just now; the rest are of any earlier moment.
    fresh: u64,
    /// Acts on the first pile, beside those that fall on it anyway.
    first: u64,
}

impl Manner {
    pub fn choose(dice: &mut Dice) -> Manner {
        Manner {
            takes: dice.pick(&[5, 20, 35, 50, 80]),
            wrong: dice.pick(&[2, 10, 10, 30]),
            fresh: dice.pick(&[0, 20, 50, 90]),
            first: dice.pick(&[0, 0, 50]),
        }
    }
}

pub fn opening(dice: &mut Dice) -> Opening {
    let desks = dice.between(1, 8) as u8;
    let piles = match dice.between(0, 99) {
        0..=39 => 1,
        40..=89 => dice.between(2, 4),
        90..=97 => dice.between(5, 12),
        _ => dice.pick(&[13, 24, 31, 32]),
    };
    // Narrow piles run short of rights, wide ones seldom do; a history is
    // mostly of one sort.
    let widest = dice.pick(&[
        0, 3, 10, 30, 30, 200, 200, 3_000, 3_000, 100_000, 10_000_000,
    ]);
    let mut list = Vec::new();
    for number in pile_numbers(dice, piles) {
        let widest = if dice.chance(80) { widest } else { 2_000 };
        let width = if dice.chance(50) {
            widest
        } else {
            dice.between(0, widest)
        };
        let floor = match dice.between(0, 2) {
            0 => 0,
            1 => 10_000_000 - width,
            _ => dice.between(0, 10_000_000 - width),
        };
        list.extend([number, floor as u32, (floor + width) as u32]);
        list.extend(shares(dice, width as u32, usize::from(desks)));
    }
    Opening {
        desks,
        piles: piles as u8,
        list,
    }
}

/// Strictly rising, 1 to 65,535.
fn pile_numbers(dice: &mut Dice, piles: u64) -> Vec<u32> {
    let mut numbers = Vec::new();
    let mut least = 1;
    for left in (0..piles).rev() {
        let most = 65_535 - left;
        let number = match dice.between(0, 3) {
            0 => most,
            1 => dice.between(least, most),
            _ => (least + dice.between(0, 2)).min(most),
        };
        numbers.push(number as u32);
        least = number + 1;
    }
    numbers
}

/// "All shares of both kinds add up to top − floor": n draw shares, n tip
/// shares, each from nothing to all.
fn shares(dice: &mut Dice, width: u32, desks: usize) -> Vec<u32> {
    let mut shares = vec![0; 2 * desks];
    // The places that may hold a share: all, tip shares only (an empty pile),
    // draw shares only (a full one), or a single one.
    let (least, most) = match dice.between(0, 5) {
        0 => (desks, 2 * desks - 1),
        1 => (0, desks - 1),
        2 => {
            let place = dice.between(0, 2 * desks as u64 - 1) as usize;
            (place, place)
        }
        _ => (0, 2 * desks - 1),
    };
    let even = width / (most - least + 1) as u32;
    let mut left = width;
    let random = dice.chance(50);
    for share in &mut shares[least..=most] {
        *share = if random {
            dice.between(0, u64::from(left)) as u32
        } else {
            even
        };
        left -= *share;
    }
    let rest = dice.between(least as u64, most as u64) as usize;
    shares[rest] += left;
    shares
}

/// The next call of a history.
pub fn call(dice: &mut Dice, manner: &Manner, trial: &Trial) -> Call {
    let desks = u64::from(trial.opening().desks);
    let desk = dice.between(0, desks - 1) as u8;
    if dice.chance(manner.takes) {
        // Any desk, the taker too; late, and again and again.
        let of = dice.between(0, desks - 1) as u8;
        let now = trial.moment();
        let moment = if dice.chance(manner.fresh) {
            now
        } else {
            dice.between(0, now as u64) as usize
        };
        return Call::Take { desk, of, moment };
    }
    let mut act = sensible(dice, manner, trial, desk);
    if dice.chance(manner.wrong) {
        // Often more than one thing is wrong: the first in table order counts.
        spoil(dice, trial, &mut act);
        if dice.chance(40) {
            spoil(dice, trial, &mut act);
        }
    }
    Call::Act(act)
}

/// Mostly an act for which the desk has the rights, as far as it knows.
fn sensible(dice: &mut Dice, manner: &Manner, trial: &Trial, desk: u8) -> Act {
    let desks = trial.opening().desks;
    let piles = trial.opening().pile_numbers();
    let book = &trial.ledger().lone_of(usize::from(desk)).book;
    let mut tries = 6;
    loop {
        let kind = dice.pick(&Kind::ALL);
        let pile = if dice.chance(manner.first) {
            piles[0]
        } else {
            dice.pick(&piles)
        };
        let body = Body::of(book, pile).expect("an opened pile");
        let rights = body.rights(kind, usize::from(desk)) as u64;
        tries -= 1;
        if tries > 0 && (rights == 0 || (kind.gives() && desks == 1)) {
            continue;
        }
        let most = rights.clamp(1, 1_000);
        let amount = match dice.between(0, 9) {
            0 | 1 => most,
            2 => (rights + 1).min(1_000),
            3..=6 => dice.between(1, most.min(9)),
            _ => dice.between(1, most),
        };
        // Never the desk itself, unless it is alone.
        let step = dice.between(1, u64::from(desks).max(2) - 1) as u8;
        return Act {
            desk,
            kind,
            pile,
            receiver: (desk + step) % desks,
            amount: amount as u32,
        };
    }
}

/// Makes one argument a likely wrong one. "The desk is below n; the act's other
/// arguments are anything."
fn spoil(dice: &mut Dice, trial: &Trial, act: &mut Act) {
    let desks = trial.opening().desks;
    match dice.between(0, 3) {
        0 => {
            let any = dice.between(0, 65_535) as u16;
            act.pile = dice.pick(&[
                0,
                65_535,
                act.pile.wrapping_add(1),
                act.pile.wrapping_sub(1),
                act.pile ^ 0x100,
                any,
            ]);
        }
        1 => act.receiver = dice.pick(&[act.desk, desks, desks.wrapping_add(1), 8, 128, 255]),
        2 => {
            let any = dice.between(0, u64::from(u32::MAX)) as u32;
            act.amount = dice.pick(&[0, 0, 1_000, 1_001, 65_537, u32::MAX, any]);
        }
        _ => act.amount = dice.between(1, 1_000) as u32,
    }
}
