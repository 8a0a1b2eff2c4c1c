//! The prepared books: for n desks and p piles an older one, and newer ones in
//! which every desk has gone on acting. Every tally but a give to oneself is
//! above 0.

use crate::plain;

/// The desk that acts and takes, and the pile it acts on: with more than one
/// of either, neither the first nor, where there are three, an end.
pub struct Size {
    pub desks: u8,
    pub piles: u8,
}

impl Size {
    pub fn desk(&self) -> u8 {
        self.desks / 2
    }

    pub fn pile(&self) -> u16 {
        number(self.piles / 2)
    }
}

/// The number of the pile at a place in the contents.
fn number(k: u8) -> u16 {
    7 * (u16::from(k) + 1)
}

/// An amount from 1 to 500, the same at every run.
fn amount(seed: &mut u32) -> u32 {
    *seed = seed.wrapping_mul(1_664_525).wrapping_add(1_013_904_223);
    1 + (*seed >> 16) % 500
}

fn opened(size: &Size) -> Vec<u8> {
    let shares = 2 * u32::from(size.desks);
    let share = 600_000;
    let mut list = Vec::new();
    for k in 0..size.piles {
        let floor = 1_000 + u32::from(k);
        list.extend([u32::from(number(k)), floor, floor + shares * share]);
        list.extend((0..shares).map(|_| share));
    }
    let n = usize::from(size.desks) + 1;
    let mut book = vec![0; 4 + usize::from(size.piles) * (6 + 8 * n * n)];
    assert_eq!(plain::open(size.desks, size.piles, &list, &mut book), 0);
    book
}

/// The book after one more round: on every pile each desk, save the one that
/// rests, tips, draws and gives to each other desk.
fn round(mut book: Vec<u8>, size: &Size, rests: Option<u8>) -> Vec<u8> {
    let mut seed = 1;
    for pile in (0..size.piles).map(number) {
        for desk in (0..size.desks).filter(|&desk| rests != Some(desk)) {
            assert_eq!(plain::tip(&mut book, desk, pile, amount(&mut seed)), 0);
            assert_eq!(plain::draw(&mut book, desk, pile, amount(&mut seed)), 0);
            for to in (0..size.desks).filter(|&to| to != desk) {
                let (draw, tip) = (amount(&mut seed), amount(&mut seed));
                assert_eq!(plain::give_draw(&mut book, desk, pile, to, draw), 0);
                assert_eq!(plain::give_tip(&mut book, desk, pile, to, tip), 0);
            }
        }
    }
    book
}

pub struct Books {
    pub older: Vec<u8>,
    /// Every row later than in the older book.
    pub newer: Vec<u8>,
    /// Every row later except the taker's own, which no copy may have later.
    pub newer_elsewhere: Vec<u8>,
    /// The newer book with the desk's tip rights on the pile used up, so that
    /// fewer than 1,000 are left.
    pub short: Vec<u8>,
}

pub fn prepare(size: &Size) -> Books {
    let older = round(opened(size), size, None);
    let newer = round(older.clone(), size, None);
    let newer_elsewhere = round(older.clone(), size, Some(size.desk()));
    let mut short = newer.clone();
    while plain::tip(&mut short, size.desk(), size.pile(), 1_000) == 0 {}
    Books {
        older,
        newer,
        newer_elsewhere,
        short,
    }
}
