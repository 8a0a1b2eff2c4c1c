//! "Each whole number between them is reached by some history ending with that
//! same book" (1/12). Here is that history, run on the library: every desk is
//! brought to the one desk's own set; then the others draw or tip, and it
//! hears nothing of that.

use super::act::{Act, Kind};
use super::book::{Body, Opening, enter, refusal};
use super::trial;
use super::trial::Trial;
use pitbook::raw;
use std::fmt;

/// The desks' books, and the lone dispatcher's book for all acts made so far.
/// All acts stand in the order in which they are made, so that one goes along.
struct Run {
    books: Vec<Vec<u8>>,
    all: Vec<u8>,
}

impl Run {
    fn open(opening: &Opening) -> Run {
        let all = opening.book();
        let mut book = vec![0xa5; all.len()];
        let answer = raw::open(opening.desks, opening.piles, &opening.list, &mut book);
        assert_eq!(answer, 0, "{opening:?}");
        Run {
            books: vec![book; usize::from(opening.desks)],
            all,
        }
    }

    /// The act at its desk, and in the ledger.
    fn act(&mut self, act: &Act) -> u8 {
        let answer = trial::enter(&mut self.books[usize::from(act.desk)], act);
        if answer == 0 {
            assert_eq!(refusal(&self.all, act), 0, "{act:?} in the lone run");
            enter(&mut self.all, act);
        }
        answer
    }

    /// A take from a desk's newest book.
    fn take(&mut self, desk: usize, of: usize) -> u8 {
        let copy = self.books[of].clone();
        raw::take(&mut self.books[desk], &copy, desk as u8, &mut 0)
    }

    fn tonnage(&self, pile: u16) -> i64 {
        body(&self.all, pile).tonnage()
    }
}

fn body(book: &[u8], pile: u16) -> Body<'_> {
    Body::of(book, pile).expect("an opened pile")
}

/// What was built, counted.
#[derive(Default)]
pub struct Reached {
    pub histories: u64,
    pub numbers: u64,
    pub below: u64,
    pub above: u64,
    replayed: u64,
    takes: u64,
    others: u64,
    farthest: u64,
}

impl Reached {
    /// Builds the history for the newest book of a desk and x tonnes of a pile.
    /// Panics if a call is refused, if that book is another one at the end, or
    /// if all acts made do not make x.
    pub fn reach(&mut self, trial: &Trial, desk: u8, pile: u16, x: i64) {
        let at = format!("desk {desk}, pile {pile}, {x} tonnes");
        let own = usize::from(desk);
        let mut run = Run::open(trial.opening());
        let others: Vec<_> = (0..run.books.len()).filter(|&other| other != own).collect();
        for act in trial.ledger().acts(own) {
            assert_eq!(run.act(&act), 0, "{at}: {act:?}");
            let actor = usize::from(act.desk);
            for other in (0..run.books.len()).filter(|&other| other != actor) {
                assert_eq!(run.take(other, actor), 0, "{at}: take after {act:?}");
                self.takes += 1;
            }
            self.replayed += 1;
        }
        for book in &run.books {
            assert!(book == trial.book(desk), "{at}: not every desk is brought");
        }

        let known = run.tonnage(pile);
        let kind = if x < known { Kind::Draw } else { Kind::Tip };
        let mut left = x.abs_diff(known);
        self.farthest = self.farthest.max(left);
        for other in others {
            loop {
                let rights = body(&run.books[other], pile).rights(kind, other) as u64;
                let amount = rights.min(left).min(1_000) as u32;
                if amount == 0 {
                    break;
                }
                let act = Act {
                    desk: other as u8,
                    kind,
                    pile,
                    receiver: 0,
                    amount,
                };
                assert_eq!(run.act(&act), 0, "{at}: {act:?}");
                left -= u64::from(amount);
                self.others += 1;
            }
        }
        assert_eq!(run.tonnage(pile), x, "{at}: by all acts made");
        assert!(run.books[own] == trial.book(desk), "{at}: another book");
        self.numbers += 1;
        self.below += u64::from(x < known);
        self.above += u64::from(x > known);
    }
}

impl fmt::Display for Reached {
    fn fmt(&self, f: &mut fmt::Formatter) -> fmt::Result {
        writeln!(
            f,
            "histories {}, numbers reached {}, below known {}, above {}, farthest {}",
            self.histories, self.numbers, self.below, self.above, self.farthest
        )?;
        write!(
            f,
            "acts replayed {}, copies taken {}, acts by the others {}",
            self.replayed, self.takes, self.others
        )
    }
}

/// "where none of its tallies is over 990,000,000": that much and no more.
/// Desk 1 has tipped and drawn so often that its tallies stand there, and it
/// has all draw rights of the widest pile. Its drawing that pile empty takes
/// it just to a tally's limit.
#[test]
fn a_tally_at_990_000_000_leaves_room() {
    for (more, due) in [(0, 0), (1, 1)] {
        let mut run = worn(more);
        assert_eq!(run.take(0, 1), 0);
        let own = run.books[0].clone();
        let (mut least, mut most) = (u32::MAX, u32::MAX);
        assert_eq!(raw::least(&own, 0, 1, &mut least), 0);
        assert_eq!(raw::most(&own, 0, 1, &mut most), 0);
        assert_eq!((least, most), (0, 10_000_000));
        assert_eq!(run.tonnage(1), 10_000_000);

        for _ in 0..9_999 {
            assert_eq!(run.act(&at_desk_1(Kind::Draw, 1_000)), 0);
        }
        assert_eq!(run.act(&at_desk_1(Kind::Draw, 999)), 0);
        // The last tonne: done, or over the limit of a tally.
        let answer = run.act(&at_desk_1(Kind::Draw, 1));
        assert_eq!(answer, if more == 0 { 0 } else { 15 });
        assert_eq!(run.tonnage(1), due);
        assert!(run.books[0] == own);
    }
}

/// Two desks and a full pile, desk 1's tallies at 990,000,000 and some more.
fn worn(more: u32) -> Run {
    let mut run = Run::open(&Opening {
        desks: 2,
        piles: 1,
        list: vec![1, 0, 10_000_000, 0, 10_000_000, 0, 0],
    });
    let amounts = std::iter::repeat_n(1_000, 990_000).chain((more > 0).then_some(more));
    for amount in amounts {
        assert_eq!(run.act(&at_desk_1(Kind::Draw, amount)), 0);
        assert_eq!(run.act(&at_desk_1(Kind::Tip, amount)), 0);
    }
    run
}

fn at_desk_1(kind: Kind, amount: u32) -> Act {
    Act {
        desk: 1,
        kind,
        pile: 1,
        receiver: 0,
        amount,
    }
}
