//! One history, run on the compiled library and in the ledger side by side. At
//! each moment the five parts of demand 3 are checked, what a desk can be sure
//! of, and what a take reports:
//!
//! 1. each desk's book is byte for byte the lone dispatcher's for its set;
//! 2. along that lone run no act is refused, and after each act every pile is
//!    lawful and between floor and top;
//! 3. two books of the history are equal exactly when their sets are;
//! 4. an act's answer is its answer at the lone dispatcher's book;
//! 5. a take is answered 0;
//! 6. on each pile, the tonnage by all acts made so far lies between the least
//!    and the most of each desk, by its own newest book;
//! 7. a take reports the pairs of a pile and a desk whose row changed, and 0
//!    exactly when the book's bytes are unaltered.

use super::act::{Act, Call, Kind};
use super::book::{Body, Opening, changed_rows};
use super::ledger::unlawful;
use super::ledger::{Ledger, Set};
use super::summary::Summary;
use super::sure::Sure;
use pitbook::raw;
use std::collections::HashMap;
use std::rc::Rc;

pub struct Trial {
    /// How to find the history again; printed when it fails.
    name: String,
    opening: Opening,
    ledger: Ledger,
    /// The desks' own books, which the library writes.
    books: Vec<Vec<u8>>,
    /// By moment, then by desk: "A copy has the bytes of its moment, in a place
    /// of its own that no call writes." One that no call takes is a lost one.
    copies: Vec<Vec<Rc<[u8]>>>,
    answers: Vec<u8>,
    /// Part 3 over all pairs of states at once: equal sets have equal books if
    /// the first is a function, equal books have equal sets if the second is.
    book_of: HashMap<Rc<Set>, Rc<[u8]>>,
    set_of: HashMap<Rc<[u8]>, Rc<Set>>,
    sure: Sure,
    summary: Summary,
}

impl Trial {
    /// "A history starts with equal opened books, one for each desk."
    pub fn open(name: &str, opening: Opening) -> Trial {
        let start = opening.book();
        let desks = usize::from(opening.desks);
        let mut books = Vec::new();
        for desk in 0..desks {
            let mut book = vec![0xa5; start.len()];
            let answer = raw::open(opening.desks, opening.piles, &opening.list, &mut book);
            assert_eq!(answer, 0, "{name}: opening of desk {desk}: {opening:?}");
            assert!(
                book == start,
                "{name}: opened book of desk {desk}: {opening:?}"
            );
            books.push(book);
        }
        for pile in opening.pile_numbers() {
            let body = Body::of(&start, pile).expect("an opened pile");
            assert_eq!(unlawful(&body), None, "{name}: pile {pile}: {opening:?}");
        }
        let mut trial = Trial {
            name: name.to_string(),
            sure: Sure::new(opening.pile_numbers(), desks, &start),
            ledger: Ledger::new(start),
            copies: vec![books.iter().map(|book| Rc::from(&book[..])).collect()],
            books,
            answers: Vec::new(),
            book_of: HashMap::new(),
            set_of: HashMap::new(),
            summary: Summary::default(),
            opening,
        };
        let mut broken = Vec::new();
        for desk in 0..desks {
            broken.extend(trial.look(desk));
        }
        broken.extend(trial.sure.judge(&mut trial.summary));
        assert!(broken.is_empty(), "{name}: broken\n{}", broken.join("\n"));
        trial
    }

    pub fn opening(&self) -> &Opening {
        &self.opening
    }

    pub fn ledger(&self) -> &Ledger {
        &self.ledger
    }

    pub fn moment(&self) -> usize {
        self.ledger.moment()
    }

    pub fn book(&self, desk: u8) -> &[u8] {
        &self.books[usize::from(desk)]
    }

    /// One call, at the library and in the ledger. Panics if a part breaks, else
    /// tells the answer.
    pub fn step(&mut self, call: Call) -> u8 {
        let desk = call.desk();
        let due = self.ledger.feed(call);
        let mut broken = Vec::new();
        let (part, answer) = match call {
            Call::Act(act) => (4, enter(&mut self.books[desk], &act)),
            Call::Take { of, moment, .. } => {
                let copy = &self.copies[moment][usize::from(of)];
                let (book, mut changed) = (&mut self.books[desk], u32::MAX);
                let before = book.clone();
                let answer = raw::take(book, copy, desk as u8, &mut changed);
                let due = changed_rows(&before, book);
                if changed != due || (changed == 0) != (before == *book) {
                    broken.push(format!("part 7: report {changed}, due {due}"));
                }
                (5, answer)
            }
        };
        self.answers.push(answer);
        let mut copies = self.copies[self.moment() - 1].clone();
        copies[desk] = Rc::from(&self.books[desk][..]);
        self.copies.push(copies);

        if answer != due {
            broken.push(format!("part {part}: answer {answer}, due {due}"));
        }
        broken.extend(self.look(desk));
        for other in (0..self.books.len()).filter(|&other| other != desk) {
            if self.books[other] != self.ledger.lone_of(other).book {
                broken.push(format!(
                    "part 1: book of desk {other}, which was not called"
                ));
            }
        }
        let all = self.ledger.lone_of_all();
        broken.extend(all.faults.iter().map(|fault| format!("part 6: {fault}")));
        self.sure.count_all(&all.book);
        broken.extend(self.sure.judge(&mut self.summary));
        assert!(
            broken.is_empty(),
            "{}: broken\n{}",
            self.name,
            broken.join("\n")
        );
        self.count(call, answer);
        answer
    }

    /// Parts 1, 2 and 3 for the newest book of one desk, and its lines for part
    /// 6.
    fn look(&mut self, desk: usize) -> Vec<String> {
        let moment = self.moment();
        let mut broken = Vec::new();
        let lone = Rc::clone(self.ledger.lone_of(desk));
        let book = &self.books[desk];
        if *book != lone.book {
            let at = book.iter().zip(&lone.book).position(|(a, b)| a != b);
            broken.push(format!(
                "part 1: book of desk {desk} differs first at byte {at:?}"
            ));
        }

        // Part 2 speaks of the lone run. The library is asked, too, whether it
        // finds the book lawful and what tonnage it sees, of one pile in turn.
        broken.extend(lone.faults.iter().map(|fault| format!("part 2: {fault}")));
        let checked = raw::check(book);
        if checked != 0 {
            broken.push(format!(
                "part 2: check of desk {desk}'s book answers {checked}"
            ));
        }
        let piles = self.opening.pile_numbers();
        let pile = piles[moment % piles.len()];
        let due = Body::of(&lone.book, pile)
            .expect("an opened pile")
            .tonnage();
        let mut tonnes = u32::MAX;
        let answer = raw::tonnage(book, pile, &mut tonnes);
        if (answer, i64::from(tonnes)) != (0, due) {
            broken.push(format!(
                "part 2: tonnage of pile {pile}: {answer}, {tonnes}, due {due}"
            ));
        }
        // The answers hang on the bytes alone: like bytes are asked once.
        let copies = &self.copies;
        if moment == 0 || copies[moment][desk] != copies[moment - 1][desk] {
            broken.extend(self.sure.ask(desk, book, &lone.book));
        }

        let bytes = Rc::clone(&self.copies[moment][desk]);
        let set = Rc::clone(self.ledger.set(moment, desk));
        let known = self.book_of.entry(Rc::clone(&set));
        if **known.or_insert_with(|| Rc::clone(&bytes)) != *bytes {
            broken.push("part 3: two books hold one set and differ".to_string());
        }
        let known = self.set_of.entry(bytes);
        if **known.or_insert_with(|| Rc::clone(&set)) != *set {
            broken.push("part 3: two sets differ and have one book".to_string());
        }
        broken
    }

    fn count(&mut self, call: Call, answer: u8) {
        let (desk, moment) = (call.desk(), self.moment());
        let changed = self.copies[moment][desk] != self.copies[moment - 1][desk];
        self.summary.calls += 1;
        match call {
            Call::Act(_) if answer == 0 => self.summary.accepted += 1,
            Call::Act(_) => *self.summary.refused.entry(answer).or_default() += 1,
            Call::Take { .. } => {
                self.summary.takes += 1;
                self.summary.changing += u64::from(changed);
            }
        }
    }

    pub fn act(&mut self, desk: u8, kind: Kind, pile: u16, receiver: u8, amount: u32) -> u8 {
        self.step(Call::Act(Act {
            desk,
            kind,
            pile,
            receiver,
            amount,
        }))
    }

    /// A take of a copy of any earlier moment or of this one.
    pub fn take_of(&mut self, desk: u8, of: u8, moment: usize) -> u8 {
        self.step(Call::Take { desk, of, moment })
    }

    /// A take of a copy made now.
    pub fn take(&mut self, desk: u8, of: u8) -> u8 {
        self.take_of(desk, of, self.moment())
    }

    /// Everyone takes everyone's last copy; then all hold all acts.
    pub fn converge(&mut self) {
        let last = self.moment();
        let desks = self.opening.desks;
        for desk in 0..desks {
            for of in 0..desks {
                self.take_of(desk, of, last);
            }
        }
        for desk in 1..desks {
            assert!(
                self.book(desk) == self.book(0),
                "{}: desk {desk}",
                self.name
            );
        }
    }

    pub fn summary(mut self) -> Summary {
        let mut summary = std::mem::take(&mut self.summary);
        summary.histories = 1;
        summary.states = (self.copies.len() * self.books.len()) as u64;
        summary.distinct = self.book_of.len() as u64;
        summary
    }
}

/// The act at the library.
pub fn enter(book: &mut [u8], act: &Act) -> u8 {
    match act.kind {
        Kind::Tip => raw::tip(book, act.desk, act.pile, act.amount),
        Kind::Draw => raw::draw(book, act.desk, act.pile, act.amount),
        Kind::GiveDraw => raw::give_draw(book, act.desk, act.pile, act.receiver, act.amount),
        Kind::GiveTip => raw::give_tip(book, act.desk, act.pile, act.receiver, act.amount),
    }
}

/// A failure prints the whole history, whether a part of demand 3 broke or the
/// library itself stopped.
impl Drop for Trial {
    fn drop(&mut self) {
        if !std::thread::panicking() {
            return;
        }
        let Opening { desks, piles, list } = &self.opening;
        eprintln!("{}: desks {desks}, piles {piles}, opening list", self.name);
        for pile in list.chunks(3 + 2 * usize::from(*desks)) {
            eprintln!("  {pile:?}");
        }
        for (place, call) in self.ledger.calls().iter().enumerate() {
            match self.answers.get(place) {
                Some(answer) => eprintln!("  {place}. {call} -> {answer}"),
                None => eprintln!("  {place}. {call} -> no answer"),
            }
        }
    }
}
