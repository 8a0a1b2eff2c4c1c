//! Document 01's ledger: it "knows the starting book and is otherwise fed the
//! calls' arguments alone (for a book its desk, for a copy its desk and moment,
//! never their bytes), in their order, and keeps a set of acts for each desk,
//! empty at the start".

use super::act::{Act, Call};
use super::book::Body;
use super::book::{enter, refusal};
use std::collections::BTreeSet;
use std::rc::Rc;

/// A set of acts, each named by its place in the list: "Like acts at two places
/// of the list are two acts." Its order is the order of the list.
pub type Set = BTreeSet<usize>;

/// The lone dispatcher's book for a set, and what part 2 says must not be found
/// on the way to it.
pub struct Lone {
    pub book: Vec<u8>,
    pub faults: Vec<String>,
}

pub struct Ledger {
    start: Vec<u8>,
    calls: Vec<Call>,
    /// By moment, then by desk. Sets that stay are shared, to save room.
    sets: Vec<Vec<Rc<Set>>>,
    /// For each desk's newest set.
    lones: Vec<Rc<Lone>>,
    /// For all acts made so far.
    all: Rc<Lone>,
}

impl Ledger {
    pub fn new(start: Vec<u8>) -> Ledger {
        let desks = usize::from(start[1]);
        let empty = Rc::new(Set::new());
        // No act to enter: the lone dispatcher's book is the starting book.
        let lone = Rc::new(Lone {
            book: start.clone(),
            faults: Vec::new(),
        });
        Ledger {
            start,
            calls: Vec::new(),
            sets: vec![vec![empty; desks]],
            lones: vec![Rc::clone(&lone); desks],
            all: lone,
        }
    }

    pub fn calls(&self) -> &[Call] {
        &self.calls
    }

    /// The newest moment.
    pub fn moment(&self) -> usize {
        self.calls.len()
    }

    pub fn set(&self, moment: usize, desk: usize) -> &Rc<Set> {
        &self.sets[moment][desk]
    }

    /// The lone dispatcher's book for the desk's newest set.
    pub fn lone_of(&self, desk: usize) -> &Rc<Lone> {
        &self.lones[desk]
    }

    /// All acts made so far: what the desks' newest sets hold together.
    pub fn made(&self) -> Set {
        let sets = &self.sets[self.moment()];
        sets.iter().flat_map(|set| set.iter().copied()).collect()
    }

    /// The lone dispatcher's book for all acts made so far. No desk need have
    /// it.
    pub fn lone_of_all(&self) -> &Rc<Lone> {
        &self.all
    }

    /// The acts of a desk's newest set, in the order of the list.
    pub fn acts(&self, desk: usize) -> Vec<Act> {
        let set = self.set(self.moment(), desk);
        set.iter().map(|&place| self.act(place)).collect()
    }

    fn act(&self, place: usize) -> Act {
        match self.calls[place] {
            Call::Act(act) => act,
            Call::Take { .. } => panic!("place {place} of the list is no act"),
        }
    }

    /// Feeds one call and tells the answer due to it. For an act that is the
    /// table's number at the lone dispatcher's book (part 4), for a take 0
    /// (part 5).
    pub fn feed(&mut self, call: Call) -> u8 {
        let desk = call.desk();
        let place = self.calls.len();
        let mut set = Set::clone(&self.sets[place][desk]);
        let answer = match call {
            Call::Act(act) => refusal(&self.lones[desk].book, &act),
            Call::Take { .. } => 0,
        };
        match call {
            // "If the table refuses the act there, that number is the answer
            // and the set stays. Otherwise the act joins the set."
            Call::Act(_) if answer == 0 => {
                set.insert(place);
            }
            Call::Act(_) => {}
            // "The taker's set gains the set that the copied desk had when the
            // copy was made."
            Call::Take { of, moment, .. } => set.extend(self.set(moment, usize::from(of)).iter()),
        }
        self.calls.push(call);
        let mut sets = self.sets[place].clone();
        let grown = set != *sets[desk];
        if grown {
            self.lones[desk] = Rc::new(self.lone(&set));
            sets[desk] = Rc::new(set);
        }
        self.sets.push(sets);
        // A take makes no act: what the desks hold together stays.
        if grown && matches!(call, Call::Act(_)) {
            self.all = Rc::new(self.lone(&self.made()));
        }
        answer
    }

    /// "The starting book with the set's acts entered one by one, in the order
    /// of the list." It is run from the start each time: what a desk's book was
    /// a moment ago has no say in it.
    pub fn lone(&self, set: &Set) -> Lone {
        let mut book = self.start.clone();
        let mut faults = Vec::new();
        for &place in set {
            let act = self.act(place);
            match refusal(&book, &act) {
                0 => {
                    enter(&mut book, &act);
                    // The other piles are as they were when last looked at.
                    let body = Body::of(&book, act.pile).expect("an entered act has a pile");
                    if let Some(fault) = unlawful(&body) {
                        faults.push(format!("pile {} {fault} after place {place}", act.pile));
                    }
                }
                // "An act that the table of refusals refuses there changes
                // nothing."
                number => faults.push(format!("place {place} is refused {number}")),
            }
        }
        Lone { book, faults }
    }
}

/// What part 2 forbids of a pile: a body of its own refused, or a tonnage past
/// floor or top.
pub fn unlawful(body: &Body) -> Option<String> {
    let (floor, tonnage, top) = (body.floor(), body.tonnage(), body.top());
    match body.refusal() {
        0 if floor <= tonnage && tonnage <= top => None,
        0 => Some(format!("has {tonnage}, not between {floor} and {top},")),
        number => Some(format!("is refused {number}")),
    }
}
