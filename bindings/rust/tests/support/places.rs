//! The entry points ("places"), what is lent to them, and the call itself.

use crate::model::tickets::Ticket;

#[derive(Clone, Copy, Debug, PartialEq, Eq)]
pub enum Place {
    Open,
    Check,
    Contents,
    Body,
    Tip,
    Draw,
    GiveDraw,
    GiveTip,
    Take,
    DrawRights,
    TipRights,
    Tonnage,
    Least,
    Most,
    Fetch,
    Store,
    Compare,
    ReadTicket,
    WriteTicket,
    Reconcile,
}

pub const PLACES: [Place; 20] = [
    Place::Open,
    Place::Check,
    Place::Contents,
    Place::Body,
    Place::Tip,
    Place::Draw,
    Place::GiveDraw,
    Place::GiveTip,
    Place::Take,
    Place::DrawRights,
    Place::TipRights,
    Place::Tonnage,
    Place::Least,
    Place::Most,
    Place::Fetch,
    Place::Store,
    Place::Compare,
    Place::ReadTicket,
    Place::WriteTicket,
    Place::Reconcile,
];

impl Place {
    pub fn name(self) -> &'static str {
        match self {
            Place::Open => "open",
            Place::Check => "check",
            Place::Contents => "contents",
            Place::Body => "body",
            Place::Tip => "tip",
            Place::Draw => "draw",
            Place::GiveDraw => "give_draw",
            Place::GiveTip => "give_tip",
            Place::Take => "take",
            Place::DrawRights => "draw_rights",
            Place::TipRights => "tip_rights",
            Place::Tonnage => "tonnage",
            Place::Least => "least",
            Place::Most => "most",
            Place::Fetch => "fetch",
            Place::Store => "store",
            Place::Compare => "compare",
            Place::ReadTicket => "read_ticket",
            Place::WriteTicket => "write_ticket",
            Place::Reconcile => "reconcile",
        }
    }
}

/// Everything lent to one call. What a place does not use is empty.
#[derive(Clone, Debug, Default, PartialEq, Eq)]
pub struct Lent {
    /// The book (the taker's own, the one opened into), my row, the bytes of a
    /// ticket, or the bridge's list.
    pub book: Vec<u8>,
    /// The copy, the copy's row, a ticket's kind and desk, or the desk's list.
    pub copy: Vec<u8>,
    /// The opening's list, the contents' numbers, the record, the one number
    /// of an answer, a ticket's number, pile and tonnes, or the four counts.
    pub numbers: Vec<u32>,
    /// The contents' positions.
    pub positions: Vec<u32>,
    /// The body's start and length.
    pub sizes: Vec<usize>,
}

impl Lent {
    /// The first difference, in words.
    pub fn difference(&self, other: &Lent) -> Option<String> {
        first("byte", "book", &self.book, &other.book)
            .or_else(|| first("byte", "copy", &self.copy, &other.copy))
            .or_else(|| first("number", "list", &self.numbers, &other.numbers))
            .or_else(|| first("number", "positions", &self.positions, &other.positions))
            .or_else(|| first("number", "body's part", &self.sizes, &other.sizes))
    }
}

fn first<T: PartialEq + std::fmt::Debug>(
    what: &str,
    of: &str,
    one: &[T],
    two: &[T],
) -> Option<String> {
    assert_eq!(one.len(), two.len());
    let at = (0..one.len()).find(|&at| one[at] != two[at])?;
    let (one, two) = (&one[at], &two[at]);
    Some(format!("{what} {at} of the {of}, {one:?} and {two:?}"))
}

/// One call: the place, its plain arguments and what is lent to it.
#[derive(Clone, Debug)]
pub struct Case {
    pub place: Place,
    pub desks: u8,
    pub piles: u8,
    pub desk: u8,
    pub pile: u16,
    pub receiver: u8,
    pub amount: u32,
    /// The ticket to be written.
    pub ticket: Ticket,
    pub lent: Lent,
}

impl Case {
    pub fn at(place: Place) -> Case {
        Case {
            place,
            desks: 0,
            piles: 0,
            desk: 0,
            pile: 0,
            receiver: 0,
            amount: 0,
            ticket: Ticket::default(),
            lent: Lent::default(),
        }
    }

    /// The plain arguments in words; a place may not use them all.
    pub fn arguments(&self) -> String {
        match self.place {
            Place::Open => format!("desks {}, piles {}", self.desks, self.piles),
            Place::ReadTicket => format!("{:02x?}", self.lent.book),
            Place::WriteTicket => {
                format!("{:?}, {} bytes", self.ticket, self.lent.book.len())
            }
            Place::Reconcile => {
                format!("{:02x?} and {:02x?}", self.lent.book, self.lent.copy)
            }
            _ => format!(
                "desk {}, pile {}, receiver {}, amount {}, {} book bytes",
                self.desk,
                self.pile,
                self.receiver,
                self.amount,
                self.lent.book.len()
            ),
        }
    }
}

/// The lent places of one call, wherever they lie.
pub struct Slices<'a> {
    pub book: &'a mut [u8],
    pub copy: &'a mut [u8],
    pub numbers: &'a mut [u32],
    pub positions: &'a mut [u32],
    pub sizes: &'a mut [usize],
}

type Act = fn(&mut [u8], u8, u16, u32) -> u8;
type Give = fn(&mut [u8], u8, u16, u8, u32) -> u8;
/// Two lists, and the four counts.
type Reconcile = fn(&[u8], &[u8], &mut u32, &mut u32, &mut u32, &mut u32) -> u8;
/// Asked for a desk: its rights, and what it can be sure of.
type OfDesk = fn(&[u8], u8, u16, &mut u32) -> u8;

/// The entry points of the library or of the model.
pub struct Functions {
    pub open: fn(u8, u8, &[u32], &mut [u8]) -> u8,
    pub check: fn(&[u8]) -> u8,
    pub contents: fn(&[u8], &mut [u32], &mut [u32]) -> u8,
    pub body: fn(&[u8], u16, &mut usize, &mut usize) -> u8,
    pub tip: Act,
    pub draw: Act,
    pub give_draw: Give,
    pub give_tip: Give,
    pub take: fn(&mut [u8], &[u8], u8, &mut u32) -> u8,
    pub draw_rights: OfDesk,
    pub tip_rights: OfDesk,
    pub tonnage: fn(&[u8], u16, &mut u32) -> u8,
    pub least: OfDesk,
    pub most: OfDesk,
    pub fetch: fn(&[u8], u16, &mut [u32]) -> u8,
    pub store: fn(&mut [u8], u16, &[u32]) -> u8,
    pub compare: fn(&[u8], &[u8], &mut u32) -> u8,
    pub read_ticket: fn(&[u8], &mut u32, &mut u32, &mut u32, &mut u8, &mut u8) -> u8,
    pub write_ticket: fn(u32, u32, u32, u8, u8, &mut [u8]) -> u8,
    pub reconcile: Reconcile,
}

macro_rules! functions_of {
    ($($module:ident)::+) => {
        Functions {
            open: $($module)::+::open,
            check: $($module)::+::check,
            contents: $($module)::+::contents,
            body: $($module)::+::body,
            tip: $($module)::+::tip,
            draw: $($module)::+::draw,
            give_draw: $($module)::+::give_draw,
            give_tip: $($module)::+::give_tip,
            take: $($module)::+::take,
            draw_rights: $($module)::+::draw_rights,
            tip_rights: $($module)::+::tip_rights,
            tonnage: $($module)::+::tonnage,
            least: $($module)::+::least,
            most: $($module)::+::most,
            fetch: $($module)::+::fetch,
            store: $($module)::+::store,
            compare: $($module)::+::compare,
            read_ticket: $($module)::+::read_ticket,
            write_ticket: $($module)::+::write_ticket,
            reconcile: $($module)::+::reconcile,
        }
    };
}

pub const MODEL: Functions = functions_of!(crate::model);
pub const LIBRARY: Functions = functions_of!(pitbook::raw);

impl Functions {
    /// Runs the case on these lent places.
    pub fn call(&self, case: &Case, lent: Slices) -> u8 {
        let Slices {
            book,
            copy,
            numbers,
            positions,
            sizes,
        } = lent;
        let (desk, pile) = (case.desk, case.pile);
        let (receiver, amount) = (case.receiver, case.amount);
        match case.place {
            Place::Open => (self.open)(case.desks, case.piles, numbers, book),
            Place::Check => (self.check)(book),
            Place::Contents => (self.contents)(book, numbers, positions),
            Place::Body => {
                let (start, length) = sizes.split_at_mut(1);
                (self.body)(book, pile, &mut start[0], &mut length[0])
            }
            Place::Tip => (self.tip)(book, desk, pile, amount),
            Place::Draw => (self.draw)(book, desk, pile, amount),
            Place::GiveDraw => (self.give_draw)(book, desk, pile, receiver, amount),
            Place::GiveTip => (self.give_tip)(book, desk, pile, receiver, amount),
            Place::Take => (self.take)(book, copy, desk, &mut numbers[0]),
            Place::DrawRights => (self.draw_rights)(book, desk, pile, &mut numbers[0]),
            Place::TipRights => (self.tip_rights)(book, desk, pile, &mut numbers[0]),
            Place::Tonnage => (self.tonnage)(book, pile, &mut numbers[0]),
            Place::Least => (self.least)(book, desk, pile, &mut numbers[0]),
            Place::Most => (self.most)(book, desk, pile, &mut numbers[0]),
            Place::Fetch => (self.fetch)(book, pile, numbers),
            Place::Store => (self.store)(book, pile, numbers),
            Place::Compare => (self.compare)(book, copy, &mut numbers[0]),
            Place::ReadTicket => {
                let [number, pile, tonnes] = numbers else {
                    panic!("a ticket has three numbers");
                };
                let [kind, desk] = copy else {
                    panic!("a ticket has a kind and a desk");
                };
                (self.read_ticket)(book, number, pile, tonnes, kind, desk)
            }
            Place::WriteTicket => {
                let t = case.ticket;
                (self.write_ticket)(t.number, t.pile, t.tonnes, t.kind, t.desk, book)
            }
            Place::Reconcile => {
                let [alike, differing, only_bridge, only_desk] = numbers else {
                    panic!("there are four counts");
                };
                (self.reconcile)(book, copy, alike, differing, only_bridge, only_desk)
            }
        }
    }

    /// Runs the case on a copy of what it lends.
    pub fn outcome(&self, case: &Case) -> super::Outcome {
        let mut lent = case.lent.clone();
        let slices = Slices {
            book: &mut lent.book,
            copy: &mut lent.copy,
            numbers: &mut lent.numbers,
            positions: &mut lent.positions,
            sizes: &mut lent.sizes,
        };
        let answer = self.call(case, slices);
        super::Outcome { answer, lent }
    }
}
