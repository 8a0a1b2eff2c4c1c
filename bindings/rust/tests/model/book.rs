//! Document 01, "Rights": a book as plain structures.

pub const TOP_LIMIT: i64 = 10_000_000;
pub const TALLY_LIMIT: i64 = 1_000_000_000;

#[derive(Clone, Debug, PartialEq, Eq)]
pub struct Book {
    pub desks: usize,
    pub piles: Vec<Pile>,
}

#[derive(Clone, Debug, PartialEq, Eq)]
pub struct Pile {
    pub number: i64,
    pub opening: Opening,
    /// One row for each desk.
    pub rows: Vec<Row>,
}

#[derive(Clone, Debug, PartialEq, Eq)]
pub struct Opening {
    pub floor: i64,
    pub top: i64,
    pub draw_shares: Vec<i64>,
    pub tip_shares: Vec<i64>,
}

#[derive(Clone, Debug, PartialEq, Eq)]
pub struct Row {
    pub tipped: i64,
    pub drawn: i64,
    /// One give for each receiving desk.
    pub draw_gives: Vec<i64>,
    pub tip_gives: Vec<i64>,
}

/// "pile number (2 bytes, 1 to 65,535, strictly rising)"
pub fn numbers_are_lawful(numbers: &[i64]) -> bool {
    let in_range = numbers.iter().all(|number| (1..=65_535).contains(number));
    let rising = numbers.windows(2).all(|pair| pair[0] < pair[1]);
    in_range && rising
}

impl Book {
    /// The place of the pile in file order, if the book has it.
    pub fn find(&self, number: u16) -> Option<usize> {
        self.piles
            .iter()
            .position(|pile| pile.number == i64::from(number))
    }
}

impl Opening {
    /// "floor <= top <= 10,000,000 ... All shares of both kinds add up to
    /// top - floor. Floor = top is allowed."
    pub fn is_lawful(&self) -> bool {
        let shares: i64 = self.draw_shares.iter().chain(&self.tip_shares).sum();
        self.floor <= self.top && self.top <= TOP_LIMIT && shares == self.top - self.floor
    }
}

/// What comparing two rows tells, by the number that the library hands out.
#[derive(Clone, Copy, Debug, PartialEq, Eq)]
pub enum Order {
    Alike = 1,
    MineLater = 2,
    CopyLater = 3,
    Split = 4,
}

impl Row {
    pub fn empty(desks: usize) -> Row {
        Row {
            tipped: 0,
            drawn: 0,
            draw_gives: vec![0; desks],
            tip_gives: vec![0; desks],
        }
    }

    /// "each tipped, drawn, draw gives, tip gives"
    pub fn from_numbers(desks: usize, numbers: &[i64]) -> Row {
        Row {
            tipped: numbers[0],
            drawn: numbers[1],
            draw_gives: numbers[2..2 + desks].to_vec(),
            tip_gives: numbers[2 + desks..2 + 2 * desks].to_vec(),
        }
    }

    pub fn to_numbers(&self) -> Vec<i64> {
        let mut numbers = vec![self.tipped, self.drawn];
        numbers.extend(&self.draw_gives);
        numbers.extend(&self.tip_gives);
        numbers
    }

    /// "later than another if it is at least the other at every place and
    /// differs from it"
    fn is_later_than(&self, other: &Row) -> bool {
        let ours = self.to_numbers();
        let theirs = other.to_numbers();
        let at_least = ours.iter().zip(&theirs).all(|(our, their)| our >= their);
        at_least && ours != theirs
    }

    /// 5/12: "alike, mine later, the copy's later, split"
    pub fn order(&self, copy: &Row) -> Order {
        if self == copy {
            Order::Alike
        } else if self.is_later_than(copy) {
            Order::MineLater
        } else if copy.is_later_than(self) {
            Order::CopyLater
        } else {
            // "Rows that differ with neither later are split"
            Order::Split
        }
    }
}

impl Pile {
    pub fn desks(&self) -> usize {
        self.rows.len()
    }

    /// "Draw rights of i = draw share + tipped + draw gives received - draw
    /// gives made - drawn."
    pub fn draw_rights(&self, i: usize) -> i64 {
        let row = &self.rows[i];
        let received: i64 = self.rows.iter().map(|other| other.draw_gives[i]).sum();
        let made: i64 = row.draw_gives.iter().sum();
        self.opening.draw_shares[i] + row.tipped + received - made - row.drawn
    }

    /// "Tip rights of i = tip share + drawn + tip gives received - tip gives
    /// made - tipped."
    pub fn tip_rights(&self, i: usize) -> i64 {
        let row = &self.rows[i];
        let received: i64 = self.rows.iter().map(|other| other.tip_gives[i]).sum();
        let made: i64 = row.tip_gives.iter().sum();
        self.opening.tip_shares[i] + row.drawn + received - made - row.tipped
    }

    /// "Its tonnage now = floor + all draw shares + all tipped - all drawn." It
    /// is known, since 1/12: "The figure is only what this book holds."
    pub fn tonnage(&self) -> i64 {
        let shares: i64 = self.opening.draw_shares.iter().sum();
        let tipped: i64 = self.rows.iter().map(|row| row.tipped).sum();
        let drawn: i64 = self.rows.iter().map(|row| row.drawn).sum();
        self.opening.floor + shares + tipped - drawn
    }

    /// 1/12: "`least` (floor + its draw rights)"
    pub fn least(&self, i: usize) -> i64 {
        self.opening.floor + self.draw_rights(i)
    }

    /// 1/12: "`most` (top - its tip rights)"
    pub fn most(&self, i: usize) -> i64 {
        self.opening.top - self.tip_rights(i)
    }

    /// Table, place "Each body, in file order"; 0 where the pile is lawful.
    pub fn refusal(&self) -> u8 {
        // "5: opening unlawful."
        if !self.opening.is_lawful() {
            return 5;
        }
        for (i, row) in self.rows.iter().enumerate() {
            // "6: tally over its limit,"
            if row.to_numbers().iter().any(|&tally| tally > TALLY_LIMIT) {
                return 6;
            }
            // "or a give to oneself."
            if row.draw_gives[i] != 0 || row.tip_gives[i] != 0 {
                return 6;
            }
        }
        // "7: negative rights"
        for i in 0..self.desks() {
            if self.draw_rights(i) < 0 || self.tip_rights(i) < 0 {
                return 7;
            }
        }
        0
    }
}
