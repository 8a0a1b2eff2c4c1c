//! Random books, lawful and damaged, with the arguments of every call.
//!
//! A pile is a record of 163 numbers, whatever n is: a book is written from
//! its records, and so is a list for opening.

pub struct Random(u64);

impl Random {
    pub fn new(seed: u64) -> Random {
        Random(seed)
    }

    fn next(&mut self) -> u64 {
        self.0 = self.0.wrapping_add(0x9e37_79b9_7f4a_7c15);
        let mut z = self.0;
        z = (z ^ z >> 30).wrapping_mul(0xbf58_476d_1ce4_e5b9);
        z = (z ^ z >> 27).wrapping_mul(0x94d0_49bb_1331_11eb);
        z ^ z >> 31
    }

    /// From 0 to below the limit.
    pub fn below(&mut self, limit: usize) -> usize {
        (self.next() % limit as u64) as usize
    }

    /// From 0 to the most, small or close to it more often than by chance.
    fn up_to(&mut self, most: u32) -> u32 {
        let any = (self.next() % (u64::from(most) + 1)) as u32;
        match self.below(4) {
            0 => any.min(self.below(4) as u32),
            1 => most - any.min(self.below(2) as u32),
            _ => any,
        }
    }

    fn once_in(&mut self, times: usize) -> bool {
        self.below(times) == 0
    }
}

const MOST_TALLY: u32 = 1_000_000_000;
const FLOOR: usize = 1;
const TOP: usize = 2;
const SHARES: usize = 3;
const TIPPED: usize = 0;
const DRAWN: usize = 1;
const GIVES: usize = 2;

type Record = [u32; 163];

#[derive(Clone, Copy)]
enum Side {
    Draw,
    Tip,
}

fn share(side: Side, desk: usize) -> usize {
    SHARES + 8 * side as usize + desk
}

fn tally(desk: usize, place: usize) -> usize {
    19 + 18 * desk + place
}

fn give(side: Side, from: usize, to: usize) -> usize {
    tally(from, GIVES + 8 * side as usize + to)
}

/// Document 01's formula.
fn rights(record: &Record, side: Side, desk: usize) -> i64 {
    let at = |place: usize| i64::from(record[place]);
    let (gain, loss) = match side {
        Side::Draw => (TIPPED, DRAWN),
        Side::Tip => (DRAWN, TIPPED),
    };
    let given: i64 = (0..8)
        .map(|other| at(give(side, other, desk)) - at(give(side, desk, other)))
        .sum();
    at(share(side, desk)) + at(tally(desk, gain)) - at(tally(desk, loss)) + given
}

fn opening(random: &mut Random, n: usize) -> Record {
    let mut record = [0; 163];
    record[0] = n as u32;
    record[TOP] = random.up_to(10_000_000);
    record[FLOOR] = random.up_to(record[TOP]);
    let mut left = record[TOP] - record[FLOOR];
    for desk in 0..n {
        for side in [Side::Draw, Side::Tip] {
            record[share(side, desk)] = random.up_to(left);
            left -= record[share(side, desk)];
        }
    }
    record[share(Side::Tip, random.below(n))] += left;
    record
}

/// Acts of a desk, as far as its rights go, and pairs of acts that leave all
/// rights as they were, with which tallies reach their limit.
fn acts(random: &mut Random, record: &mut Record, desk: usize, count: usize) {
    let n = record[0] as usize;
    for _ in 0..count {
        let side = if random.once_in(2) {
            Side::Draw
        } else {
            Side::Tip
        };
        let to = random.below(n);
        if random.once_in(3) {
            let both = match to == desk {
                true => [tally(desk, TIPPED), tally(desk, DRAWN)],
                false => [give(side, desk, to), give(side, to, desk)],
            };
            let room = MOST_TALLY - both.map(|place| record[place]).into_iter().max().unwrap();
            let most = random.up_to(room);
            let amount = random.up_to(most);
            for place in both {
                record[place] += amount;
            }
        } else {
            let place = match (to == desk, side) {
                (false, side) => give(side, desk, to),
                (true, Side::Draw) => tally(desk, DRAWN),
                (true, Side::Tip) => tally(desk, TIPPED),
            };
            let rights = rights(record, side, desk) as u32;
            record[place] += random.up_to(rights.min(MOST_TALLY - record[place]));
        }
    }
}

/// Columns of a body's row in a record's, for n desks.
fn columns(n: usize) -> impl Iterator<Item = usize> {
    (0..2 + n).chain(10..10 + n)
}

fn write_book(n: usize, piles: &[(u16, Record)]) -> Vec<u8> {
    let mut book = vec![1, n as u8, piles.len() as u8, 0];
    for (k, (number, _)) in piles.iter().enumerate() {
        let position = 4 + 6 * piles.len() + 8 * k * (n + 1) * (n + 1);
        book.extend(number.to_le_bytes());
        book.extend((position as u32).to_le_bytes());
    }
    for (_, record) in piles {
        for row in 0..=n {
            book.extend(columns(n).flat_map(|column| record[1 + 18 * row + column].to_le_bytes()));
        }
    }
    book
}

fn interesting(random: &mut Random, near: u32) -> u32 {
    const NUMBERS: [u32; 11] = [
        0,
        1,
        (1 << 27) - 1,
        1 << 27,
        10_000_000,
        10_000_001,
        MOST_TALLY,
        MOST_TALLY + 1,
        1 << 31,
        u32::MAX - 1,
        u32::MAX,
    ];
    match random.below(3) {
        0 => NUMBERS[random.below(NUMBERS.len())],
        1 => near.wrapping_add(1 + random.below(3) as u32),
        _ => near.wrapping_sub(1 + random.below(3) as u32),
    }
}

/// Damages a pile: one number at any place, or several so that only one rule
/// is broken, some by so much that 32 bits do not show it.
fn damage_record(random: &mut Random, record: &mut Record) {
    let n = (record[0] as usize).clamp(1, 8);
    let side = [Side::Draw, Side::Tip][random.below(2)];
    let desk = random.below(n);
    match random.below(10) {
        0 => record[give(side, desk, desk)] = 1 + random.up_to(5),
        1 => {
            // The shares still add up, below a top that is too high.
            let more = 10_000_001 - record[TOP].min(10_000_000);
            record[FLOOR] = record[FLOOR].wrapping_add(more);
            record[TOP] = record[TOP].wrapping_add(more);
        }
        2 => {
            // The shares add up to 2³² too much.
            for side in [Side::Draw, Side::Tip] {
                let place = share(side, random.below(n));
                record[place] = record[place].wrapping_add(1 << 31);
            }
        }
        3 if n >= 7 => {
            // Desk 0 gives 2³² by way of desks 1 to 5 to desk 6.
            for desk in 1..6 {
                let amount = 858_993_459 + u32::from(desk == 1);
                record[give(side, 0, desk)] = amount;
                record[give(side, desk, 6)] = amount;
            }
        }
        4 => {
            // A desk gives far beyond its rights, to all others.
            let amount = (1 << (27 + random.below(3))) - random.below(3) as u32;
            for other in (0..n).filter(|&other| other != desk) {
                record[give(side, desk, other)] = amount;
            }
            record[tally(desk, DRAWN - side as usize)] = amount;
        }
        5 => {
            let column = columns(n).nth(random.below(2 + 2 * n)).unwrap();
            let place = tally(desk, column);
            record[place] = interesting(random, record[place]);
        }
        6 => {
            let place = SHARES + random.below(16);
            record[place] = interesting(random, record[place]);
        }
        7 => {
            let place = random.below(SHARES);
            record[place] = interesting(random, record[place]);
        }
        _ => {
            let place = tally(0, random.below(144));
            record[place] = interesting(random, record[place]);
        }
    }
}

/// Damages the bytes: their length, the head, the contents or anywhere.
fn damage_bytes(random: &mut Random, book: &mut Vec<u8>) {
    let place = match random.below(6) {
        0 => return book.truncate(random.below(6)),
        1 => return book.truncate(book.len() - 1),
        2 => return book.push(0),
        3 => random.below(4),
        4 => 4 + random.below(6 * usize::from(book[2])),
        _ => random.below(book.len()),
    };
    book[place] = match random.below(3) {
        0 => book[place].wrapping_add(1),
        1 => book[place].wrapping_sub(1),
        _ => random.next() as u8,
    };
}

/// A book and the arguments of every call on it.
pub struct Case {
    pub book: Vec<u8>,
    pub copy: Vec<u8>,
    pub list: Vec<u32>,
    pub record: Vec<u32>,
    pub desks: u8,
    pub piles: u8,
    pub desk: u8,
    pub pile: u16,
    pub receiver: u8,
    pub amount: u32,
    pub lent_bytes: usize,
    pub lent_numbers: usize,
}

impl Case {
    pub fn new(random: &mut Random) -> Case {
        let n = 1 + random.below(8);
        // Most books are small, since each case is some forty calls.
        let p = match random.below(64) {
            0 => 1 + random.below(32),
            1 => 32,
            _ => 1 + random.below(3),
        };
        let desk = random.below(n);

        // Own book and copy go on from a common one, mostly each by acts of
        // other desks; seldom of the same, which splits rows.
        let mut own = Vec::new();
        let mut number = 0;
        for k in 0..p {
            let most = if random.once_in(2) { 2 } else { 2_000 };
            number += 1 + random.below(most) as u16;
            if k == p - 1 && random.once_in(8) {
                number = u16::MAX;
            }
            let mut record = opening(random, n);
            for desk in 0..n {
                let count = random.below(6);
                acts(random, &mut record, desk, count);
            }
            own.push((number, record));
        }
        let mut copy = own.clone();
        let acting = random.below(4);
        let split = random.once_in(3);
        for k in 0..p {
            for other in 0..n {
                let count = random.below(4);
                let by_own = match acting {
                    0 => true,
                    1 => other == desk && random.once_in(2),
                    _ => other == desk || random.once_in(2),
                };
                let both = split && random.once_in(8);
                if by_own || both {
                    lone_acts(random, &mut own[k].1, other, count);
                }
                if !by_own && (other != desk || split) || both {
                    lone_acts(random, &mut copy[k].1, other, count);
                }
            }
        }

        let which = random.below(p);
        let list = Self::list(random, n, own.clone());
        let mut record = own[which].1;
        let other = random.below(n);
        acts(random, &mut record, other, 3);
        if random.once_in(3) {
            // Two damages show which refusal comes first.
            for _ in 0..=random.below(2) {
                damage_record(random, &mut record);
            }
        } else if random.once_in(8) {
            let n = 1 + random.below(8);
            record = opening(random, n);
        }

        for book in [&mut own, &mut copy] {
            if random.once_in(4) {
                for _ in 0..=random.below(2) {
                    let k = random.below(p);
                    damage_record(random, &mut book[k].1);
                    book[k].1[0] = n as u32;
                }
            }
        }
        let amounts = [
            rights(&own[which].1, Side::Draw, desk) as u32,
            rights(&own[which].1, Side::Tip, desk) as u32,
        ];
        let mut book = write_book(n, &own);
        let mut copy = match random.below(12) {
            0 => write_book(n, &copy[..p - usize::from(p > 1)]),
            1 => {
                copy[which].0 ^= 1;
                write_book(n, &copy)
            }
            2 => {
                copy[which].1 = opening(random, n);
                write_book(n, &copy)
            }
            3 => {
                let n = 1 + random.below(8);
                write_book(n, &[(number, opening(random, n))])
            }
            _ => write_book(n, &copy),
        };
        let length = book.len();
        if random.once_in(6) {
            damage_bytes(random, &mut book);
        }
        if random.once_in(6) {
            damage_bytes(random, &mut copy);
        }

        Case {
            book,
            copy,
            list,
            record: {
                let mut record = record.to_vec();
                match random.below(20) {
                    0 => record.truncate(random.below(163)),
                    1 => record.push(0),
                    _ => {}
                }
                record
            },
            desks: if random.once_in(20) {
                random.below(11) as u8
            } else {
                n as u8
            },
            piles: if random.once_in(20) {
                random.below(35) as u8
            } else {
                p as u8
            },
            desk: if random.once_in(12) {
                random.below(256) as u8
            } else {
                desk as u8
            },
            pile: own[which].0 ^ u16::from(random.once_in(12)),
            receiver: if random.once_in(12) {
                random.below(256) as u8
            } else {
                random.below(n + 1) as u8
            },
            amount: match random.below(10) {
                0 => 0,
                1 => 1_000,
                2 => 1_001,
                3 => random.next() as u32,
                4 | 5 => amounts[random.below(2)],
                6 => amounts[random.below(2)].wrapping_add(1),
                _ => 1 + random.below(20) as u32,
            },
            lent_bytes: match random.below(8) {
                0 => length - 1,
                1 => random.below(length),
                2 => length + random.below(100),
                _ => length,
            },
            lent_numbers: match random.below(8) {
                0 => random.below(163),
                1 => 163 + random.below(10),
                _ => 163,
            },
        }
    }

    fn list(random: &mut Random, n: usize, mut piles: Vec<(u16, Record)>) -> Vec<u32> {
        if random.once_in(6) {
            let k = random.below(piles.len());
            damage_record(random, &mut piles[k].1);
        }
        let mut list = Vec::new();
        for (number, record) in &piles {
            list.push(u32::from(*number));
            list.extend(columns(n).map(|column| record[1 + column]));
        }
        match random.below(8) {
            0 => {
                let place = random.below(list.len());
                list[place] = interesting(random, list[place]);
            }
            1 => {
                let place = random.below(piles.len()) * (3 + 2 * n);
                list[place] = match random.below(3) {
                    0 => 0,
                    1 => list[place].wrapping_sub(random.below(3) as u32),
                    _ => list[place] + 65_536,
                };
            }
            2 if random.once_in(2) => list.push(0),
            3 if random.once_in(2) => list.truncate(random.below(list.len())),
            _ => {}
        }
        list
    }
}

/// Acts that change the desk's own row alone, so that rows stay comparable
/// where only one of two books has them.
fn lone_acts(random: &mut Random, record: &mut Record, desk: usize, count: usize) {
    let before = *record;
    acts(random, record, desk, count);
    for other in (0..8).filter(|&other| other != desk) {
        let row = tally(other, 0)..tally(other + 1, 0);
        record[row.clone()].copy_from_slice(&before[row]);
    }
    // A pair of acts by two desks is now one: where that takes too much, all
    // of it goes.
    if [Side::Draw, Side::Tip]
        .iter()
        .any(|&side| rights(record, side, desk) < 0)
    {
        *record = before;
    }
}
