//! Pile records to be stored: lawful ones, strange ones, damaged ones.

use super::chance::Chance;
use super::damage;
use super::lawful;
use super::pairs;
use crate::model::book::{Book, Pile, Row};
use crate::model::record;

/// A record for the pile at this place of the book.
pub fn random(chance: &mut Chance, book: &Book, pile: usize) -> Vec<u32> {
    let mut desks = book.desks;
    let mut stored = book.piles[pile].clone();
    match chance.below(8) {
        // As fetched.
        0 => {}
        // Other rows of the same opening.
        1 | 2 => {
            let mut other = Book {
                desks,
                piles: vec![stored],
            };
            lawful::grow_somewhere(chance, &mut other);
            stored = other.piles.remove(0);
        }
        3 => lawful::swell(chance, &mut stored),
        // Another n or another opening.
        4 => {
            desks = 1 + chance.below(8);
            stored = fresh(chance, desks);
        }
        5 => {
            let opening = &mut stored.opening;
            let i = chance.below(desks);
            let step = chance.pick(&[-1, 1]);
            match chance.below(4) {
                0 | 1 => pairs::move_a_share(chance, opening),
                2 => {
                    opening.floor += step;
                    opening.top += step;
                }
                _ => {
                    opening.top += 1;
                    opening.draw_shares[i] += 1;
                }
            }
        }
        // One rule broken.
        _ => damage::against_the_rules(chance, &mut stored),
    }
    let mut numbers = record::print(desks, &stored);
    match chance.below(12) {
        0 | 1 => in_numbers(chance, desks, &mut numbers),
        2 => in_length(chance, &mut numbers),
        3 => {
            in_numbers(chance, desks, &mut numbers);
            in_length(chance, &mut numbers);
        }
        4 => {
            let fill = chance.near_a_limit();
            numbers[1..].fill(fill);
        }
        5 => numbers = chance.numbers(163),
        _ => {}
    }
    numbers
}

fn fresh(chance: &mut Chance, desks: usize) -> Pile {
    Pile {
        number: 0,
        opening: lawful::opening(chance, desks),
        rows: vec![Row::empty(desks); desks],
    }
}

fn in_numbers(chance: &mut Chance, desks: usize, numbers: &mut [u32]) {
    let past = (desks + chance.below(9 - desks)).min(7);
    let row = record::ROWS_START + record::ROW_NUMBERS * chance.below(8);
    match chance.below(6) {
        // n itself.
        0 => numbers[0] = chance.near_a_limit(),
        1 => numbers[0] = chance.below(12) as u32,
        // A share past n; where n is 8, the last desk's.
        2 => numbers[3 + 8 * chance.below(2) + past] = chance.near_a_limit(),
        // A give to a desk past n, or any number of any row.
        3 => numbers[row + 2 + 8 * chance.below(2) + past] = chance.near_a_limit(),
        4 => numbers[row + chance.below(18)] = chance.near_a_limit(),
        // Any number.
        _ => {
            for _ in 0..1 + chance.below(3) {
                numbers[chance.below(163)] = chance.near_a_limit();
            }
        }
    }
}

fn in_length(chance: &mut Chance, numbers: &mut Vec<u32>) {
    match chance.below(5) {
        0 => numbers.clear(),
        1 => numbers.truncate(162),
        2 => numbers.truncate(chance.below(163)),
        3 => numbers.push(0),
        _ => {
            let count = 1 + chance.below(40);
            numbers.extend(chance.numbers(count));
        }
    }
}
