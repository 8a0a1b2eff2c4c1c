//! What a desk can be sure of (1/12): "For a desk's own newest book in a
//! history, the tonnage by all acts made so far lies between the two on that
//! desk's own line."

use super::book::Body;
use super::summary::Summary;
use pitbook::raw;

/// What a desk's own newest book says of a pile, on that desk's own line.
#[derive(Clone, Copy, Debug, Default)]
struct Line {
    known: i64,
    least: i64,
    most: i64,
}

pub struct Sure {
    piles: Vec<u16>,
    /// By desk, then by pile.
    lines: Vec<Vec<Line>>,
    /// By pile: the tonnage by all acts made so far.
    all: Vec<i64>,
}

impl Sure {
    /// `start` is the book that all desks start with, before any act.
    pub fn new(piles: Vec<u16>, desks: usize, start: &[u8]) -> Sure {
        let lines = vec![vec![Line::default(); piles.len()]; desks];
        let mut sure = Sure {
            piles,
            lines,
            all: Vec::new(),
        };
        sure.count_all(start);
        sure
    }

    /// From the lone dispatcher's book for all acts made so far.
    pub fn count_all(&mut self, all: &[u8]) {
        let tonnage = |&pile| body(all, pile).tonnage();
        self.all = self.piles.iter().map(tonnage).collect();
    }

    /// Asks the library about each pile of a desk's own newest book. What is
    /// due comes from the lone dispatcher's book for its set. The other desks'
    /// lines stand: their books have not been written.
    pub fn ask(&mut self, desk: usize, book: &[u8], lone: &[u8]) -> Vec<String> {
        let mut broken = Vec::new();
        for (line, &pile) in self.lines[desk].iter_mut().zip(&self.piles) {
            let (mut least, mut most) = (u32::MAX, u32::MAX);
            let answers = (
                raw::least(book, desk as u8, pile, &mut least),
                raw::most(book, desk as u8, pile, &mut most),
            );
            let due = body(lone, pile);
            *line = Line {
                known: due.tonnage(),
                least: i64::from(least),
                most: i64::from(most),
            };
            if answers != (0, 0) || (line.least, line.most) != (due.least(desk), due.most(desk)) {
                broken.push(format!(
                    "part 6: desk {desk}, pile {pile}: answers {answers:?}, {line:?}"
                ));
            }
        }
        broken
    }

    /// Every desk's lines against all acts made so far.
    pub fn judge(&self, summary: &mut Summary) -> Vec<String> {
        let mut broken = Vec::new();
        for (desk, lines) in self.lines.iter().enumerate() {
            for ((line, &all), pile) in lines.iter().zip(&self.all).zip(&self.piles) {
                if all < line.least || line.most < all {
                    broken.push(format!(
                        "part 6: desk {desk}, pile {pile}: {line:?}, by all acts made {all}"
                    ));
                }
                summary.lines += 1;
                // The desk lacks acts, and they matter to it.
                if line.known != all {
                    summary.unknown += 1;
                    summary.at_least += u64::from(all == line.least);
                    summary.at_most += u64::from(all == line.most);
                }
            }
        }
        broken
    }
}

fn body(book: &[u8], pile: u16) -> Body<'_> {
    Body::of(book, pile).expect("an opened pile")
}
