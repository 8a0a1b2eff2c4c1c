//! Document 01, the pile record: "n and all 8 rows and 8 shares of each kind,
//! those past n being zero". Laid out as 163 numbers: n, floor, top, 8 draw
//! shares, 8 tip shares, then 8 rows of tipped, drawn, 8 draw gives, 8 tip
//! gives.

use super::book::{Opening, Pile, Row};

pub const NUMBERS: usize = 163;
pub const ROW_NUMBERS: usize = 18;
pub const ROWS_START: usize = 19;

/// Table, place "Pile record alone". Gives n and the pile; a record bears no
/// pile number, so that is 0 here.
pub fn parse(record: &[u32]) -> Result<(usize, Pile), u8> {
    let all: Vec<i64> = record.iter().map(|&number| i64::from(number)).collect();
    // "2: n not 1 to 8."
    if !(1..=8).contains(&all[0]) {
        return Err(2);
    }
    let n = all[0] as usize;
    let draw_shares = &all[3..11];
    let tip_shares = &all[11..19];
    let rows: Vec<Row> = all[ROWS_START..]
        .chunks(ROW_NUMBERS)
        .map(|row| Row::from_numbers(8, row))
        .collect();

    // "5: opening unlawful"
    let opening = Opening {
        floor: all[1],
        top: all[2],
        draw_shares: draw_shares[..n].to_vec(),
        tip_shares: tip_shares[..n].to_vec(),
    };
    if !opening.is_lawful() {
        return Err(5);
    }
    // "or unused share not 0."
    if !all_zero(&draw_shares[n..]) || !all_zero(&tip_shares[n..]) {
        return Err(5);
    }
    // "6: ... unused place not 0."
    for row in &rows[..n] {
        if !all_zero(&row.draw_gives[n..]) || !all_zero(&row.tip_gives[n..]) {
            return Err(6);
        }
    }
    for row in &rows[n..] {
        if !all_zero(&row.to_numbers()) {
            return Err(6);
        }
    }
    // "6: as above" (a tally over its limit, or a give to oneself). "7"
    let pile = Pile {
        number: 0,
        opening,
        rows: rows[..n].iter().map(|row| cut(row, n)).collect(),
    };
    match pile.refusal() {
        0 => Ok((n, pile)),
        refusal => Err(refusal),
    }
}

fn all_zero(numbers: &[i64]) -> bool {
    numbers.iter().all(|&number| number == 0)
}

/// The row of 8 receivers as a row of n.
fn cut(row: &Row, n: usize) -> Row {
    Row {
        tipped: row.tipped,
        drawn: row.drawn,
        draw_gives: row.draw_gives[..n].to_vec(),
        tip_gives: row.tip_gives[..n].to_vec(),
    }
}

pub fn print(n: usize, pile: &Pile) -> Vec<u32> {
    let mut record = vec![0; NUMBERS];
    record[0] = n as u32;
    record[1] = pile.opening.floor as u32;
    record[2] = pile.opening.top as u32;
    for i in 0..n {
        record[3 + i] = pile.opening.draw_shares[i] as u32;
        record[11 + i] = pile.opening.tip_shares[i] as u32;
        let start = ROWS_START + ROW_NUMBERS * i;
        record[start] = pile.rows[i].tipped as u32;
        record[start + 1] = pile.rows[i].drawn as u32;
        for j in 0..n {
            record[start + 2 + j] = pile.rows[i].draw_gives[j] as u32;
            record[start + 10 + j] = pile.rows[i].tip_gives[j] as u32;
        }
    }
    record
}
