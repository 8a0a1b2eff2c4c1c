//! Document 01's functions specialised for each n, under the same promises as
//! the plain version: every length is a constant and every row an array, so
//! that the compiler unrolls and vectorises. Still safe Rust.
//!
//! A lawful body takes a path without branches in 32-bit arithmetic; a body
//! that may not be lawful is looked at again for the exact refusal.

use std::array::from_fn;

const MOST_PILES: usize = 32;
const MOST_TOP: u32 = 10_000_000;
const MOST_TALLY: u32 = 1_000_000_000;
const MOST_AMOUNT: u32 = 1_000;
const RECORD: usize = 163;
/// Numbers in a row of a pile record.
const RECORD_ROW: usize = 18;

/// Rights add up at most ten numbers of either sign, and an opening sixteen
/// shares: below this one 31 bits hold any such sum.
const SMALL: u32 = 1 << 27;

/// Calls a function for n with its constants: n, the bytes of a row and the
/// bytes of a body.
macro_rules! for_desks {
    ($n:expr, $function:ident($($argument:expr),*)) => {
        match $n {
            1 => $function::<1, 16, 32>($($argument),*),
            2 => $function::<2, 24, 72>($($argument),*),
            3 => $function::<3, 32, 128>($($argument),*),
            4 => $function::<4, 40, 200>($($argument),*),
            5 => $function::<5, 48, 288>($($argument),*),
            6 => $function::<6, 56, 392>($($argument),*),
            7 => $function::<7, 64, 512>($($argument),*),
            8 => $function::<8, 72, 648>($($argument),*),
            _ => Err(2),
        }
    };
}

/// A row's numbers. An opening has the same form: floor and top, then the
/// shares of both kinds.
#[derive(Clone, Copy)]
struct Row<const N: usize> {
    pair: [u32; 2],
    draw: [u32; N],
    tip: [u32; N],
}

impl<const N: usize> Row<N> {
    #[inline(always)]
    fn read<const R: usize>(bytes: &[u8; R]) -> Row<N> {
        let numbers = bytes.as_chunks::<4>().0;
        let at = |place: usize| u32::from_le_bytes(numbers[place]);
        Row {
            pair: from_fn(at),
            draw: from_fn(|desk| at(2 + desk)),
            tip: from_fn(|desk| at(2 + N + desk)),
        }
    }

    #[inline(always)]
    fn of_record(numbers: &[u32; RECORD_ROW]) -> Row<N> {
        Row {
            pair: from_fn(|place| numbers[place]),
            draw: from_fn(|desk| numbers[2 + desk]),
            tip: from_fn(|desk| numbers[10 + desk]),
        }
    }
}

/// Whether a pile is lawful and all its numbers small. No branch depends on
/// the numbers.
#[inline(always)]
fn plainly_lawful<const N: usize>(opening: Row<N>, row: impl Fn(usize) -> Row<N>) -> bool {
    let [floor, top] = opening.pair;
    let (mut draw, mut tip) = (opening.draw, opening.tip);
    let mut any = [0; N];
    let (mut any_pair, mut own) = (floor | top, 0);
    let mut shares = 0u32;
    for desk in 0..N {
        any[desk] |= draw[desk] | tip[desk];
        shares = shares.wrapping_add(draw[desk].wrapping_add(tip[desk]));
    }
    let (mut draw_made, mut tip_made) = ([0u32; N], [0u32; N]);
    for desk in 0..N {
        let row = row(desk);
        let [tipped, drawn] = row.pair;
        any_pair |= tipped | drawn;
        own |= row.draw[desk] | row.tip[desk];
        let (mut made_draw, mut made_tip) = (0u32, 0u32);
        for other in 0..N {
            any[other] |= row.draw[other] | row.tip[other];
            draw[other] = draw[other].wrapping_add(row.draw[other]);
            tip[other] = tip[other].wrapping_add(row.tip[other]);
            made_draw = made_draw.wrapping_add(row.draw[other]);
            made_tip = made_tip.wrapping_add(row.tip[other]);
        }
        let gain = tipped.wrapping_sub(drawn);
        draw_made[desk] = made_draw.wrapping_sub(gain);
        tip_made[desk] = made_tip.wrapping_add(gain);
    }
    let mut negative = 0;
    for desk in 0..N {
        negative |= draw[desk].wrapping_sub(draw_made[desk]);
        negative |= tip[desk].wrapping_sub(tip_made[desk]);
    }
    let any = any.iter().fold(any_pair, |any, number| any | number);
    (any < SMALL)
        & (floor <= top)
        & (top <= MOST_TOP)
        & (shares == top.wrapping_sub(floor))
        & (own == 0)
        & (negative >> 31 == 0)
}

/// The exact refusal of a pile, whatever its numbers.
#[cold]
#[inline(never)]
fn refusal<const N: usize>(opening: Row<N>, row: impl Fn(usize) -> Row<N>) -> Result<(), u8> {
    let [floor, top] = opening.pair;
    let mut draw = opening.draw.map(i64::from);
    let mut tip = opening.tip.map(i64::from);
    let shares = draw.iter().sum::<i64>() + tip.iter().sum::<i64>();
    if floor > top || top > MOST_TOP || shares != i64::from(top) - i64::from(floor) {
        return Err(5);
    }
    let mut unlawful = false;
    for desk in 0..N {
        let row = row(desk);
        let [tipped, drawn] = row.pair;
        unlawful |= tipped > MOST_TALLY || drawn > MOST_TALLY;
        unlawful |= row.draw[desk] | row.tip[desk] != 0;
        let gain = i64::from(tipped) - i64::from(drawn);
        draw[desk] += gain;
        tip[desk] -= gain;
        for other in 0..N {
            unlawful |= row.draw[other] > MOST_TALLY;
            unlawful |= row.tip[other] > MOST_TALLY;
            draw[other] += i64::from(row.draw[other]);
            draw[desk] -= i64::from(row.draw[other]);
            tip[other] += i64::from(row.tip[other]);
            tip[desk] -= i64::from(row.tip[other]);
        }
    }
    if unlawful {
        return Err(6);
    }
    if draw.iter().chain(&tip).any(|&rights| rights < 0) {
        return Err(7);
    }
    Ok(())
}

#[inline(always)]
fn lawful<const N: usize>(opening: Row<N>, row: impl Fn(usize) -> Row<N>) -> Result<(), u8> {
    if plainly_lawful(opening, &row) {
        Ok(())
    } else {
        refusal(opening, row)
    }
}

/// n, from a head of which the rest is right.
#[inline(always)]
fn desks(book: &[u8]) -> Result<u8, u8> {
    let &[version, desks, piles, zero] = book.first_chunk::<4>().ok_or(1)?;
    if version == 1 && zero == 0 && (1..=MOST_PILES).contains(&usize::from(piles)) {
        Ok(desks)
    } else {
        Err(2)
    }
}

fn number_of(entry: &[u8; 6]) -> u16 {
    u16::from_le_bytes([entry[0], entry[1]])
}

/// The rest of the check, for a book whose head is right.
fn checked<const N: usize, const R: usize, const B: usize>(book: &[u8]) -> Result<(), u8> {
    let piles = usize::from(book[2]);
    if book.len() != 4 + piles * (6 + B) {
        return Err(3);
    }
    let (contents, bodies) = book[4..].split_at(6 * piles);
    let (mut last, mut wrong) = (0, false);
    let mut expected = 4 + 6 * piles as u32;
    for entry in contents.as_chunks::<6>().0 {
        let pile = number_of(entry);
        let position = u32::from_le_bytes([entry[2], entry[3], entry[4], entry[5]]);
        wrong |= (pile <= last) | (position != expected);
        last = pile;
        expected += B as u32;
    }
    if wrong {
        return Err(4);
    }
    for body in bodies.as_chunks::<B>().0 {
        let rows = body.as_chunks::<R>().0;
        lawful::<N>(Row::read(&rows[0]), |desk| Row::read(&rows[1 + desk]))?;
    }
    Ok(())
}

/// Which body is the pile's, in a book already checked.
#[inline(always)]
fn find(book: &[u8], pile: u16) -> Result<usize, u8> {
    let piles = usize::from(book[2]);
    let contents = book[4..4 + 6 * piles].as_chunks::<6>().0;
    let k = contents.partition_point(|entry| number_of(entry) < pile);
    match contents.get(k) {
        Some(entry) if number_of(entry) == pile => Ok(k),
        _ => Err(10),
    }
}

#[inline(always)]
fn bodies<const B: usize>(book: &[u8]) -> &[[u8; B]] {
    book[4 + 6 * usize::from(book[2])..].as_chunks::<B>().0
}

#[inline(always)]
fn bodies_mut<const B: usize>(book: &mut [u8]) -> &mut [[u8; B]] {
    let start = 4 + 6 * usize::from(book[2]);
    book[start..].as_chunks_mut::<B>().0
}

/// An act is a give where there is a receiver, otherwise a tip or a draw. It
/// needs rights of its side.
#[derive(Clone, Copy)]
enum Side {
    Draw,
    Tip,
}

/// The rights of a desk in a lawful body. They are 0 to 10,000,000, so that
/// the 32-bit sum is exact although its parts need not be.
#[inline(always)]
fn rights<const N: usize, const R: usize>(rows: &[[u8; R]], desk: usize, side: Side) -> u32 {
    let at = |row: usize, place: usize| u32::from_le_bytes(rows[row].as_chunks::<4>().0[place]);
    let (first, gain, loss) = match side {
        Side::Draw => (2, 0, 1),
        Side::Tip => (2 + N, 1, 0),
    };
    let mut rights = at(1 + desk, gain).wrapping_sub(at(1 + desk, loss));
    // Share and receipts stand below one another, the share on top.
    for row in 0..=N {
        rights = rights.wrapping_add(at(row, first + desk));
    }
    for other in 0..N {
        rights = rights.wrapping_sub(at(1 + desk, first + other));
    }
    rights
}

/// The rows of the pile that is asked about for a desk, the opening first.
#[inline(always)]
fn asked<const N: usize, const R: usize, const B: usize>(
    book: &[u8],
    desk: u8,
    pile: u16,
) -> Result<&[[u8; R]], u8> {
    checked::<N, R, B>(book)?;
    if usize::from(desk) >= N {
        return Err(11);
    }
    Ok(bodies::<B>(book)[find(book, pile)?].as_chunks::<R>().0)
}

fn query_n<const N: usize, const R: usize, const B: usize>(
    book: &[u8],
    desk: u8,
    pile: u16,
    side: Side,
) -> Result<u32, u8> {
    let rows = asked::<N, R, B>(book, desk, pile)?;
    Ok(rights::<N, R>(rows, usize::from(desk), side))
}

/// What a desk can be sure of: the least by its draw rights, the most by its
/// tip rights.
fn bound_n<const N: usize, const R: usize, const B: usize>(
    book: &[u8],
    desk: u8,
    pile: u16,
    side: Side,
) -> Result<u32, u8> {
    let rows = asked::<N, R, B>(book, desk, pile)?;
    let rights = rights::<N, R>(rows, usize::from(desk), side);
    let [floor, top] = Row::<N>::read(&rows[0]).pair;
    Ok(match side {
        Side::Draw => floor.wrapping_add(rights),
        Side::Tip => top.wrapping_sub(rights),
    })
}

fn act_n<const N: usize, const R: usize, const B: usize>(
    book: &mut [u8],
    desk: u8,
    pile: u16,
    side: Side,
    receiver: Option<u8>,
    amount: u32,
) -> Result<(), u8> {
    checked::<N, R, B>(book)?;
    let desk = usize::from(desk);
    if desk >= N {
        return Err(11);
    }
    let k = find(book, pile)?;
    let place = match (side, receiver.map(usize::from)) {
        (_, Some(receiver)) if receiver >= N || receiver == desk => return Err(12),
        (Side::Tip, None) => 0,
        (Side::Draw, None) => 1,
        (Side::Draw, Some(receiver)) => 2 + receiver,
        (Side::Tip, Some(receiver)) => 2 + N + receiver,
    };
    if amount == 0 || amount > MOST_AMOUNT {
        return Err(13);
    }
    let rows = bodies_mut::<B>(book)[k].as_chunks_mut::<R>().0;
    if rights::<N, R>(rows, desk, side) < amount {
        return Err(14);
    }
    let tally = &mut rows[1 + desk].as_chunks_mut::<4>().0[place];
    let sum = u32::from_le_bytes(*tally) + amount;
    if sum > MOST_TALLY {
        return Err(15);
    }
    *tally = sum.to_le_bytes();
    Ok(())
}

/// Whether the own tallies are ahead at some place, and whether the copy's
/// are. Lawful ones have 30 bits, so that a word compares two of them, each
/// with a set bit above it: where that bit stays, nothing was borrowed. The
/// numbers of an opening have as few.
#[inline(always)]
fn ahead<const L: usize>(own: &[u8; L], copy: &[u8; L]) -> (bool, bool) {
    const ABOVE: u64 = 1 << 63 | 1 << 31;
    let (mut own_stays, mut copy_stays) = (ABOVE, ABOVE);
    for (own, copy) in own.as_chunks::<8>().0.iter().zip(copy.as_chunks::<8>().0) {
        let (own, copy) = (u64::from_le_bytes(*own), u64::from_le_bytes(*copy));
        own_stays &= (own | ABOVE) - copy;
        copy_stays &= (copy | ABOVE) - own;
    }
    (copy_stays != ABOVE, own_stays != ABOVE)
}

/// The desks whose rows are later in the copy of a pile, a bit for each.
#[inline(never)]
fn later_rows<const N: usize, const R: usize>(
    own: &[[u8; R]],
    copy: &[[u8; R]],
    desk: u8,
) -> Result<u8, u8> {
    let (mut later, mut split) = (0, 0);
    for desk in 0..N {
        let (own_ahead, copy_ahead) = ahead(&own[1 + desk], &copy[1 + desk]);
        split |= u8::from(own_ahead & copy_ahead) << desk;
        later |= u8::from(!own_ahead & copy_ahead) << desk;
    }
    let refused = split | later & 1 << desk;
    // The lowest bit is the first desk's.
    match refused & refused.wrapping_neg() {
        0 => Ok(later),
        first if split & first != 0 => Err(31),
        _ => Err(32),
    }
}

fn take_n<const N: usize, const R: usize, const B: usize>(
    own: &mut [u8],
    copy: &[u8],
    desk: u8,
) -> Result<u32, u8> {
    checked::<N, R, B>(own)?;
    desks(copy)
        .and_then(|desks| for_desks!(desks, checked(copy)))
        .map_err(|refusal| refusal + 20)?;
    if usize::from(desk) >= N {
        return Err(11);
    }
    // Heads and contents are checked, so that their bytes are equal where n
    // and the pile numbers are.
    let contents = 4 + 6 * usize::from(own[2]);
    if own.len() != copy.len() || own[..contents] != copy[..contents] {
        return Err(30);
    }
    let (own, copy) = (bodies_mut::<B>(own), bodies::<B>(copy));
    for (own, copy) in own.iter().zip(copy) {
        if own.as_chunks::<R>().0[0] != copy.as_chunks::<R>().0[0] {
            return Err(30);
        }
    }

    // Nothing may be written before the last pile is compared, so the later
    // rows are marked first. All eight are never later, since one is the
    // taker's own, and that mark is free for a pile to take whole.
    const WHOLE: u8 = 0xff;
    let mut marks = [0; MOST_PILES];
    for ((own, copy), mark) in own.iter().zip(copy).zip(&mut marks) {
        *mark = match ahead(own, copy) {
            (_, false) => 0,
            (own_ahead, true) => {
                let (own, copy) = (own.as_chunks::<R>().0, copy.as_chunks::<R>().0);
                let place = 1 + usize::from(desk);
                if own_ahead {
                    later_rows::<N, R>(own, copy, desk)?
                } else if own[place] != copy[place] {
                    return Err(32);
                } else {
                    WHOLE
                }
            }
        };
    }
    let mut changed = 0;
    for ((own, copy), mark) in own.iter_mut().zip(copy).zip(marks) {
        if mark == WHOLE {
            let rows = own.as_chunks::<R>().0.iter().zip(copy.as_chunks::<R>().0);
            changed += rows.map(|(own, copy)| u32::from(own != copy)).sum::<u32>();
            *own = *copy;
        } else if mark != 0 {
            changed += mark.count_ones();
            let (own, copy) = (own.as_chunks_mut::<R>().0, copy.as_chunks::<R>().0);
            for desk in (0..N).filter(|desk| mark >> desk & 1 == 1) {
                own[1 + desk] = copy[1 + desk];
            }
        }
    }
    Ok(changed)
}

/// Any numbers, and so without the room above them that `ahead` needs.
fn compare_n<const N: usize, const R: usize, const B: usize>(
    mine: &[u8],
    copy: &[u8],
) -> Result<u32, u8> {
    let (Ok(mine), Ok(copy)) = (<&[u8; R]>::try_from(mine), <&[u8; R]>::try_from(copy)) else {
        return Err(3);
    };
    let (mut mine_ahead, mut copy_ahead) = (0, 0);
    for (mine, copy) in mine.as_chunks::<4>().0.iter().zip(copy.as_chunks::<4>().0) {
        let (mine, copy) = (u32::from_le_bytes(*mine), u32::from_le_bytes(*copy));
        mine_ahead |= u32::from(mine > copy);
        copy_ahead |= u32::from(copy > mine);
    }
    Ok(1 + mine_ahead + 2 * copy_ahead)
}

fn tonnage_n<const N: usize, const R: usize, const B: usize>(
    book: &[u8],
    pile: u16,
) -> Result<u32, u8> {
    checked::<N, R, B>(book)?;
    let rows = bodies::<B>(book)[find(book, pile)?].as_chunks::<R>().0;
    let opening = Row::<N>::read(&rows[0]);
    let mut known = opening.pair[0];
    for desk in 0..N {
        let [tipped, drawn] = Row::<N>::read(&rows[1 + desk]).pair;
        known = known.wrapping_add(opening.draw[desk]);
        known = known.wrapping_add(tipped.wrapping_sub(drawn));
    }
    Ok(known)
}

fn fetch_n<const N: usize, const R: usize, const B: usize>(
    book: &[u8],
    pile: u16,
    record: &mut [u32],
) -> Result<(), u8> {
    checked::<N, R, B>(book)?;
    let body = &bodies::<B>(book)[find(book, pile)?];
    let record = record.first_chunk_mut::<RECORD>().ok_or(8)?;
    *record = [0; RECORD];
    record[0] = N as u32;
    let rows = record[1..].as_chunks_mut::<RECORD_ROW>().0;
    for (numbers, bytes) in rows.iter_mut().zip(body.as_chunks::<R>().0) {
        let row = Row::<N>::read(bytes);
        numbers[..2].copy_from_slice(&row.pair);
        numbers[2..2 + N].copy_from_slice(&row.draw);
        numbers[10..10 + N].copy_from_slice(&row.tip);
    }
    Ok(())
}

/// The refusal of a pile record alone.
fn record_n<const N: usize, const R: usize, const B: usize>(
    record: &[u32; RECORD],
) -> Result<(), u8> {
    let rows = record[1..].as_chunks::<RECORD_ROW>().0;
    let unused = |row: &[u32; RECORD_ROW]| (N..8).fold(0, |any, i| any | row[2 + i] | row[10 + i]);
    let unused_share = unused(&rows[0]);
    let mut unused_place = 0;
    for row in &rows[1..1 + N] {
        unused_place |= unused(row);
    }
    for row in &rows[1 + N..] {
        unused_place |= row.iter().fold(0, |any, number| any | number);
    }
    if unused_share != 0 {
        return Err(5);
    }
    let alone = lawful::<N>(Row::of_record(&rows[0]), |desk| {
        Row::of_record(&rows[1 + desk])
    });
    match alone {
        Err(5) => Err(5),
        _ if unused_place != 0 => Err(6),
        alone => alone,
    }
}

fn store_n<const N: usize, const R: usize, const B: usize>(
    book: &mut [u8],
    pile: u16,
    record: &[u32],
) -> Result<(), u8> {
    checked::<N, R, B>(book)?;
    let k = find(book, pile)?;
    let record: &[u32; RECORD] = record.try_into().map_err(|_| 3)?;
    if record[0] != N as u32 {
        for_desks!(record[0], record_n(record))?;
        return Err(30);
    }
    record_n::<N, R, B>(record)?;
    let records = record[1..].as_chunks::<RECORD_ROW>().0;
    let rows = bodies_mut::<B>(book)[k].as_chunks_mut::<R>().0;
    let mut bytes = [[0; R]; 9];
    for (bytes, numbers) in bytes.iter_mut().zip(records).take(1 + N) {
        let (row, bytes) = (Row::<N>::of_record(numbers), bytes.as_chunks_mut::<4>().0);
        bytes[..2].copy_from_slice(&row.pair.map(u32::to_le_bytes));
        bytes[2..2 + N].copy_from_slice(&row.draw.map(u32::to_le_bytes));
        bytes[2 + N..].copy_from_slice(&row.tip.map(u32::to_le_bytes));
    }
    if rows[0] != bytes[0] {
        return Err(30);
    }
    rows.copy_from_slice(&bytes[..1 + N]);
    Ok(())
}

fn open_n<const N: usize, const R: usize, const B: usize>(
    piles: u8,
    list: &[u32],
    out: &mut [u8],
) -> Result<(), u8> {
    let p = usize::from(piles);
    if !(1..=MOST_PILES).contains(&p) {
        return Err(2);
    }
    if list.len() != p * (3 + 2 * N) {
        return Err(3);
    }
    let entries = list.chunks_exact(3 + 2 * N);
    let mut last = 0;
    for entry in entries.clone() {
        if entry[0] <= last || entry[0] > u32::from(u16::MAX) {
            return Err(4);
        }
        last = entry[0];
    }
    for entry in entries.clone() {
        let (floor, top) = (entry[1], entry[2]);
        let shares: u64 = entry[3..].iter().map(|&share| u64::from(share)).sum();
        if floor > top || top > MOST_TOP || shares != u64::from(top - floor) {
            return Err(5);
        }
    }
    let book = out.get_mut(..4 + p * (6 + B)).ok_or(8)?;

    book[..4].copy_from_slice(&[1, N as u8, piles, 0]);
    let (contents, bodies) = book[4..].split_at_mut(6 * p);
    let contents = contents.as_chunks_mut::<6>().0;
    let bodies = bodies.as_chunks_mut::<B>().0;
    let mut position = 4 + 6 * p as u32;
    for ((entry, place), body) in entries.zip(contents).zip(bodies) {
        place[..2].copy_from_slice(&(entry[0] as u16).to_le_bytes());
        place[2..].copy_from_slice(&position.to_le_bytes());
        position += B as u32;
        *body = [0; B];
        for (bytes, number) in body.as_chunks_mut::<4>().0.iter_mut().zip(&entry[1..]) {
            *bytes = number.to_le_bytes();
        }
    }
    Ok(())
}

fn answer(result: Result<(), u8>) -> u8 {
    result.err().unwrap_or(0)
}

fn act(book: &mut [u8], desk: u8, pile: u16, side: Side, receiver: Option<u8>, amount: u32) -> u8 {
    let n = desks(book);
    let act = |desks| for_desks!(desks, act_n(book, desk, pile, side, receiver, amount));
    answer(n.and_then(act))
}

pub fn open(desks: u8, piles: u8, list: &[u32], out: &mut [u8]) -> u8 {
    answer(for_desks!(desks, open_n(piles, list, out)))
}

pub fn check(book: &[u8]) -> u8 {
    answer(desks(book).and_then(|desks| for_desks!(desks, checked(book))))
}

pub fn tip(book: &mut [u8], desk: u8, pile: u16, amount: u32) -> u8 {
    act(book, desk, pile, Side::Tip, None, amount)
}

pub fn draw(book: &mut [u8], desk: u8, pile: u16, amount: u32) -> u8 {
    act(book, desk, pile, Side::Draw, None, amount)
}

pub fn give_draw(book: &mut [u8], desk: u8, pile: u16, receiver: u8, amount: u32) -> u8 {
    act(book, desk, pile, Side::Draw, Some(receiver), amount)
}

pub fn give_tip(book: &mut [u8], desk: u8, pile: u16, receiver: u8, amount: u32) -> u8 {
    act(book, desk, pile, Side::Tip, Some(receiver), amount)
}

pub fn take(own: &mut [u8], copy: &[u8], desk: u8, changed: &mut u32) -> u8 {
    let n = desks(own);
    let taken = n.and_then(|desks| for_desks!(desks, take_n(own, copy, desk)));
    answer(taken.map(|pairs| *changed = pairs))
}

pub fn compare(mine: &[u8], copy: &[u8], out: &mut u32) -> u8 {
    // A row of n desks has 8(n + 1) bytes; lengths of no row are told apart in `compare_n`.
    let order = match mine.len().div_ceil(8).wrapping_sub(1) {
        desks @ 1..=8 => for_desks!(desks, compare_n(mine, copy)),
        _ => Err(3),
    };
    answer(order.map(|order| *out = order))
}

pub fn tonnage(book: &[u8], pile: u16, out: &mut u32) -> u8 {
    let known = desks(book).and_then(|desks| for_desks!(desks, tonnage_n(book, pile)));
    answer(known.map(|known| *out = known))
}

fn query(book: &[u8], desk: u8, pile: u16, side: Side) -> Result<u32, u8> {
    desks(book).and_then(|desks| for_desks!(desks, query_n(book, desk, pile, side)))
}

pub fn draw_rights(book: &[u8], desk: u8, pile: u16, out: &mut u32) -> u8 {
    answer(query(book, desk, pile, Side::Draw).map(|rights| *out = rights))
}

pub fn tip_rights(book: &[u8], desk: u8, pile: u16, out: &mut u32) -> u8 {
    answer(query(book, desk, pile, Side::Tip).map(|rights| *out = rights))
}

fn bound(book: &[u8], desk: u8, pile: u16, side: Side) -> Result<u32, u8> {
    desks(book).and_then(|desks| for_desks!(desks, bound_n(book, desk, pile, side)))
}

pub fn least(book: &[u8], desk: u8, pile: u16, out: &mut u32) -> u8 {
    answer(bound(book, desk, pile, Side::Draw).map(|least| *out = least))
}

pub fn most(book: &[u8], desk: u8, pile: u16, out: &mut u32) -> u8 {
    answer(bound(book, desk, pile, Side::Tip).map(|most| *out = most))
}

pub fn fetch(book: &[u8], pile: u16, record: &mut [u32]) -> u8 {
    answer(desks(book).and_then(|desks| for_desks!(desks, fetch_n(book, pile, record))))
}

pub fn store(book: &mut [u8], pile: u16, record: &[u32]) -> u8 {
    let n = desks(book);
    answer(n.and_then(|desks| for_desks!(desks, store_n(book, pile, record))))
}

const TICKET: usize = 11;

/// Eight packed digits as one word: whether all are right, and their number.
/// Digits are joined to pairs, pairs to fours, fours to the number, all lanes
/// of the word at once.
fn unpacked(packed: [u8; 4]) -> (bool, u32) {
    let packed = u32::from_be_bytes(packed);
    let high = (packed >> 4) & 0x0f0f_0f0f;
    let low = packed & 0x0f0f_0f0f;
    // A digit above 9 and 6 more carry into the next nibble.
    let right = ((high + 0x0606_0606) | (low + 0x0606_0606)) & 0x1010_1010 == 0;
    let pairs = high * 10 + low;
    let fours = ((pairs >> 8) & 0x00ff_00ff) * 100 + (pairs & 0x00ff_00ff);
    (right, (fours >> 16) * 10_000 + (fours & 0xffff))
}

/// A number below 100,000,000 as eight packed digits.
fn packed(number: u32) -> [u8; 4] {
    let (high, low) = (number / 10_000, number % 10_000);
    let pairs = [high / 100, high % 100, low / 100, low % 100];
    // p / 10 is p * 103 / 1024 for p below 100, and 16 (p / 10) + p % 10 is
    // p + 6 (p / 10).
    pairs.map(|pair| (pair + 6 * ((pair * 103) >> 10)) as u8)
}

fn values_wrong(pile: u32, tonnes: u32, kind: u8, desk: u8) -> bool {
    (pile.wrapping_sub(1) > 65_534)
        | (tonnes.wrapping_sub(1) >= MOST_AMOUNT)
        | (kind.wrapping_sub(1) > 1)
        | (desk > 7)
}

struct Ticket {
    number: u32,
    pile: u32,
    tonnes: u32,
    kind: u8,
    desk: u8,
}

/// Taken in at each caller, so that neither is slower for the other.
#[inline(always)]
fn ticket(bytes: &[u8; TICKET]) -> Result<Ticket, u8> {
    let [a, b, c, d, e, f, g, h, i, kind, desk] = *bytes;
    let (number_right, number) = unpacked([a, b, c, d]);
    let (pile_right, pile) = unpacked([0, e, f, g]);
    let (tonnes_right, tonnes) = unpacked([0, 0, h, i]);
    let digits_right = number_right & pile_right & tonnes_right;
    if !digits_right | values_wrong(pile, tonnes, kind, desk) {
        return Err(if !number_right || !pile_right {
            33
        } else if !(1..=65_535).contains(&pile) {
            34
        } else if !tonnes_right {
            33
        } else if !(1..=MOST_AMOUNT).contains(&tonnes) {
            13
        } else {
            35
        });
    }
    Ok(Ticket {
        number,
        pile,
        tonnes,
        kind,
        desk,
    })
}

pub fn read_ticket(
    bytes: &[u8],
    number: &mut u32,
    pile: &mut u32,
    tonnes: &mut u32,
    kind: &mut u8,
    desk: &mut u8,
) -> u8 {
    let read = bytes.try_into().map_err(|_| 3).and_then(ticket);
    answer(read.map(|ticket| {
        (*number, *pile, *tonnes) = (ticket.number, ticket.pile, ticket.tonnes);
        (*kind, *desk) = (ticket.kind, ticket.desk);
    }))
}

pub fn write_ticket(number: u32, pile: u32, tonnes: u32, kind: u8, desk: u8, out: &mut [u8]) -> u8 {
    if (number > 99_999_999) | values_wrong(pile, tonnes, kind, desk) {
        return if number > 99_999_999 {
            33
        } else if !(1..=65_535).contains(&pile) {
            34
        } else if !(1..=MOST_AMOUNT).contains(&tonnes) {
            13
        } else {
            35
        };
    }
    let Some(out) = out.first_chunk_mut::<TICKET>() else {
        return 8;
    };
    let [a, b, c, d] = packed(number);
    let [_, e, f, g] = packed(pile);
    let [_, _, h, i] = packed(tonnes);
    *out = [a, b, c, d, e, f, g, h, i, kind, desk];
    0
}

const MOST_TICKETS: usize = 4_096;

/// A list as whole tickets, where it is one.
fn list(bytes: &[u8]) -> Result<&[[u8; TICKET]], u8> {
    match bytes.as_chunks() {
        (tickets, []) if tickets.len() <= MOST_TICKETS => Ok(tickets),
        _ => Err(3),
    }
}

/// The packed number as a word: words are in the order of their numbers.
fn key(ticket: &[u8; TICKET]) -> u32 {
    let [a, b, c, d, ..] = *ticket;
    u32::from_be_bytes([a, b, c, d])
}

fn rising(tickets: &[[u8; TICKET]]) -> Result<bool, u8> {
    let mut rising = true;
    let mut next = 0;
    for bytes in tickets {
        ticket(bytes)?;
        rising &= next <= key(bytes);
        next = key(bytes) + 1;
    }
    Ok(rising)
}

/// The counts of alike, differing, only at the bridge and only at the desk; no
/// step branches on what the tickets are.
fn counts(bridge: &[u8], desk: &[u8]) -> Result<[u32; 4], u8> {
    let (bridge, desk) = (list(bridge)?, list(desk)?);
    let (bridge_rises, desk_rises) = (rising(bridge)?, rising(desk)?);
    if !bridge_rises {
        return Err(36);
    }
    if !desk_rises {
        return Err(37);
    }
    let (mut i, mut j, mut alike, mut both) = (0, 0, 0, 0);
    while let (Some(ours), Some(theirs)) = (bridge.get(i), desk.get(j)) {
        let (x, y) = (key(ours), key(theirs));
        both += u32::from(x == y);
        alike += u32::from(ours == theirs);
        i += usize::from(x <= y);
        j += usize::from(y <= x);
    }
    let (bridge, desk) = (bridge.len() as u32, desk.len() as u32);
    Ok([alike, both - alike, bridge - both, desk - both])
}

pub fn reconcile(
    bridge: &[u8],
    desk: &[u8],
    alike: &mut u32,
    differing: &mut u32,
    only_bridge: &mut u32,
    only_desk: &mut u32,
) -> u8 {
    answer(counts(bridge, desk).map(|counts| {
        [*alike, *differing, *only_bridge, *only_desk] = counts;
    }))
}
