//! Document 01's functions in plain Rust, under the library's promises: every
//! input is answered, the whole book is checked at every call, the first
//! refusal in table order is given, and a refused call changes nothing.
//!
//! The bytes are read in place, n is a run-time value and nothing is
//! allocated. A check looks at each number once.

use std::cmp::Ordering;

const MOST_DESKS: usize = 8;
const MOST_PILES: usize = 32;
const MOST_TOP: u32 = 10_000_000;
const MOST_TALLY: u32 = 1_000_000_000;
const MOST_AMOUNT: u32 = 1_000;
/// The numbers of a pile record: n, then a body of eight desks.
const RECORD: usize = 163;

const TIPPED: usize = 0;
const DRAWN: usize = 1;
const GIVES: usize = 2;

/// The head of a book. All lengths and positions follow from it.
#[derive(Clone, Copy, PartialEq)]
struct Head {
    desks: usize,
    piles: usize,
}

impl Head {
    fn new(desks: u8, piles: u8) -> Result<Head, u8> {
        let (desks, piles) = (usize::from(desks), usize::from(piles));
        if (1..=MOST_DESKS).contains(&desks) && (1..=MOST_PILES).contains(&piles) {
            Ok(Head { desks, piles })
        } else {
            Err(2)
        }
    }

    /// Bytes of a row, and of an opening, which has as many numbers.
    fn row(self) -> usize {
        8 * (self.desks + 1)
    }

    fn body(self) -> usize {
        self.row() * (self.desks + 1)
    }

    /// Where body k starts.
    fn position(self, k: usize) -> usize {
        4 + 6 * self.piles + k * self.body()
    }

    fn length(self) -> usize {
        self.position(self.piles)
    }

    /// Where the row of a desk starts in a body.
    fn row_position(self, desk: usize) -> usize {
        self.row() * (desk + 1)
    }

    /// Where the body of a pile starts, in a book already checked.
    fn find(self, book: &[u8], pile: u16) -> Result<usize, u8> {
        let contents = &book[4..self.position(0)];
        contents
            .chunks_exact(6)
            .position(|entry| u16::from_le_bytes([entry[0], entry[1]]) == pile)
            .map(|k| self.position(k))
            .ok_or(10)
    }
}

#[derive(Clone, Copy)]
enum Side {
    Draw,
    Tip,
}

/// The number at a place, counted in numbers and not in bytes.
fn number(bytes: &[u8], place: usize) -> u32 {
    let bytes = &bytes[4 * place..4 * place + 4];
    u32::from_le_bytes([bytes[0], bytes[1], bytes[2], bytes[3]])
}

fn write(bytes: &mut [u8], place: usize, value: u32) {
    bytes[4 * place..4 * place + 4].copy_from_slice(&value.to_le_bytes());
}

fn answer(result: Result<(), u8>) -> u8 {
    result.err().unwrap_or(0)
}

/// Checks the opening and the rows of `width` desks, of which those past n are
/// unused. A body is as wide as it has desks, a pile record always eight.
fn lawful<T: Copy>(
    n: usize,
    width: usize,
    numbers: &[T],
    read: impl Fn(T) -> u32,
) -> Result<(), u8> {
    let (opening, rows) = numbers.split_at(2 + 2 * width);
    let (floor, top) = (read(opening[0]), read(opening[1]));
    let mut draw = [0i64; MOST_DESKS];
    let mut tip = [0i64; MOST_DESKS];
    let mut shares = 0;
    for desk in 0..width {
        draw[desk] = i64::from(read(opening[2 + desk]));
        tip[desk] = i64::from(read(opening[2 + width + desk]));
        shares += draw[desk] + tip[desk];
        if desk >= n && (draw[desk] | tip[desk]) != 0 {
            return Err(5);
        }
    }
    if floor > top || top > MOST_TOP || shares != i64::from(top - floor) {
        return Err(5);
    }

    for (desk, row) in rows.chunks_exact(2 + 2 * width).enumerate() {
        let (tipped, drawn) = (read(row[TIPPED]), read(row[DRAWN]));
        let most = if desk < n { MOST_TALLY } else { 0 };
        if tipped > most || drawn > most {
            return Err(6);
        }
        let (draw_gives, tip_gives) = row[GIVES..].split_at(width);
        let (mut draw_made, mut tip_made) = (0, 0);
        for (receiver, (&draw_give, &tip_give)) in draw_gives.iter().zip(tip_gives).enumerate() {
            let (draw_give, tip_give) = (read(draw_give), read(tip_give));
            let allowed = receiver < n && receiver != desk;
            if draw_give.max(tip_give) > if allowed { most } else { 0 } {
                return Err(6);
            }
            draw[receiver] += i64::from(draw_give);
            tip[receiver] += i64::from(tip_give);
            draw_made += i64::from(draw_give);
            tip_made += i64::from(tip_give);
        }
        let gain = i64::from(tipped) - i64::from(drawn);
        draw[desk] += gain - draw_made;
        tip[desk] -= gain + tip_made;
    }

    if draw.iter().chain(&tip).any(|&rights| rights < 0) {
        return Err(7);
    }
    Ok(())
}

fn checked(book: &[u8]) -> Result<Head, u8> {
    if book.len() < 4 {
        return Err(1);
    }
    if book[0] != 1 || book[3] != 0 {
        return Err(2);
    }
    let head = Head::new(book[1], book[2])?;
    if book.len() != head.length() {
        return Err(3);
    }

    let (contents, bodies) = book[4..].split_at(6 * head.piles);
    let mut last = 0;
    for (k, entry) in contents.chunks_exact(6).enumerate() {
        let pile = u16::from_le_bytes([entry[0], entry[1]]);
        let position = number(&entry[2..], 0) as usize;
        if pile <= last || position != head.position(k) {
            return Err(4);
        }
        last = pile;
    }
    for body in bodies.chunks_exact(head.body()) {
        let numbers = body.as_chunks::<4>().0;
        lawful(head.desks, head.desks, numbers, u32::from_le_bytes)?;
    }
    Ok(head)
}

/// The rights of a desk, in a body already checked: 0 to 10,000,000.
fn rights(body: &[u8], n: usize, desk: usize, side: Side) -> u32 {
    let row = (2 + 2 * n) * (desk + 1);
    let (share, gain, loss) = match side {
        Side::Draw => (2, TIPPED, DRAWN),
        Side::Tip => (2 + n, DRAWN, TIPPED),
    };
    let at = |place| i64::from(number(body, place));
    let mut rights = at(share + desk) + at(row + gain) - at(row + loss);
    for other in 0..n {
        rights += at((2 + 2 * n) * (other + 1) + share + desk);
        rights -= at(row + share + other);
    }
    rights as u32
}

/// The head, and the body of the pile that is asked about for a desk.
fn asked(book: &[u8], desk: u8, pile: u16) -> Result<(Head, &[u8]), u8> {
    let head = checked(book)?;
    if usize::from(desk) >= head.desks {
        return Err(11);
    }
    let position = head.find(book, pile)?;
    Ok((head, &book[position..position + head.body()]))
}

fn query(book: &[u8], desk: u8, pile: u16, side: Side) -> Result<u32, u8> {
    let (head, body) = asked(book, desk, pile)?;
    Ok(rights(body, head.desks, usize::from(desk), side))
}

/// What a desk can be sure of: the least by its draw rights, the most by its
/// tip rights.
fn bound(book: &[u8], desk: u8, pile: u16, side: Side) -> Result<u32, u8> {
    let (head, body) = asked(book, desk, pile)?;
    let rights = rights(body, head.desks, usize::from(desk), side);
    Ok(match side {
        Side::Draw => number(body, 0) + rights,
        Side::Tip => number(body, 1) - rights,
    })
}

/// An act: a give where there is a receiver, otherwise a tip or a draw. It
/// needs rights of its side.
fn act(
    book: &mut [u8],
    desk: u8,
    pile: u16,
    side: Side,
    receiver: Option<u8>,
    amount: u32,
) -> Result<(), u8> {
    let head = checked(book)?;
    let (n, desk) = (head.desks, usize::from(desk));
    if desk >= n {
        return Err(11);
    }
    let position = head.find(book, pile)?;
    let place = match (side, receiver.map(usize::from)) {
        (_, Some(receiver)) if receiver >= n || receiver == desk => return Err(12),
        (Side::Tip, None) => TIPPED,
        (Side::Draw, None) => DRAWN,
        (Side::Draw, Some(receiver)) => GIVES + receiver,
        (Side::Tip, Some(receiver)) => GIVES + n + receiver,
    };
    if amount == 0 || amount > MOST_AMOUNT {
        return Err(13);
    }
    let body = &mut book[position..position + head.body()];
    if rights(body, n, desk, side) < amount {
        return Err(14);
    }
    let row = &mut body[head.row_position(desk)..];
    let tally = number(row, place) + amount;
    if tally > MOST_TALLY {
        return Err(15);
    }
    write(row, place, tally);
    Ok(())
}

/// What comparing two rows tells.
#[derive(Clone, Copy)]
enum Order {
    Alike = 1,
    MineLater,
    CopyLater,
    Split,
}

fn order(mine: &[u8], copy: &[u8]) -> Order {
    let (mut mine_ahead, mut copy_ahead) = (false, false);
    for place in 0..mine.len() / 4 {
        let (mine, copy) = (number(mine, place), number(copy, place));
        mine_ahead |= mine > copy;
        copy_ahead |= copy > mine;
    }
    match (mine_ahead, copy_ahead) {
        (false, false) => Order::Alike,
        (true, false) => Order::MineLater,
        (false, true) => Order::CopyLater,
        (true, true) => Order::Split,
    }
}

pub fn compare(mine: &[u8], copy: &[u8], out: &mut u32) -> u8 {
    let is_row = mine.len() % 8 == 0 && (16..=72).contains(&mine.len());
    if !is_row || mine.len() != copy.len() {
        return 3;
    }
    *out = order(mine, copy) as u32;
    0
}

fn taken(own: &mut [u8], copy: &[u8], desk: u8) -> Result<u32, u8> {
    let head = checked(own)?;
    let copy_head = checked(copy).map_err(|refusal| refusal + 20)?;
    let desk = usize::from(desk);
    if desk >= head.desks {
        return Err(11);
    }
    // Heads and contents are checked, so that their bytes are equal where n
    // and the pile numbers are.
    let bodies = head.position(0);
    if head != copy_head || own[..bodies] != copy[..bodies] {
        return Err(30);
    }
    let (own, copy) = (&mut own[bodies..], &copy[bodies..]);
    for (own, copy) in own
        .chunks_exact(head.body())
        .zip(copy.chunks_exact(head.body()))
    {
        if own[..head.row()] != copy[..head.row()] {
            return Err(30);
        }
    }

    // Nothing may be written before the last pile is compared, so the later
    // rows are marked first: a bit for each desk, a byte for each pile.
    let mut later = [0u8; MOST_PILES];
    for (pile, later) in later[..head.piles].iter_mut().enumerate() {
        for row in 0..head.desks {
            let at = pile * head.body() + head.row_position(row);
            let range = at..at + head.row();
            match order(&own[range.clone()], &copy[range]) {
                Order::Split => return Err(31),
                Order::CopyLater if row == desk => return Err(32),
                Order::CopyLater => *later |= 1 << row,
                Order::Alike | Order::MineLater => {}
            }
        }
    }
    for (pile, later) in later[..head.piles].iter().enumerate() {
        for row in (0..head.desks).filter(|row| later >> row & 1 == 1) {
            let at = pile * head.body() + head.row_position(row);
            own[at..at + head.row()].copy_from_slice(&copy[at..at + head.row()]);
        }
    }
    Ok(later.iter().map(|later| later.count_ones()).sum())
}

fn opened(desks: u8, piles: u8, list: &[u32], out: &mut [u8]) -> Result<(), u8> {
    let head = Head::new(desks, piles)?;
    let n = head.desks;
    if list.len() != head.piles * (3 + 2 * n) {
        return Err(3);
    }
    let piles = list.chunks_exact(3 + 2 * n);
    let mut last = 0;
    for pile in piles.clone() {
        if pile[0] <= last || pile[0] > u32::from(u16::MAX) {
            return Err(4);
        }
        last = pile[0];
    }
    for pile in piles.clone() {
        let shares: u64 = pile[3..].iter().map(|&share| u64::from(share)).sum();
        let (floor, top) = (pile[1], pile[2]);
        if floor > top || top > MOST_TOP || shares != u64::from(top - floor) {
            return Err(5);
        }
    }
    let book = out.get_mut(..head.length()).ok_or(8)?;

    book[..4].copy_from_slice(&[1, desks, head.piles as u8, 0]);
    for (k, pile) in piles.enumerate() {
        let (entry, position) = (4 + 6 * k, head.position(k));
        book[entry..entry + 2].copy_from_slice(&(pile[0] as u16).to_le_bytes());
        write(&mut book[entry + 2..], 0, position as u32);
        let (opening, rows) = book[position..position + head.body()].split_at_mut(head.row());
        for (place, &value) in pile[1..].iter().enumerate() {
            write(opening, place, value);
        }
        rows.fill(0);
    }
    Ok(())
}

/// The place in a pile record of a body's number: the record has eight
/// columns of each kind, of which n are used.
fn record_place(n: usize, row: usize, column: usize) -> usize {
    let unused = if column < 2 + n { 0 } else { MOST_DESKS - n };
    1 + (2 + 2 * MOST_DESKS) * row + column + unused
}

fn fetched(book: &[u8], pile: u16, record: &mut [u32]) -> Result<(), u8> {
    let head = checked(book)?;
    let position = head.find(book, pile)?;
    let record = record.get_mut(..RECORD).ok_or(8)?;
    record.fill(0);
    record[0] = head.desks as u32;
    let body = &book[position..position + head.body()];
    for (row, bytes) in body.chunks_exact(head.row()).enumerate() {
        for column in 0..2 + 2 * head.desks {
            record[record_place(head.desks, row, column)] = number(bytes, column);
        }
    }
    Ok(())
}

fn stored(book: &mut [u8], pile: u16, record: &[u32]) -> Result<(), u8> {
    let head = checked(book)?;
    let position = head.find(book, pile)?;
    if record.len() != RECORD {
        return Err(3);
    }
    let n = record[0] as usize;
    if !(1..=MOST_DESKS).contains(&n) {
        return Err(2);
    }
    lawful(n, MOST_DESKS, &record[1..], |number| number)?;
    let columns = 2 + 2 * n;
    let body = &mut book[position..position + head.body()];
    if n != head.desks
        || (0..columns).any(|column| number(body, column) != record[record_place(n, 0, column)])
    {
        return Err(30);
    }
    for (row, bytes) in body.chunks_exact_mut(head.row()).enumerate().skip(1) {
        for column in 0..columns {
            write(bytes, column, record[record_place(n, row, column)]);
        }
    }
    Ok(())
}

pub fn open(desks: u8, piles: u8, list: &[u32], out: &mut [u8]) -> u8 {
    answer(opened(desks, piles, list, out))
}

pub fn check(book: &[u8]) -> u8 {
    answer(checked(book).map(|_| ()))
}

pub fn tip(book: &mut [u8], desk: u8, pile: u16, amount: u32) -> u8 {
    answer(act(book, desk, pile, Side::Tip, None, amount))
}

pub fn draw(book: &mut [u8], desk: u8, pile: u16, amount: u32) -> u8 {
    answer(act(book, desk, pile, Side::Draw, None, amount))
}

pub fn give_draw(book: &mut [u8], desk: u8, pile: u16, receiver: u8, amount: u32) -> u8 {
    answer(act(book, desk, pile, Side::Draw, Some(receiver), amount))
}

pub fn give_tip(book: &mut [u8], desk: u8, pile: u16, receiver: u8, amount: u32) -> u8 {
    answer(act(book, desk, pile, Side::Tip, Some(receiver), amount))
}

pub fn take(own: &mut [u8], copy: &[u8], desk: u8, changed: &mut u32) -> u8 {
    answer(taken(own, copy, desk).map(|pairs| *changed = pairs))
}

pub fn tonnage(book: &[u8], pile: u16, out: &mut u32) -> u8 {
    let known = checked(book).and_then(|head| {
        let position = head.find(book, pile)?;
        let body = &book[position..position + head.body()];
        let at = |place| i64::from(number(body, place));
        let known = (0..head.desks).fold(at(0), |known, desk| {
            let row = head.row_position(desk) / 4;
            known + at(2 + desk) + at(row + TIPPED) - at(row + DRAWN)
        });
        Ok(known as u32)
    });
    answer(known.map(|known| *out = known))
}

pub fn draw_rights(book: &[u8], desk: u8, pile: u16, out: &mut u32) -> u8 {
    answer(query(book, desk, pile, Side::Draw).map(|rights| *out = rights))
}

pub fn tip_rights(book: &[u8], desk: u8, pile: u16, out: &mut u32) -> u8 {
    answer(query(book, desk, pile, Side::Tip).map(|rights| *out = rights))
}

pub fn least(book: &[u8], desk: u8, pile: u16, out: &mut u32) -> u8 {
    answer(bound(book, desk, pile, Side::Draw).map(|least| *out = least))
}

pub fn most(book: &[u8], desk: u8, pile: u16, out: &mut u32) -> u8 {
    answer(bound(book, desk, pile, Side::Tip).map(|most| *out = most))
}

pub fn fetch(book: &[u8], pile: u16, record: &mut [u32]) -> u8 {
    answer(fetched(book, pile, record))
}

pub fn store(book: &mut [u8], pile: u16, record: &[u32]) -> u8 {
    answer(stored(book, pile, record))
}

const TICKET: usize = 11;
const MOST_TICKET_NUMBER: u32 = 99_999_999;

/// The number of packed bytes, two digits each, the high one first; `None`
/// where a digit is above 9.
fn unpacked(bytes: &[u8]) -> Option<u32> {
    let mut number = 0;
    for byte in bytes {
        let (high, low) = (byte >> 4, byte & 15);
        if high > 9 || low > 9 {
            return None;
        }
        number = 100 * number + u32::from(10 * high + low);
    }
    Some(number)
}

fn pack(mut number: u32, out: &mut [u8]) {
    for byte in out.iter_mut().rev() {
        let pair = (number % 100) as u8;
        *byte = pair / 10 << 4 | pair % 10;
        number /= 100;
    }
}

fn pile_wrong(pile: u32) -> bool {
    !(1..=65_535).contains(&pile)
}

fn kind_or_desk_wrong(kind: u8, desk: u8) -> bool {
    !(1..=2).contains(&kind) || usize::from(desk) >= MOST_DESKS
}

struct Ticket {
    number: u32,
    pile: u32,
    tonnes: u32,
    kind: u8,
    desk: u8,
}

/// Taken in at each caller, so that neither is slower for the other.
#[inline(always)]
fn ticket(bytes: &[u8]) -> Result<Ticket, u8> {
    let Ok(&[a, b, c, d, e, f, g, h, i, kind, desk]) = <&[u8; TICKET]>::try_from(bytes) else {
        return Err(3);
    };
    let number = unpacked(&[a, b, c, d]).ok_or(33)?;
    let pile = unpacked(&[e, f, g]).ok_or(33)?;
    if pile_wrong(pile) {
        return Err(34);
    }
    let tonnes = unpacked(&[h, i]).ok_or(33)?;
    if !(1..=MOST_AMOUNT).contains(&tonnes) {
        return Err(13);
    }
    if kind_or_desk_wrong(kind, desk) {
        return Err(35);
    }
    Ok(Ticket {
        number,
        pile,
        tonnes,
        kind,
        desk,
    })
}

pub fn read_ticket(
    bytes: &[u8],
    number: &mut u32,
    pile: &mut u32,
    tonnes: &mut u32,
    kind: &mut u8,
    desk: &mut u8,
) -> u8 {
    answer(ticket(bytes).map(|ticket| {
        (*number, *pile, *tonnes) = (ticket.number, ticket.pile, ticket.tonnes);
        (*kind, *desk) = (ticket.kind, ticket.desk);
    }))
}

pub fn write_ticket(number: u32, pile: u32, tonnes: u32, kind: u8, desk: u8, out: &mut [u8]) -> u8 {
    if number > MOST_TICKET_NUMBER {
        return 33;
    }
    if pile_wrong(pile) {
        return 34;
    }
    if !(1..=MOST_AMOUNT).contains(&tonnes) {
        return 13;
    }
    if kind_or_desk_wrong(kind, desk) {
        return 35;
    }
    let Some(out) = out.get_mut(..TICKET) else {
        return 8;
    };
    pack(number, &mut out[..4]);
    pack(pile, &mut out[4..7]);
    pack(tonnes, &mut out[7..9]);
    (out[9], out[10]) = (kind, desk);
    0
}

const MOST_TICKETS: usize = 4_096;

/// Checks each ticket of a list, in one pass: do the numbers rise?
fn rising(list: &[u8]) -> Result<bool, u8> {
    let (mut rising, mut last) = (true, None);
    for bytes in list.chunks_exact(TICKET) {
        let number = Some(ticket(bytes)?.number);
        rising &= last < number;
        last = number;
    }
    Ok(rising)
}

/// The counts of alike, differing, only at the bridge and only at the desk.
fn counts(bridge: &[u8], desk: &[u8]) -> Result<[u32; 4], u8> {
    for list in [bridge, desk] {
        if list.len() % TICKET != 0 || list.len() > MOST_TICKETS * TICKET {
            return Err(3);
        }
    }
    let (bridge_rises, desk_rises) = (rising(bridge)?, rising(desk)?);
    if !bridge_rises {
        return Err(36);
    }
    if !desk_rises {
        return Err(37);
    }
    // Packed digits, the high one first, are in the order of their numbers, and
    // right digits are the only ones for their ticket.
    let mut counts = [0; 4];
    let mut bridge = bridge.chunks_exact(TICKET).peekable();
    let mut desk = desk.chunks_exact(TICKET).peekable();
    loop {
        let order = match (bridge.peek(), desk.peek()) {
            (None, None) => return Ok(counts),
            (Some(_), None) => Ordering::Less,
            (None, Some(_)) => Ordering::Greater,
            (Some(ours), Some(theirs)) => ours[..4].cmp(&theirs[..4]),
        };
        match order {
            Ordering::Less => {
                bridge.next();
                counts[2] += 1;
            }
            Ordering::Greater => {
                desk.next();
                counts[3] += 1;
            }
            Ordering::Equal => counts[usize::from(bridge.next() != desk.next())] += 1,
        }
    }
}

pub fn reconcile(
    bridge: &[u8],
    desk: &[u8],
    alike: &mut u32,
    differing: &mut u32,
    only_bridge: &mut u32,
    only_desk: &mut u32,
) -> u8 {
    answer(counts(bridge, desk).map(|counts| {
        [*alike, *differing, *only_bridge, *only_desk] = counts;
    }))
}
