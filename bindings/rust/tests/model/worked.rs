//! Document 01, "Worked book": F, G, cases a to j and the sizes.

use super::*;

const PILE: u16 = 7;

/// Floor 10, top 110, draw shares 0, 0, 0, tip shares 40, 30, 30.
const F_LIST: [u32; 9] = [7, 10, 110, 0, 0, 0, 40, 30, 30];

/// 4 + 6 bytes of head and contents, then 8 * (3 + 1)^2 = 128 of the body:
/// floor, top, three draw shares, three tip shares, then three rows of
/// tipped, drawn, three draw gives, three tip gives.
#[rustfmt::skip]
const F: [u8; 138] = [
    1, 3, 1, 0, 7, 0, 10, 0, 0, 0,
    10, 0, 0, 0, 110, 0, 0, 0,
    0, 0, 0, 0,  0, 0, 0, 0,  0, 0, 0, 0,
    40, 0, 0, 0,  30, 0, 0, 0,  30, 0, 0, 0,
    0, 0, 0, 0,  0, 0, 0, 0,  0, 0, 0, 0,  0, 0, 0, 0,  0, 0, 0, 0,  0, 0, 0, 0,  0, 0, 0, 0,  0, 0, 0, 0,
    0, 0, 0, 0,  0, 0, 0, 0,  0, 0, 0, 0,  0, 0, 0, 0,  0, 0, 0, 0,  0, 0, 0, 0,  0, 0, 0, 0,  0, 0, 0, 0,
    0, 0, 0, 0,  0, 0, 0, 0,  0, 0, 0, 0,  0, 0, 0, 0,  0, 0, 0, 0,  0, 0, 0, 0,  0, 0, 0, 0,  0, 0, 0, 0,
];

#[rustfmt::skip]
const G: [u8; 138] = [
    1, 3, 1, 0, 7, 0, 10, 0, 0, 0,
    10, 0, 0, 0, 110, 0, 0, 0,
    0, 0, 0, 0,  0, 0, 0, 0,  0, 0, 0, 0,
    40, 0, 0, 0,  30, 0, 0, 0,  30, 0, 0, 0,
    // Desk 0: tipped 30, drawn 5, draw gives 0, 10, 10.
    30, 0, 0, 0,  5, 0, 0, 0,  0, 0, 0, 0,  10, 0, 0, 0,  10, 0, 0, 0,  0, 0, 0, 0,  0, 0, 0, 0,  0, 0, 0, 0,
    // Desk 1: tipped 1, drawn 4.
    1, 0, 0, 0,  4, 0, 0, 0,  0, 0, 0, 0,  0, 0, 0, 0,  0, 0, 0, 0,  0, 0, 0, 0,  0, 0, 0, 0,  0, 0, 0, 0,
    // Desk 2: drawn 2.
    0, 0, 0, 0,  2, 0, 0, 0,  0, 0, 0, 0,  0, 0, 0, 0,  0, 0, 0, 0,  0, 0, 0, 0,  0, 0, 0, 0,  0, 0, 0, 0,
];

fn known(book: &[u8]) -> u32 {
    let mut out = u32::MAX;
    assert_eq!(tonnage(book, PILE, &mut out), 0);
    out
}

fn drawing(book: &[u8], desk: u8) -> u32 {
    let mut out = u32::MAX;
    assert_eq!(draw_rights(book, desk, PILE, &mut out), 0);
    out
}

fn tipping(book: &[u8], desk: u8) -> u32 {
    let mut out = u32::MAX;
    assert_eq!(tip_rights(book, desk, PILE, &mut out), 0);
    out
}

/// What a desk can be sure of: the least and the most.
fn bounds(book: &[u8], desk: u8) -> (u32, u32) {
    let (mut low, mut high) = (u32::MAX, u32::MAX);
    assert_eq!(least(book, desk, PILE, &mut low), 0);
    assert_eq!(most(book, desk, PILE, &mut high), 0);
    (low, high)
}

#[test]
fn f_is_opened() {
    let mut out = [9; 140];
    assert_eq!(open(3, 1, &F_LIST, &mut out[..137]), 8);
    assert_eq!(out, [9; 140]);
    assert_eq!(open(3, 1, &F_LIST, &mut out), 0);
    assert_eq!(out[..138], F);
    assert_eq!(out[138..], [9, 9]);
    assert_eq!(check(&F), 0);
}

#[test]
fn g_is_f_after_its_acts() {
    let mut book = F;
    assert_eq!(tip(&mut book, 0, PILE, 30), 0);
    assert_eq!(tip(&mut book, 1, PILE, 1), 0);
    assert_eq!(give_draw(&mut book, 0, PILE, 1, 10), 0);
    assert_eq!(give_draw(&mut book, 0, PILE, 2, 10), 0);
    assert_eq!(draw(&mut book, 0, PILE, 5), 0);
    assert_eq!(draw(&mut book, 1, PILE, 4), 0);
    assert_eq!(draw(&mut book, 2, PILE, 2), 0);
    assert_eq!(book, G);
    assert_eq!(check(&G), 0);
}

#[test]
fn g_is_listed() {
    let mut numbers = [1, 2];
    let mut positions = [3, 4];
    assert_eq!(contents(&G, &mut numbers, &mut positions), 0);
    assert_eq!((numbers, positions), ([7, 2], [10, 4]));
    let (mut start, mut length) = (0, 0);
    assert_eq!(body(&G, PILE, &mut start, &mut length), 0);
    assert_eq!((start, length), (10, 128));
    assert_eq!(known(&G), 30);
    assert_eq!((drawing(&G, 0), tipping(&G, 0)), (5, 15));
    assert_eq!((drawing(&G, 1), tipping(&G, 1)), (7, 33));
    assert_eq!((drawing(&G, 2), tipping(&G, 2)), (8, 32));
    assert_eq!(bounds(&G, 0), (15, 95));
    assert_eq!(bounds(&G, 1), (17, 77));
    assert_eq!(bounds(&G, 2), (18, 78));
}

#[test]
fn g_is_fetched_and_stored() {
    let mut record = [5; 164];
    assert_eq!(fetch(&G, PILE, &mut record[..162]), 8);
    assert_eq!(record, [5; 164]);
    assert_eq!(fetch(&G, PILE, &mut record), 0);
    assert_eq!(record[163], 5);
    let mut expected = [0; 163];
    expected[..3].copy_from_slice(&[3, 10, 110]);
    expected[11..14].copy_from_slice(&[40, 30, 30]);
    expected[19..24].copy_from_slice(&[30, 5, 0, 10, 10]);
    expected[37..39].copy_from_slice(&[1, 4]);
    expected[56] = 2;
    assert_eq!(record[..163], expected);
    let mut book = F;
    assert_eq!(store(&mut book, PILE, &record), 3);
    assert_eq!(store(&mut book, 8, &record), 10);
    assert_eq!(book, F);
    assert_eq!(store(&mut book, PILE, &expected), 0);
    assert_eq!(book, G);
}

#[test]
fn cases_a_to_d() {
    // a: F now 10.
    assert_eq!(known(&F), 10);
    // b: F, desk 0 draws 1: 14.
    let mut book = F;
    assert_eq!(draw(&mut book, 0, PILE, 1), 14);
    assert_eq!(book, F);
    // c: F, desk 0 tips 40: now 50, tip rights 0.
    assert_eq!(tip(&mut book, 0, PILE, 40), 0);
    let mut expected = F;
    expected[42] = 40;
    assert_eq!(book, expected);
    assert_eq!((known(&book), tipping(&book, 0)), (50, 0));
    // d: F, desk 0 tips 41: 14.
    let mut book = F;
    assert_eq!(tip(&mut book, 0, PILE, 41), 14);
    assert_eq!(book, F);
}

#[test]
fn cases_e_to_g() {
    // e: G, desk 0 gives draw 5 to desk 1: draw rights 0 and 12; giving 6: 14.
    let mut book = G;
    assert_eq!(give_draw(&mut book, 0, PILE, 1, 6), 14);
    assert_eq!(book, G);
    assert_eq!(give_draw(&mut book, 0, PILE, 1, 5), 0);
    let mut expected = G;
    expected[54] = 15;
    assert_eq!(book, expected);
    assert_eq!((drawing(&book, 0), drawing(&book, 1)), (0, 12));
    // f: G, desk 0 gives to itself: 12.
    let mut book = G;
    assert_eq!(give_draw(&mut book, 0, PILE, 0, 1), 12);
    assert_eq!(give_tip(&mut book, 0, PILE, 0, 1), 12);
    // g: amounts 0 and 1,001: 13; 1,000 from G: 14.
    for (amount, answer) in [(0, 13), (1_001, 13), (1_000, 14)] {
        assert_eq!(tip(&mut book, 0, PILE, amount), answer);
        assert_eq!(draw(&mut book, 0, PILE, amount), answer);
        assert_eq!(give_draw(&mut book, 0, PILE, 1, amount), answer);
        assert_eq!(give_tip(&mut book, 0, PILE, 1, amount), answer);
    }
    assert_eq!(book, G);
}

#[test]
fn cases_h_to_j() {
    // h: desk 0 takes F into G: G unaltered.
    let mut changed = 9;
    let mut book = G;
    assert_eq!(take(&mut book, &F, 0, &mut changed), 0);
    assert_eq!((book, changed), (G, 0));
    // i: desk 2 takes G into F: 32.
    changed = 9;
    let mut book = F;
    assert_eq!(take(&mut book, &G, 2, &mut changed), 32);
    assert_eq!((book, changed), (F, 9));
    // j: desk 1 takes "F, desk 0 tips 30" into "F, desk 0 tips 10, gives tip 5
    // to desk 1": 31.
    let mut copy = F;
    assert_eq!(tip(&mut copy, 0, PILE, 30), 0);
    let mut own = F;
    assert_eq!(tip(&mut own, 0, PILE, 10), 0);
    assert_eq!(give_tip(&mut own, 0, PILE, 1, 5), 0);
    let before = own;
    assert_eq!(take(&mut own, &copy, 1, &mut changed), 31);
    assert_eq!((own, changed), (before, 9));
    // The rows of desk 0.
    let order = |mine: &[u8], copy: &[u8]| {
        let mut order = 0;
        assert_eq!(compare(&mine[42..74], &copy[42..74], &mut order), 0);
        order
    };
    assert_eq!(order(&own, &copy), 4);
    assert_eq!(order(&F, &G), 3);
    assert_eq!(order(&G, &F), 2);
    assert_eq!(order(&G, &G), 1);
}

#[test]
fn sizes() {
    // 3 bytes: 1; 42 bytes for n = p = 1 read, 41: 3.
    assert_eq!(check(&[1, 1, 1]), 1);
    let mut small = [0; 42];
    assert_eq!(open(1, 1, &[1, 0, 0, 0, 0], &mut small), 0);
    assert_eq!(check(&small), 0);
    assert_eq!(check(&small[..41]), 3);
    // 20,932 bytes for n = 8, p = 32.
    let mut list = Vec::new();
    for number in 1..=32 {
        list.push(number);
        list.extend([0; 18]);
    }
    let mut large = vec![0; 20_932];
    assert_eq!(open(8, 32, &list, &mut large[..20_931]), 8);
    assert_eq!(open(8, 32, &list, &mut large), 0);
    assert_eq!(check(&large), 0);
}

/// Request 3/12's ticket 12345678: desk 0 tips 30 tonnes onto pile 7.
#[test]
fn ticket() {
    let bytes = [
        0x12, 0x34, 0x56, 0x78, 0x00, 0x00, 0x07, 0x00, 0x30, 0x01, 0x00,
    ];
    let mut out = [0; 11];
    assert_eq!(write_ticket(12_345_678, 7, 30, 1, 0, &mut out), 0);
    assert_eq!(out, bytes);
    let mut fields = ([77; 3], [77; 2]);
    let ([number, pile, tonnes], [kind, desk]) = &mut fields;
    assert_eq!(read_ticket(&bytes, number, pile, tonnes, kind, desk), 0);
    assert_eq!(fields, ([12_345_678, 7, 30], [1, 0]));
}

/// Request 4/12: of two lists 1 number alike, 1 differing, 1 only at the
/// bridge and 2 only at the desk.
#[test]
fn bridge_against_desk() {
    let list = |loads: &[(u32, u32)]| {
        let mut list = vec![0; 11 * loads.len()];
        for (&(number, tonnes), out) in loads.iter().zip(list.chunks_mut(11)) {
            assert_eq!(write_ticket(number, 7, tonnes, 1, 0, out), 0);
        }
        list
    };
    let bridge = list(&[(1, 30), (2, 28), (5, 31)]);
    let desk = list(&[(2, 30), (5, 31), (6, 12), (9, 12)]);
    let mut counts = [77; 4];
    let [alike, differing, only_bridge, only_desk] = &mut counts;
    let answer = reconcile(&bridge, &desk, alike, differing, only_bridge, only_desk);
    assert_eq!((answer, counts), (0, [1, 1, 1, 2]));
}
