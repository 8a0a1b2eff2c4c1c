//! The versions that the bench times are under the library's promises: on
//! lawful and on damaged books all three give the same answers and leave the
//! same bytes, and a refused call changes nothing.

#[path = "../benches/bench/plain.rs"]
mod plain;
mod random_books;
#[path = "../benches/bench/specialised.rs"]
mod specialised;
#[path = "../benches/bench/versions.rs"]
mod versions;

use random_books::{Case, Random};
use std::collections::BTreeMap;
use versions::{VERSIONS, Version};

const SEED: u64 = 0x7017_b00c;
const CASES: usize = 30_000;

/// What a call may write: the book and the numbers lent beside it.
#[derive(Clone, PartialEq)]
struct Lent {
    book: Vec<u8>,
    number: u32,
    numbers: Vec<u32>,
    ticket: ([u32; 3], [u8; 2]),
    counts: [u32; 4],
}

/// What is lent for a ticket's fields, which no ticket has.
const NO_TICKET: ([u32; 3], [u8; 2]) = ([u32::MAX; 3], [u8::MAX; 2]);

/// What is lent for the counts of two lists.
const NO_COUNTS: [u32; 4] = [u32::MAX; 4];

/// The answers seen, by function.
type Seen = BTreeMap<&'static str, [u32; 38]>;

/// Makes the call with each version and compares.
fn compare(
    seen: &mut Seen,
    case: usize,
    function: &'static str,
    lent: &Lent,
    call: impl Fn(&Version, &mut Lent) -> u8,
) {
    let [ours, plain, specialised] = VERSIONS.each_ref().map(|version| {
        let mut after = lent.clone();
        let answer = call(version, &mut after);
        let kept = answer == 0 || after == *lent;
        assert!(kept, "{function}, case {case}: {} changed", version.name);
        (answer, after)
    });
    let answers = (ours.0, plain.0, specialised.0);
    let equal = plain == specialised && plain == ours;
    assert!(
        equal,
        "{function}, case {case}: {answers:?} or what was lent"
    );
    seen.entry(function).or_insert([0; 38])[usize::from(plain.0)] += 1;
}

fn compare_all(seen: &mut Seen, k: usize, case: Case) {
    let Case {
        book,
        copy,
        list,
        record,
        desks,
        piles,
        desk,
        pile,
        receiver,
        amount,
        lent_bytes,
        lent_numbers,
    } = case;
    let lent = Lent {
        book,
        number: 0xaaaa_aaaa,
        numbers: vec![0xaaaa_aaaa; lent_numbers],
        ticket: NO_TICKET,
        counts: NO_COUNTS,
    };
    let mut compare = |function, call: &dyn Fn(&Version, &mut Lent) -> u8| {
        compare(seen, k, function, &lent, call);
    };

    compare("check", &|v, l| (v.check)(&l.book));
    compare("tip", &|v, l| (v.tip)(&mut l.book, desk, pile, amount));
    compare("draw", &|v, l| (v.draw)(&mut l.book, desk, pile, amount));
    compare("give draw", &|v, l| {
        (v.give_draw)(&mut l.book, desk, pile, receiver, amount)
    });
    compare("give tip", &|v, l| {
        (v.give_tip)(&mut l.book, desk, pile, receiver, amount)
    });
    compare("take", &|v, l| {
        (v.take)(&mut l.book, &copy, desk, &mut l.number)
    });
    compare("tonnage", &|v, l| (v.tonnage)(&l.book, pile, &mut l.number));
    compare("draw rights", &|v, l| {
        (v.draw_rights)(&l.book, desk, pile, &mut l.number)
    });
    compare("tip rights", &|v, l| {
        (v.tip_rights)(&l.book, desk, pile, &mut l.number)
    });
    compare("least", &|v, l| {
        (v.least)(&l.book, desk, pile, &mut l.number)
    });
    compare("most", &|v, l| (v.most)(&l.book, desk, pile, &mut l.number));
    compare("fetch", &|v, l| (v.fetch)(&l.book, pile, &mut l.numbers));
    compare("store", &|v, l| (v.store)(&mut l.book, pile, &record));
    compare("open", &|v, l| {
        l.book.resize(lent_bytes, 0xaa);
        let before = l.book.clone();
        let answer = (v.open)(desks, piles, &list, &mut l.book);
        if answer != 0 {
            assert!(l.book == before, "open, case {k}: {} changed", v.name);
            l.book.clone_from(&lent.book);
        }
        answer
    });
}

/// Packed bytes with right digits.
fn digits(random: &mut Random, bytes: usize) -> Vec<u8> {
    (0..bytes)
        .map(|_| (random.below(10) << 4 | random.below(10)) as u8)
        .collect()
}

/// A number most often from 1 to the limit.
fn near(random: &mut Random, limit: usize) -> u32 {
    match random.below(16) {
        0 => 0,
        1 => limit as u32 + 1,
        2 => random.below(1 << 32) as u32,
        _ => 1 + random.below(limit) as u32,
    }
}

/// Two rows of 0 to 8 desks that differ in up to two bytes, and sometimes rows
/// of other lengths.
fn compare_rows(seen: &mut Seen, k: usize, random: &mut Random) {
    let length = match random.below(8) {
        0 => random.below(100),
        _ => 8 * (1 + random.below(9)),
    };
    let mine: Vec<u8> = (0..length).map(|_| random.below(256) as u8).collect();
    let mut copy = mine.clone();
    let changes = if length == 0 { 0 } else { random.below(3) };
    for _ in 0..changes {
        copy[random.below(length)] = random.below(256) as u8;
    }
    if random.below(16) == 0 {
        copy.push(0);
    }
    let lent = Lent {
        book: mine,
        number: 0xaaaa_aaaa,
        numbers: Vec::new(),
        ticket: NO_TICKET,
        counts: NO_COUNTS,
    };
    compare(seen, k, "compare", &lent, |v, l| {
        (v.compare)(&l.book, &copy, &mut l.number)
    });
}

/// Bytes that are most often a ticket but for one of them, to be read; then a
/// ticket of numbers near the limits, written over those bytes.
fn compare_tickets(seen: &mut Seen, k: usize, random: &mut Random) {
    let mut bytes = digits(random, 4);
    bytes.push(0);
    bytes.extend(digits(random, 2));
    bytes.push(0);
    bytes.extend(digits(random, 1));
    bytes.extend([1 + random.below(2) as u8, random.below(8) as u8]);
    match random.below(8) {
        0 => bytes.truncate(random.below(11)),
        1 => bytes.push(0),
        2..=4 => bytes[random.below(11)] = random.below(256) as u8,
        _ => {}
    }
    let lent = Lent {
        book: bytes,
        number: 0,
        numbers: Vec::new(),
        ticket: NO_TICKET,
        counts: NO_COUNTS,
    };
    compare(seen, k, "ticket read", &lent, |v, l| {
        let ([number, pile, tonnes], [kind, desk]) = &mut l.ticket;
        (v.read_ticket)(&l.book, number, pile, tonnes, kind, desk)
    });
    let number = near(random, 99_999_999);
    let (pile, tonnes) = (near(random, 65_535), near(random, 1_000));
    let (kind, desk) = (near(random, 2) as u8, near(random, 7) as u8);
    compare(seen, k, "ticket written", &lent, |v, l| {
        (v.write_ticket)(number, pile, tonnes, kind, desk, &mut l.book)
    });
}

/// A list of up to eight tickets, most often lawful and rising by small steps.
fn list(random: &mut Random) -> Vec<u8> {
    let mut list = Vec::new();
    let mut number = random.below(4) as u32;
    for _ in 0..random.below(9) {
        let mut ticket = [0; 11];
        let tonnes = 30 + u32::from(random.below(4) == 0);
        assert_eq!(plain::write_ticket(number, 7, tonnes, 1, 0, &mut ticket), 0);
        list.extend(ticket);
        number += u32::from(random.below(40) != 0) * (1 + random.below(2) as u32);
    }
    match random.below(24) {
        0 => list.truncate(random.below(list.len() + 1)),
        1 => list.push(0),
        2 => list.resize(11 * (4_095 + random.below(3)), 0),
        3..=8 if !list.is_empty() => {
            let at = random.below(list.len());
            list[at] = random.below(256) as u8;
        }
        _ => {}
    }
    list
}

fn compare_lists(seen: &mut Seen, k: usize, random: &mut Random) {
    let (bridge, desk) = (list(random), list(random));
    let lent = Lent {
        book: bridge,
        number: 0,
        numbers: Vec::new(),
        ticket: NO_TICKET,
        counts: NO_COUNTS,
    };
    compare(seen, k, "reconcile", &lent, |v, l| {
        let [alike, differing, only_bridge, only_desk] = &mut l.counts;
        (v.reconcile)(&l.book, &desk, alike, differing, only_bridge, only_desk)
    });
}

/// Every answer of the table, so that no refusal goes without a comparison.
const ANSWERS: [(&str, &[u8]); 18] = [
    ("check", &[0, 1, 2, 3, 4, 5, 6, 7]),
    ("tip", &[0, 1, 2, 3, 4, 5, 6, 7, 10, 11, 13, 14, 15]),
    ("draw", &[0, 1, 2, 3, 4, 5, 6, 7, 10, 11, 13, 14, 15]),
    (
        "give draw",
        &[0, 1, 2, 3, 4, 5, 6, 7, 10, 11, 12, 13, 14, 15],
    ),
    (
        "give tip",
        &[0, 1, 2, 3, 4, 5, 6, 7, 10, 11, 12, 13, 14, 15],
    ),
    (
        "take",
        &[
            0, 1, 2, 3, 4, 5, 6, 7, 11, 21, 22, 23, 24, 25, 26, 27, 30, 31, 32,
        ],
    ),
    ("tonnage", &[0, 1, 2, 3, 4, 5, 6, 7, 10]),
    ("draw rights", &[0, 1, 2, 3, 4, 5, 6, 7, 10, 11]),
    ("tip rights", &[0, 1, 2, 3, 4, 5, 6, 7, 10, 11]),
    ("least", &[0, 1, 2, 3, 4, 5, 6, 7, 10, 11]),
    ("most", &[0, 1, 2, 3, 4, 5, 6, 7, 10, 11]),
    ("fetch", &[0, 1, 2, 3, 4, 5, 6, 7, 8, 10]),
    ("store", &[0, 1, 2, 3, 4, 5, 6, 7, 10, 30]),
    ("open", &[0, 2, 3, 4, 5, 8]),
    ("compare", &[0, 3]),
    ("ticket read", &[0, 3, 13, 33, 34, 35]),
    ("ticket written", &[0, 8, 13, 33, 34, 35]),
    ("reconcile", &[0, 3, 13, 33, 34, 35, 36, 37]),
];

#[test]
fn all_agree_on_random_books() {
    println!("seed {SEED:#x}, {CASES} cases");
    let mut random = Random::new(SEED);
    let mut seen = Seen::new();
    for k in 0..CASES {
        compare_all(&mut seen, k, Case::new(&mut random));
        compare_rows(&mut seen, k, &mut random);
        compare_tickets(&mut seen, k, &mut random);
        compare_lists(&mut seen, k, &mut random);
    }
    for (function, answers) in ANSWERS {
        let counts = seen[function];
        let given: Vec<_> = (0..counts.len()).filter(|&a| counts[a] > 0).collect();
        println!(
            "{function}: {:?}",
            given.iter().map(|&a| (a, counts[a])).collect::<Vec<_>>()
        );
        let wanted: Vec<_> = answers.iter().map(|&a| usize::from(a)).collect();
        assert_eq!(given, wanted, "{function}");
    }
}

/// Document 01's worked book, cases a to j, with every version.
#[test]
fn worked_book() {
    for v in &VERSIONS {
        let mut f = vec![0; 138];
        let list = [7, 10, 110, 0, 0, 0, 40, 30, 30];
        assert_eq!((v.open)(3, 1, &list, &mut f), 0);
        let mut g = f.clone();
        assert_eq!((v.tip)(&mut g, 0, 7, 30), 0);
        assert_eq!((v.tip)(&mut g, 1, 7, 1), 0);
        assert_eq!((v.give_draw)(&mut g, 0, 7, 1, 10), 0);
        assert_eq!((v.give_draw)(&mut g, 0, 7, 2, 10), 0);
        assert_eq!((v.draw)(&mut g, 0, 7, 5), 0);
        assert_eq!((v.draw)(&mut g, 1, 7, 4), 0);
        assert_eq!((v.draw)(&mut g, 2, 7, 2), 0);

        let known = |book: &[u8]| {
            let mut known = 0;
            assert_eq!((v.tonnage)(book, 7, &mut known), 0);
            known
        };
        let rights = |book: &[u8], desk| {
            let (mut draw, mut tip) = (0, 0);
            assert_eq!((v.draw_rights)(book, desk, 7, &mut draw), 0);
            assert_eq!((v.tip_rights)(book, desk, 7, &mut tip), 0);
            (draw, tip)
        };
        let bounds = |desk| {
            let (mut least, mut most) = (0, 0);
            assert_eq!((v.least)(&g, desk, 7, &mut least), 0);
            assert_eq!((v.most)(&g, desk, 7, &mut most), 0);
            (least, most)
        };
        assert_eq!(known(&g), 30);
        let all = [rights(&g, 0), rights(&g, 1), rights(&g, 2)];
        assert_eq!(all, [(5, 15), (7, 33), (8, 32)]);
        assert_eq!([0, 1, 2].map(bounds), [(15, 95), (17, 77), (18, 78)]);

        assert_eq!(known(&f), 10, "a");
        assert_eq!((v.draw)(&mut f.clone(), 0, 7, 1), 14, "b");
        let mut c = f.clone();
        assert_eq!((v.tip)(&mut c, 0, 7, 40), 0, "c");
        assert_eq!((known(&c), rights(&c, 0).1), (50, 0), "c");
        assert_eq!((v.tip)(&mut f.clone(), 0, 7, 41), 14, "d");
        let mut e = g.clone();
        assert_eq!((v.give_draw)(&mut e, 0, 7, 1, 5), 0, "e");
        assert_eq!((rights(&e, 0).0, rights(&e, 1).0), (0, 12), "e");
        assert_eq!((v.give_draw)(&mut g.clone(), 0, 7, 1, 6), 14, "e");
        assert_eq!((v.give_draw)(&mut g.clone(), 0, 7, 0, 5), 12, "f");
        assert_eq!((v.draw)(&mut g.clone(), 0, 7, 0), 13, "g");
        assert_eq!((v.draw)(&mut g.clone(), 0, 7, 1_001), 13, "g");
        assert_eq!((v.draw)(&mut g.clone(), 0, 7, 1_000), 14, "g");
        let (mut h, mut changed) = (g.clone(), 9);
        assert_eq!((v.take)(&mut h, &f, 0, &mut changed), 0, "h");
        assert_eq!((h == g, changed), (true, 0), "h");
        changed = 9;
        assert_eq!((v.take)(&mut f.clone(), &g, 2, &mut changed), 32, "i");
        assert_eq!(changed, 9, "i");
        let (mut own, mut copy) = (f.clone(), f.clone());
        assert_eq!((v.tip)(&mut copy, 0, 7, 30), 0, "j");
        assert_eq!((v.tip)(&mut own, 0, 7, 10), 0, "j");
        assert_eq!((v.give_tip)(&mut own, 0, 7, 1, 5), 0, "j");
        assert_eq!((v.take)(&mut own, &copy, 1, &mut changed), 31, "j");
    }
}
