//! Times the library beside a plain and a specialised Rust version of the same
//! functions, under the same promises and on the same buffers.
//!
//!     cargo bench --bench bench            a table in Markdown
//!     cargo bench --bench bench -- take    lines with "take" in their name
//!     cargo bench --bench bench -- 8x32    lines for eight desks, 32 piles
//!
//! First all three must agree on every prepared input.

mod books;
mod clock;
mod plain;
mod specialised;
mod versions;

use books::{Books, Size};
use clock::{Clock, Lent, Timing, Timings};
use versions::{VERSIONS, Version};

const SIZES: [Size; 5] = [
    Size { desks: 1, piles: 1 },
    Size { desks: 3, piles: 1 },
    Size { desks: 3, piles: 8 },
    Size { desks: 6, piles: 8 },
    Size {
        desks: 8,
        piles: 32,
    },
];

/// What is done with each case: first all are compared, then those wanted are
/// timed.
enum Pass {
    Agree,
    Time { filter: String },
}

impl Pass {
    /// A case on a book of a size.
    fn case(
        &self,
        name: &str,
        size: &Size,
        book: &[u8],
        changes: bool,
        answer: u8,
        call: impl Fn(&Version, &mut [u8], &mut Lent) -> u8,
    ) {
        let name = format!("{name}, {} × {}", size.desks, size.piles);
        self.named(&name, book, changes, answer, call);
    }

    /// A case: its name, its book, ticket or lists, whether it changes those bytes,
    /// the answer it has to give, and the call.
    fn named(
        &self,
        name: &str,
        book: &[u8],
        changes: bool,
        answer: u8,
        call: impl Fn(&Version, &mut [u8], &mut Lent) -> u8,
    ) {
        // Nothing that a call should write is there already.
        let lent = Lent {
            number: u32::MAX,
            record: [u32::MAX; 163],
            ticket: ([u32::MAX; 3], [u8::MAX; 2]),
            counts: [u32::MAX; 4],
        };
        match self {
            Pass::Agree => agree(name, book, lent, changes, answer, call),
            Pass::Time { filter } if name.replace(" × ", "x").contains(filter) => {
                let timings = Clock::new(book, lent, changes, call).time();
                line(name, book.len(), timings);
            }
            Pass::Time { .. } => {}
        }
    }
}

fn agree(
    name: &str,
    book: &[u8],
    lent: Lent,
    changes: bool,
    answer: u8,
    call: impl Fn(&Version, &mut [u8], &mut Lent) -> u8,
) {
    let [ours, plain, specialised] = VERSIONS.each_ref().map(|version| {
        let (mut after, mut lent) = (book.to_vec(), lent.clone());
        let given = call(version, &mut after, &mut lent);
        assert_eq!(given, answer, "{name}: {}", version.name);
        assert_eq!(after != book, changes, "{name}: {}", version.name);
        (after, lent)
    });
    assert!(plain == specialised, "{name}: specialised differs");
    assert!(plain == ours, "{name}: ours differs");
}

fn cases(pass: &Pass, size: &Size) {
    let (desk, pile) = (size.desk(), size.pile());
    let Books {
        older,
        newer,
        newer_elsewhere,
        short,
    } = books::prepare(size);
    let mut record = [0; 163];
    assert_eq!(plain::fetch(&newer, pile, &mut record), 0);

    pass.case("check", size, &newer, false, 0, |v, book, _| {
        (v.check)(book)
    });
    pass.case("tip, accepted", size, &newer, true, 0, |v, book, _| {
        (v.tip)(book, desk, pile, 1_000)
    });
    pass.case("tip, refused", size, &short, false, 14, |v, book, _| {
        (v.tip)(book, desk, pile, 1_000)
    });
    // A single desk has no row that a copy may have later.
    if size.desks > 1 {
        pass.case("take, all rows", size, &older, true, 0, |v, book, lent| {
            (v.take)(book, &newer_elsewhere, desk, &mut lent.number)
        });
    }
    pass.case("take, no row", size, &newer, false, 0, |v, book, lent| {
        (v.take)(book, &older, desk, &mut lent.number)
    });
    pass.case("fetch", size, &newer, false, 0, |v, book, lent| {
        (v.fetch)(book, pile, &mut lent.record)
    });
    pass.case("store", size, &older, true, 0, |v, book, _| {
        (v.store)(book, pile, &record)
    });
    pass.case("tonnage", size, &newer, false, 0, |v, book, lent| {
        (v.tonnage)(book, pile, &mut lent.number)
    });
    pass.case("draw rights", size, &newer, false, 0, |v, book, lent| {
        (v.draw_rights)(book, desk, pile, &mut lent.number)
    });
    pass.case("least", size, &newer, false, 0, |v, book, lent| {
        (v.least)(book, desk, pile, &mut lent.number)
    });
}

/// Two rows, one behind the other, of 1, 3 and 8 desks: the copy's later at its
/// last place; and two of no book's length.
fn rows(pass: &Pass) {
    let call = |v: &Version, rows: &mut [u8], lent: &mut Lent| {
        let (mine, copy) = rows.split_at(rows.len() / 2);
        (v.compare)(mine, copy, &mut lent.number)
    };
    for desks in [1, 3, 8] {
        let length = 8 * (desks + 1);
        let mut rows = [3, 0, 0, 0].repeat(length / 2);
        rows[2 * length - 4] = 4;
        let name = format!("rows of {desks}");
        pass.named(&format!("{name}, compared"), &rows, false, 0, call);
    }
    pass.named("rows refused", &[0; 160], false, 3, call);
}

/// Tickets, which have no desks and piles: one that is read, one whose desk is
/// refused, and one that is written.
fn tickets(pass: &Pass) {
    const BYTES: [u8; 11] = [
        0x12, 0x34, 0x56, 0x78, 0x00, 0x43, 0x21, 0x09, 0x87, 0x01, 0x05,
    ];
    let mut wrong = BYTES;
    wrong[10] = 8;
    let read = |v: &Version, bytes: &mut [u8], lent: &mut Lent| {
        let ([number, pile, tonnes], [kind, desk]) = &mut lent.ticket;
        (v.read_ticket)(bytes, number, pile, tonnes, kind, desk)
    };
    pass.named("ticket read", &BYTES, false, 0, read);
    pass.named("ticket refused", &wrong, false, 35, read);
    pass.named("ticket written", &[0; 11], true, 0, |v, out, _| {
        (v.write_ticket)(12_345_678, 4_321, 987, 1, 5, out)
    });
}

/// So many tickets with rising numbers: of every eight numbers one is left out,
/// and another's ticket has so many tonnes more.
fn list(count: usize, left_out: u32, more: u32) -> Vec<u8> {
    let numbers = (0..).filter(|number| number % 8 != left_out);
    let written = |number: u32| {
        let tonnes = if number % 8 == 5 { 30 + more } else { 30 };
        let mut ticket = [0; 11];
        let answer = plain::write_ticket(12_300_000 + number, 4_321, tonnes, 1, 5, &mut ticket);
        assert_eq!(answer, 0);
        ticket
    };
    numbers.take(count).flat_map(written).collect()
}

/// The bridge's list and then the desk's, in one buffer; then the same with the
/// bridge's first ticket in place of its last.
fn reconciliations(pass: &Pass) {
    for count in [1, 64, 4_096] {
        let middle = 11 * count;
        let call = |v: &Version, lists: &mut [u8], lent: &mut Lent| {
            let (bridge, desk) = lists.split_at(middle);
            let [alike, differing, only_bridge, only_desk] = &mut lent.counts;
            (v.reconcile)(bridge, desk, alike, differing, only_bridge, only_desk)
        };
        let mut lists = [list(count, 3, 0), list(count, 6, 1)].concat();
        let name = format!("reconcile {count}");
        pass.named(&name, &lists, false, 0, call);
        if count > 1 {
            lists.copy_within(..11, middle - 11);
            pass.named(&format!("{name}, refused"), &lists, false, 36, call);
        }
    }
}

fn line(name: &str, length: usize, timings: Timings) {
    let cell = |timing: &Timing| {
        let spread = format!("({:.0} %)", 100.0 * timing.spread);
        format!("{:.1} {spread:>6}", timing.median)
    };
    let [ours, plain, specialised] = &timings.each;
    let [by_plain, by_specialised] = timings.ratios;
    println!(
        "| {name:<22} | {:>16} | {:>16} | {:>16} | {by_plain:>10.2} | {by_specialised:>16.2} | {:>9.3} |",
        cell(ours),
        cell(plain),
        cell(specialised),
        ours.median / length as f64,
    );
}

fn main() {
    for size in &SIZES {
        cases(&Pass::Agree, size);
    }
    rows(&Pass::Agree);
    tickets(&Pass::Agree);
    reconciliations(&Pass::Agree);
    println!("All three versions agree on the prepared inputs.\n");
    if cfg!(debug_assertions) {
        println!("Not timed: this is not a release build.");
        return;
    }

    // Cargo passes flags of its own; the first other argument is the filter.
    let filter = std::env::args().skip(1).find(|arg| !arg.starts_with('-'));
    let pass = Pass::Time {
        filter: filter.unwrap_or_default(),
    };
    println!("Nanoseconds a call, by desks × piles: median (interquartile range).");
    println!(
        "Ratios are medians over rounds; a byte is one of the book, both rows, the ticket or both lists.\n"
    );
    println!("| call | ours | plain | specialised | ours/plain | ours/specialised | ns a byte |");
    println!("|---|--:|--:|--:|--:|--:|--:|");
    for size in &SIZES {
        cases(&pass, size);
    }
    rows(&pass);
    tickets(&pass);
    reconciliations(&pass);
}
