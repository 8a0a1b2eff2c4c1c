//! Memory: every lent place lies right before an inaccessible page, then right
//! after one, so that a byte read or written outside faults. What the library
//! answers and leaves behind must be what the model does.
//!
//! For Linux on x86-64. PITBOOK_SEED sets the seed.
#![cfg(all(target_os = "linux", target_arch = "x86_64"))]

mod model;
mod support;

use std::cell::Cell;
use std::ffi::c_void;
use std::io::Write;
use support::places::{Case, Lent, Slices};
use support::places::{LIBRARY, MODEL, PLACES};
use support::{case, from_environment, judge, say, seed};

/// Cases of each place, run on either side of the fence, if
/// PITBOOK_GUARDED_CASES is not set.
const CASES: u64 = 500;

/// Room for the largest lent place, in whole pages.
const ROOM: usize = 64 * 1024;
/// Inaccessible bytes on each side of the room.
const FENCE: usize = 1024 * 1024;

const PROT_NONE: i32 = 0;
const PROT_READ_WRITE: i32 = 1 | 2;
const MAP_PRIVATE_ANONYMOUS: i32 = 0x02 | 0x20;
const SIGSEGV: i32 = 11;
const STANDARD_ERROR: i32 = 2;

unsafe extern "C" {
    fn mmap(
        address: *mut c_void,
        length: usize,
        protection: i32,
        flags: i32,
        file: i32,
        offset: i64,
    ) -> *mut c_void;
    fn mprotect(address: *mut c_void, length: usize, protection: i32) -> i32;
    fn signal(number: i32, handler: extern "C" fn(i32)) -> usize;
    fn write(file: i32, bytes: *const c_void, count: usize) -> isize;
    fn _exit(status: i32) -> !;
}

/// Where a lent place lies in its room.
#[derive(Clone, Copy, Debug)]
enum Side {
    /// Its last byte is the last before the fence.
    BeforeTheFence,
    /// Its first byte is the first after the fence.
    AfterTheFence,
}

/// A room with a fence on both sides. It stays mapped until the tests end.
struct Fenced {
    room: *mut u8,
}

impl Fenced {
    fn new() -> Fenced {
        let length = ROOM + 2 * FENCE;
        // SAFETY: a fresh anonymous mapping at an address of the system's
        // choice touches no memory in use.
        let whole = unsafe {
            mmap(
                std::ptr::null_mut(),
                length,
                PROT_NONE,
                MAP_PRIVATE_ANONYMOUS,
                -1,
                0,
            )
        };
        assert_ne!(whole as isize, -1, "no memory to be had");
        let room = whole.cast::<u8>().wrapping_add(FENCE);
        // SAFETY: the room lies within the mapping, in whole pages.
        let answer = unsafe { mprotect(room.cast(), ROOM, PROT_READ_WRITE) };
        assert_eq!(answer, 0, "the room cannot be opened");
        Fenced { room }
    }

    /// Puts the values at that side of the room and lends them there.
    fn lend<T: Copy>(&mut self, side: Side, values: &[T]) -> &mut [T] {
        let length = size_of_val(values);
        assert!(length <= ROOM);
        let place = match side {
            Side::BeforeTheFence => self.room.wrapping_add(ROOM - length),
            Side::AfterTheFence => self.room,
        };
        let place = place.cast::<T>();
        // SAFETY: the place is in the room, has the room it needs and is
        // aligned, as the room starts and ends with a page and the length is a
        // whole number of values; nothing else refers to it while it is lent.
        unsafe {
            std::ptr::copy_nonoverlapping(values.as_ptr(), place, values.len());
            std::slice::from_raw_parts_mut(place, values.len())
        }
    }
}

thread_local! {
    /// The place, the seed and the number of the case under way.
    static UNDER_WAY: Cell<(&'static str, u64, u64)> = const { Cell::new(("nothing", 0, 0)) };
}

/// Says which case faulted, and ends.
extern "C" fn faulted(_: i32) {
    let (place, seed, number) = UNDER_WAY.get();
    let mut text = [0; 200];
    let mut rest = &mut text[..];
    let _ = writeln!(
        rest,
        "{place}, PITBOOK_SEED={seed}, case {number}: a byte outside was read or written"
    );
    let count = 200 - rest.len();
    // SAFETY: the text has that many bytes; the process ends at once.
    unsafe {
        write(STANDARD_ERROR, text.as_ptr().cast(), count);
        _exit(101)
    }
}

fn watch_for_faults() {
    // SAFETY: the handler writes a text of its own and ends the process.
    unsafe { signal(SIGSEGV, faulted) };
}

/// A room for each lent place of a call.
struct Rooms {
    book: Fenced,
    copy: Fenced,
    numbers: Fenced,
    positions: Fenced,
    sizes: Fenced,
}

impl Rooms {
    fn new() -> Rooms {
        Rooms {
            book: Fenced::new(),
            copy: Fenced::new(),
            numbers: Fenced::new(),
            positions: Fenced::new(),
            sizes: Fenced::new(),
        }
    }

    /// Runs the library on the case with everything lent at that side.
    fn outcome(&mut self, side: Side, case: &Case) -> support::Outcome {
        let book = self.book.lend(side, &case.lent.book);
        let copy = self.copy.lend(side, &case.lent.copy);
        let numbers = self.numbers.lend(side, &case.lent.numbers);
        let positions = self.positions.lend(side, &case.lent.positions);
        let sizes = self.sizes.lend(side, &case.lent.sizes);
        let slices = Slices {
            book: &mut *book,
            copy: &mut *copy,
            numbers: &mut *numbers,
            positions: &mut *positions,
            sizes: &mut *sizes,
        };
        let answer = LIBRARY.call(case, slices);
        let lent = Lent {
            book: book.to_vec(),
            copy: copy.to_vec(),
            numbers: numbers.to_vec(),
            positions: positions.to_vec(),
            sizes: sizes.to_vec(),
        };
        support::Outcome { answer, lent }
    }
}

fn run(side: Side) {
    watch_for_faults();
    let seed = seed();
    let count = from_environment("PITBOOK_GUARDED_CASES", CASES);
    say(&format!(
        "{side:?}: {count} calls of each place, PITBOOK_SEED={seed}"
    ));
    let mut rooms = Rooms::new();
    for place in PLACES {
        for number in 0..count {
            let case = case(place, seed, number);
            let expected = MODEL.outcome(&case);
            UNDER_WAY.set((place.name(), seed, number));
            let found = rooms.outcome(side, &case);
            UNDER_WAY.set(("nothing", seed, 0));
            judge(&case, seed, number, &expected, &found);
        }
    }
}

#[test]
fn right_before_an_inaccessible_page() {
    run(Side::BeforeTheFence);
}

#[test]
fn right_after_an_inaccessible_page() {
    run(Side::AfterTheFence);
}

/// The fence itself, tried in a process of its own, which must fault.
#[test]
fn the_fence_holds() {
    for name in ["touches_the_fence_behind", "touches_the_fence_ahead"] {
        let program = std::env::current_exe().expect("the test knows its program");
        let output = std::process::Command::new(program)
            .args(["--exact", "--ignored", "--nocapture", name])
            .output()
            .expect("the test can be started again");
        let text = String::from_utf8_lossy(&output.stderr);
        assert_eq!(output.status.code(), Some(101), "{name} did not fault");
        assert!(text.contains("a byte outside was read or written"));
    }
}

#[test]
#[ignore = "faults; run by the_fence_holds"]
fn touches_the_fence_behind() {
    watch_for_faults();
    let mut room = Fenced::new();
    let lent = room.lend(Side::BeforeTheFence, &[1u8, 2, 3]);
    // SAFETY: none; the read is to fault.
    let outside = unsafe { lent.as_ptr().wrapping_add(3).read_volatile() };
    println!("{outside} was read");
    unreachable_without_a_fault();
}

#[test]
#[ignore = "faults; run by the_fence_holds"]
fn touches_the_fence_ahead() {
    watch_for_faults();
    let mut room = Fenced::new();
    let lent = room.lend(Side::AfterTheFence, &[1u8, 2, 3]);
    // SAFETY: none; the write is to fault.
    unsafe { lent.as_mut_ptr().wrapping_sub(1).write_volatile(0) };
    unreachable_without_a_fault();
}

/// Ends well, which the caller takes for a failure.
fn unreachable_without_a_fault() {
    std::process::exit(0);
}
