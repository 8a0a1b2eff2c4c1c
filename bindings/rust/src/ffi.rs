//! The functions of include/pitbook.h. A slice passes as its pointer and then its length.

unsafe extern "C" {
    pub(crate) fn pit_open(
        desks: u8,
        piles: u8,
        list: *const u32,
        list_length: usize,
        out: *mut u8,
        out_length: usize,
    ) -> u8;

    pub(crate) fn pit_check(book: *const u8, book_length: usize) -> u8;

    pub(crate) fn pit_contents(
        book: *const u8,
        book_length: usize,
        numbers: *mut u32,
        numbers_length: usize,
        positions: *mut u32,
        positions_length: usize,
    ) -> u8;

    pub(crate) fn pit_body(
        book: *const u8,
        book_length: usize,
        pile: u16,
        start: *mut usize,
        length: *mut usize,
    ) -> u8;

    pub(crate) fn pit_tip(
        book: *mut u8,
        book_length: usize,
        desk: u8,
        pile: u16,
        amount: u32,
    ) -> u8;

    pub(crate) fn pit_draw(
        book: *mut u8,
        book_length: usize,
        desk: u8,
        pile: u16,
        amount: u32,
    ) -> u8;

    pub(crate) fn pit_give_draw(
        book: *mut u8,
        book_length: usize,
        desk: u8,
        pile: u16,
        receiver: u8,
        amount: u32,
    ) -> u8;

    pub(crate) fn pit_give_tip(
        book: *mut u8,
        book_length: usize,
        desk: u8,
        pile: u16,
        receiver: u8,
        amount: u32,
    ) -> u8;

    pub(crate) fn pit_take(
        own: *mut u8,
        own_length: usize,
        copy: *const u8,
        copy_length: usize,
        desk: u8,
        changed: *mut u32,
    ) -> u8;

    pub(crate) fn pit_draw_rights(
        book: *const u8,
        book_length: usize,
        desk: u8,
        pile: u16,
        out: *mut u32,
    ) -> u8;

    pub(crate) fn pit_tip_rights(
        book: *const u8,
        book_length: usize,
        desk: u8,
        pile: u16,
        out: *mut u32,
    ) -> u8;

    pub(crate) fn pit_tonnage(book: *const u8, book_length: usize, pile: u16, out: *mut u32) -> u8;

    pub(crate) fn pit_least(
        book: *const u8,
        book_length: usize,
        desk: u8,
        pile: u16,
        out: *mut u32,
    ) -> u8;

    pub(crate) fn pit_most(
        book: *const u8,
        book_length: usize,
        desk: u8,
        pile: u16,
        out: *mut u32,
    ) -> u8;

    pub(crate) fn pit_fetch(
        book: *const u8,
        book_length: usize,
        pile: u16,
        record: *mut u32,
        record_length: usize,
    ) -> u8;

    pub(crate) fn pit_store(
        book: *mut u8,
        book_length: usize,
        pile: u16,
        record: *const u32,
        record_length: usize,
    ) -> u8;

    pub(crate) fn pit_compare(
        mine: *const u8,
        mine_length: usize,
        copy: *const u8,
        copy_length: usize,
        order: *mut u32,
    ) -> u8;

    pub(crate) fn pit_read_ticket(
        bytes: *const u8,
        length: usize,
        number: *mut u32,
        pile: *mut u32,
        tonnes: *mut u32,
        kind: *mut u8,
        desk: *mut u8,
    ) -> u8;

    pub(crate) fn pit_write_ticket(
        number: u32,
        pile: u32,
        tonnes: u32,
        kind: u8,
        desk: u8,
        out: *mut u8,
        out_length: usize,
    ) -> u8;

    pub(crate) fn pit_reconcile(
        bridge: *const u8,
        bridge_length: usize,
        desk: *const u8,
        desk_length: usize,
        alike: *mut u32,
        differing: *mut u32,
        only_bridge: *mut u32,
        only_desk: *mut u32,
    ) -> u8;
}
