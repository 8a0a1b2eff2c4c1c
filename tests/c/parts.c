/* What a book hands out: contents, bodies, records, and the later of two rows; then the shortest and the longest book. */
#include <string.h>

#include "expect.h"

void contents_and_bodies(void)
{
    uint8_t book[TWO_PILES_LENGTH];
    uint32_t numbers[3] = {77, 77, 77}, positions[3] = {77, 77, 77};
    size_t start = 77, length = 77;
    open_two_piles(book);
    EXPECT(pit_contents(book, sizeof book, numbers, 1, positions, 3), PIT_BUFFER_SHORT);
    EXPECT(pit_contents(book, sizeof book, numbers, 3, positions, 1), PIT_BUFFER_SHORT);
    EXPECT(numbers[0] == 77 && positions[0] == 77, 1);
    EXPECT(pit_contents(book, sizeof book, numbers, 3, positions, 3), PIT_DONE);
    EXPECT(numbers[0] == 3 && numbers[1] == 500 && numbers[2] == 77, 1);
    EXPECT(positions[0] == 16 && positions[1] == 88 && positions[2] == 77, 1);

    EXPECT(pit_body(book, sizeof book, 4, &start, &length), PIT_PILE_ABSENT);
    EXPECT(start == 77 && length == 77, 1);
    EXPECT(pit_body(book, sizeof book, 500, &start, &length), PIT_DONE);
    EXPECT(start, 88);
    EXPECT(length, PIT_BODY_LENGTH(2));
    EXPECT(book[start], 5);
    passed("contents and bodies: 8 and 10, and what is handed out");
}

/* The site manual's page: how long a body is, for 1 to 8 desks. Head and contents of one pile are 10 bytes. */
void body_lengths(void)
{
    static const size_t page[PIT_DESKS] = {32, 72, 128, 200, 288, 392, 512, 648};
    const uint32_t list[PIT_LIST_NUMBERS(PIT_DESKS, 1)] = {7};
    uint8_t book[PIT_BOOK_LENGTH(PIT_DESKS, 1)];
    for (uint8_t desks = 1; desks <= PIT_DESKS; desks++) {
        size_t body = page[desks - 1], start = 0, length = 0;
        EXPECT(PIT_BODY_LENGTH(desks), body);
        EXPECT(pit_open(desks, 1, list, PIT_LIST_NUMBERS(desks, 1), book, 10 + body - 1), PIT_BUFFER_SHORT);
        EXPECT(pit_open(desks, 1, list, PIT_LIST_NUMBERS(desks, 1), book, 10 + body), PIT_DONE);
        EXPECT(pit_check(book, 10 + body), PIT_DONE);
        EXPECT(pit_body(book, 10 + body, 7, &start, &length), PIT_DONE);
        EXPECT(start, 10);
        EXPECT(length, body);
    }
    passed("the site manual's body lengths, for 1 to 8 desks");
}

static void fetched_and_stored(void)
{
    uint8_t f[WORKED_LENGTH], g[WORKED_LENGTH], book[WORKED_LENGTH];
    uint32_t record[PIT_RECORD_NUMBERS + 1], untouched[PIT_RECORD_NUMBERS + 1];
    open_f(f);
    make_g(g);
    memset(record, 0xa5, sizeof record);
    memset(untouched, 0xa5, sizeof untouched);
    EXPECT(pit_fetch(g, sizeof g, 8, record, 0), PIT_PILE_ABSENT);
    EXPECT(pit_fetch(g, sizeof g, 7, record, PIT_RECORD_NUMBERS - 1), PIT_BUFFER_SHORT);
    EXPECT_BYTES(record, untouched, sizeof record);
    EXPECT(pit_fetch(g, sizeof g, 7, record, PIT_RECORD_NUMBERS + 1), PIT_DONE);
    EXPECT(record[PIT_RECORD_NUMBERS], 0xa5a5a5a5u);

    uint32_t want[PIT_RECORD_NUMBERS] = {0};
    want[PIT_RECORD_DESKS] = 3;
    want[PIT_RECORD_FLOOR] = 10;
    want[PIT_RECORD_TOP] = 110;
    want[PIT_RECORD_TIP_SHARE(0)] = 40;
    want[PIT_RECORD_TIP_SHARE(1)] = 30;
    want[PIT_RECORD_TIP_SHARE(2)] = 30;
    want[PIT_RECORD_TIPPED(0)] = 30;
    want[PIT_RECORD_DRAWN(0)] = 5;
    want[PIT_RECORD_DRAW_GIVE(0, 1)] = 10;
    want[PIT_RECORD_DRAW_GIVE(0, 2)] = 10;
    want[PIT_RECORD_TIPPED(1)] = 1;
    want[PIT_RECORD_DRAWN(1)] = 4;
    want[PIT_RECORD_DRAWN(2)] = 2;
    EXPECT_BYTES(record, want, sizeof want);

    memcpy(book, f, sizeof f);
    EXPECT(pit_store(book, sizeof book, 7, record, PIT_RECORD_NUMBERS), PIT_DONE);
    EXPECT_BYTES(book, g, sizeof g);
    passed("records: G's fetched, and stored into F gives G");
}

/* Ever fewer things wrong: pile, length, number of desks, shares, tallies, rights, the opening. */
static void stores_refused(void)
{
    uint8_t f[WORKED_LENGTH], g[WORKED_LENGTH], book[WORKED_LENGTH];
    uint32_t record[PIT_RECORD_NUMBERS + 1] = {0};
    open_f(f);
    make_g(g);
    EXPECT(pit_fetch(g, sizeof g, 7, record, PIT_RECORD_NUMBERS), PIT_DONE);
    memcpy(book, f, sizeof f);
    record[PIT_RECORD_DESKS] = 256 + 3;
    record[PIT_RECORD_DRAW_SHARE(3)] = 1;
    record[PIT_RECORD_TIP_GIVE(1, 1)] = 1;
    record[PIT_RECORD_DRAWN(2)] = 11;
    record[PIT_RECORD_FLOOR] = 11;
    record[PIT_RECORD_TOP] = 111;
    EXPECT(pit_store(book, sizeof book, 8, record, PIT_RECORD_NUMBERS + 1), PIT_PILE_ABSENT);
    EXPECT(pit_store(book, sizeof book, 7, record, PIT_RECORD_NUMBERS + 1), PIT_LENGTH_WRONG);
    EXPECT(pit_store(book, sizeof book, 7, record, PIT_RECORD_NUMBERS - 1), PIT_LENGTH_WRONG);
    EXPECT(pit_store(book, sizeof book, 7, record, PIT_RECORD_NUMBERS), PIT_HEAD_WRONG);
    record[PIT_RECORD_DESKS] = 3;
    EXPECT(pit_store(book, sizeof book, 7, record, PIT_RECORD_NUMBERS), PIT_OPENING_UNLAWFUL);
    record[PIT_RECORD_DRAW_SHARE(3)] = 0;
    EXPECT(pit_store(book, sizeof book, 7, record, PIT_RECORD_NUMBERS), PIT_TALLY_WRONG);
    record[PIT_RECORD_TIP_GIVE(1, 1)] = 0;
    EXPECT(pit_store(book, sizeof book, 7, record, PIT_RECORD_NUMBERS), PIT_RIGHTS_NEGATIVE);
    record[PIT_RECORD_DRAWN(2)] = 2;
    EXPECT(pit_store(book, sizeof book, 7, record, PIT_RECORD_NUMBERS), PIT_OPENING_DIFFERS);
    /* Of a desk that the book does not have: a share that the others make up for, and a tally. */
    record[PIT_RECORD_TIP_SHARE(2)] = 29;
    record[PIT_RECORD_TIP_SHARE(3)] = 1;
    EXPECT(pit_store(book, sizeof book, 7, record, PIT_RECORD_NUMBERS), PIT_OPENING_UNLAWFUL);
    record[PIT_RECORD_TIP_SHARE(2)] = 30;
    record[PIT_RECORD_TIP_SHARE(3)] = 0;
    record[PIT_RECORD_TIPPED(3)] = 1;
    EXPECT(pit_store(book, sizeof book, 7, record, PIT_RECORD_NUMBERS), PIT_TALLY_WRONG);
    EXPECT_BYTES(book, f, sizeof f);
    passed("stores: 10, 3, 2, 5, 6, 7 and 30, and the book stays");
}

void records(void)
{
    fetched_and_stored();
    stores_refused();
}

/* The row of desk 0 in F, in G and where it acted twice from F; and rows that cannot be compared. */
void compared_rows(void)
{
    uint8_t f[WORKED_LENGTH], g[WORKED_LENGTH], other[WORKED_LENGTH];
    const size_t row = PIT_ROW_LENGTH(3);
    uint32_t order = 0;
    open_f(f);
    make_g(g);
    open_f(other);
    EXPECT(pit_tip(other, sizeof other, 0, 7, 31), PIT_DONE);
    const uint8_t *f0 = f + WORKED_BODY + row;
    const uint8_t *g0 = g + WORKED_BODY + row;
    const uint8_t *other0 = other + WORKED_BODY + row;
    EXPECT(pit_compare(g0, row, g0, row, &order), PIT_DONE);
    EXPECT(order, PIT_ALIKE);
    EXPECT(pit_compare(g0, row, f0, row, &order), PIT_DONE);
    EXPECT(order, PIT_MINE_LATER);
    EXPECT(pit_compare(f0, row, g0, row, &order), PIT_DONE);
    EXPECT(order, PIT_COPY_LATER);
    EXPECT(pit_compare(g0, row, other0, row, &order), PIT_DONE);
    EXPECT(order, PIT_SPLIT);
    passed("rows compared: alike, mine later, the copy's later, split");

    order = 77;
    EXPECT(pit_compare(f0, row, g0, row - 8, &order), PIT_LENGTH_WRONG);
    EXPECT(pit_compare(f0, row - 1, g0, row - 1, &order), PIT_LENGTH_WRONG);
    EXPECT(pit_compare(f0, 8, g0, 8, &order), PIT_LENGTH_WRONG);
    EXPECT(pit_compare(f, PIT_ROW_LENGTH(9), g, PIT_ROW_LENGTH(9), &order), PIT_LENGTH_WRONG);
    EXPECT(pit_compare(f0, 0, g0, 0, &order), PIT_LENGTH_WRONG);
    EXPECT(order, 77);
    passed("rows of two lengths, or of no book's length: 3, and what is lent stays");
}

void shortest_and_longest(void)
{
    uint32_t list[PIT_LIST_NUMBERS(PIT_DESKS, PIT_PILES)] = {0};
    uint8_t book[PIT_BOOK_LONGEST] = {0};
    size_t start = 0, length = 0;
    list[0] = 1;
    EXPECT(pit_open(1, 1, list, PIT_LIST_NUMBERS(1, 1), book, 42), PIT_DONE);
    EXPECT(PIT_BOOK_LENGTH(1, 1), 42);
    EXPECT(pit_check(book, 42), PIT_DONE);
    EXPECT(pit_check(book, 41), PIT_LENGTH_WRONG);
    EXPECT(pit_check(book, 3), PIT_BOOK_SHORT);

    for (uint32_t k = 0; k < PIT_PILES; k++) {
        list[k * 19] = k + 1;
        list[k * 19 + 2] = 9;
        list[k * 19 + 18] = 9;
    }
    EXPECT(PIT_BOOK_LENGTH(PIT_DESKS, PIT_PILES), PIT_BOOK_LONGEST);
    EXPECT(pit_open(PIT_DESKS, PIT_PILES, list, PIT_LIST_NUMBERS(PIT_DESKS, PIT_PILES), book, sizeof book), PIT_DONE);
    EXPECT(pit_check(book, sizeof book), PIT_DONE);
    EXPECT(pit_tip(book, sizeof book, 7, 32, 9), PIT_DONE);
    EXPECT(pit_body(book, sizeof book, 32, &start, &length), PIT_DONE);
    EXPECT(start + length, PIT_BOOK_LONGEST);
    EXPECT(book[PIT_BOOK_LONGEST - PIT_ROW_LENGTH(PIT_DESKS)], 9);
    passed("42 bytes and 20,932 bytes");
}
