/* The refusals by place, each with what stays: books and copies, openings, acts and queries. */
#include <string.h>

#include "expect.h"

/* One byte of G changed, or a length, and the number that every call on the book then answers. */
struct broken {
    size_t length;
    size_t at;
    uint8_t byte;
    uint8_t answer;
};

static const struct broken broken[] = {
    {0, 0, 1, PIT_BOOK_SHORT},
    {3, 0, 1, PIT_BOOK_SHORT},
    {WORKED_LENGTH, 0, 2, PIT_HEAD_WRONG},
    {WORKED_LENGTH, 1, 9, PIT_HEAD_WRONG},
    {WORKED_LENGTH, 2, 0, PIT_HEAD_WRONG},
    {WORKED_LENGTH, 3, 1, PIT_HEAD_WRONG},
    {4, 0, 1, PIT_LENGTH_WRONG},
    {WORKED_LENGTH - 1, 0, 1, PIT_LENGTH_WRONG},
    {WORKED_LENGTH + 1, 0, 1, PIT_LENGTH_WRONG},
    {WORKED_LENGTH, 4, 0, PIT_CONTENTS_WRONG},       /* pile number 0 */
    {WORKED_LENGTH, 6, 11, PIT_CONTENTS_WRONG},      /* position */
    {WORKED_LENGTH, 10, 111, PIT_OPENING_UNLAWFUL},  /* floor above top */
    {WORKED_LENGTH, 38, 31, PIT_OPENING_UNLAWFUL},   /* shares that add up to more than top - floor */
    {WORKED_LENGTH, 45, 0xff, PIT_TALLY_WRONG},      /* tipped above 1,000,000,000 */
    {WORKED_LENGTH, 50, 1, PIT_TALLY_WRONG},         /* a give to oneself */
    {WORKED_LENGTH, 46, 11, PIT_RIGHTS_NEGATIVE},    /* drawn more than the rights held */
};

#define BROKEN (sizeof broken / sizeof broken[0])

static void break_g(const struct broken *b, uint8_t book[WORKED_LENGTH + 1])
{
    make_g(book);
    book[WORKED_LENGTH] = 0;
    book[b->at] = b->byte;
}

void books_refused(void)
{
    for (size_t k = 0; k < BROKEN; k++) {
        uint8_t book[WORKED_LENGTH + 1], before[WORKED_LENGTH + 1];
        uint32_t numbers[1] = {77}, positions[1] = {77}, tonnes = 77, record[PIT_RECORD_NUMBERS] = {77};
        size_t start = 77, length = 77, given = broken[k].length;
        uint8_t answer = broken[k].answer;
        break_g(&broken[k], book);
        memcpy(before, book, sizeof book);
        EXPECT(pit_check(book, given), answer);
        /* The book's own refusal comes before all others: here desk, pile, receiver, amount and lengths are wrong too. */
        EXPECT(pit_contents(book, given, numbers, 0, positions, 0), answer);
        EXPECT(pit_body(book, given, 8, &start, &length), answer);
        EXPECT(pit_tip(book, given, 3, 8, 0), answer);
        EXPECT(pit_draw(book, given, 3, 8, 0), answer);
        EXPECT(pit_give_draw(book, given, 3, 8, 3, 0), answer);
        EXPECT(pit_give_tip(book, given, 3, 8, 3, 0), answer);
        EXPECT(pit_take(book, given, (const uint8_t *)"", 0, 3, &tonnes), answer);
        EXPECT(pit_draw_rights(book, given, 3, 8, &tonnes), answer);
        EXPECT(pit_tip_rights(book, given, 3, 8, &tonnes), answer);
        EXPECT(pit_tonnage(book, given, 8, &tonnes), answer);
        EXPECT(pit_least(book, given, 3, 8, &tonnes), answer);
        EXPECT(pit_most(book, given, 3, 8, &tonnes), answer);
        EXPECT(pit_fetch(book, given, 8, record, 0), answer);
        EXPECT(pit_store(book, given, 8, record, 0), answer);
        EXPECT_BYTES(book, before, sizeof book);
        EXPECT(numbers[0] == 77 && positions[0] == 77 && start == 77 && length == 77 && tonnes == 77 && record[0] == 77, 1);
    }
    passed("book bytes: 1 to 7, by every function, and nothing lent is altered");
}

void copies_refused(void)
{
    uint8_t g[WORKED_LENGTH], book[WORKED_LENGTH], copy[WORKED_LENGTH + 1];
    uint32_t changed = 77;
    make_g(g);
    memcpy(book, g, sizeof g);
    for (size_t k = 0; k < BROKEN; k++) {
        break_g(&broken[k], copy);
        EXPECT(pit_take(book, sizeof book, copy, broken[k].length, 3, &changed), broken[k].answer + 20);
    }
    EXPECT_BYTES(book, g, sizeof g);
    EXPECT(changed, 77);
    passed("a copy's bytes: 21 to 27, and the own book stays");
}

void openings_refused(void)
{
    static const uint32_t list[] = {7, 0, 10, 4, 6, 7, 0, 10, 4, 6};
    uint32_t risen[10];
    uint8_t book[1 + PIT_BOOK_LENGTH(1, 2)], before[sizeof book];
    memset(book, 0xa5, sizeof book);
    memcpy(before, book, sizeof book);
    memcpy(risen, list, sizeof list);
    risen[5] = 8;
    EXPECT(pit_open(0, 2, list, 9, book, 0), PIT_HEAD_WRONG);
    EXPECT(pit_open(9, 2, list, 9, book, 0), PIT_HEAD_WRONG);
    EXPECT(pit_open(1, 0, list, 9, book, 0), PIT_HEAD_WRONG);
    EXPECT(pit_open(1, 33, list, 9, book, 0), PIT_HEAD_WRONG);
    EXPECT(pit_open(1, 2, list, 9, book, 0), PIT_LENGTH_WRONG);
    EXPECT(pit_open(1, 2, list, 10, book, 0), PIT_CONTENTS_WRONG);
    risen[7] = 11;
    EXPECT(pit_open(1, 2, risen, 10, book, 0), PIT_OPENING_UNLAWFUL);
    risen[7] = PIT_TOP_LIMIT + 1;
    risen[8] = PIT_TOP_LIMIT - 5;
    EXPECT(pit_open(1, 2, risen, 10, book, 0), PIT_OPENING_UNLAWFUL);
    risen[7] = 10;
    risen[8] = 4;
    risen[5] = 65536;
    EXPECT(pit_open(1, 2, risen, 10, book, 0), PIT_CONTENTS_WRONG);
    risen[5] = 65535;
    EXPECT(pit_open(1, 2, risen, 10, book, sizeof book - 2), PIT_BUFFER_SHORT);
    EXPECT_BYTES(book, before, sizeof book);
    EXPECT(pit_open(1, 2, risen, 10, book, sizeof book), PIT_DONE);
    EXPECT(pit_check(book, sizeof book - 1), PIT_DONE);
    EXPECT(book[sizeof book - 1], 0xa5);
    passed("openings: 2, 3, 4, 5 and 8, and the byte past the book stays");
}

/* The four acts with ever fewer things wrong: desk, pile, receiver, amount, rights. */
static void refused_in_order(void)
{
    uint8_t g[WORKED_LENGTH], book[WORKED_LENGTH];
    make_g(g);
    memcpy(book, g, sizeof g);
    EXPECT(pit_tip(book, sizeof book, 3, 8, 0), PIT_DESK_ABSENT);
    EXPECT(pit_tip(book, sizeof book, 0, 8, 0), PIT_PILE_ABSENT);
    EXPECT(pit_tip(book, sizeof book, 0, 7, 0), PIT_AMOUNT_WRONG);
    EXPECT(pit_tip(book, sizeof book, 0, 7, 16), PIT_RIGHTS_SHORT);
    EXPECT(pit_draw(book, sizeof book, 255, 8, 0), PIT_DESK_ABSENT);
    EXPECT(pit_draw(book, sizeof book, 0, 65535, 0), PIT_PILE_ABSENT);
    EXPECT(pit_draw(book, sizeof book, 0, 7, 4294967295u), PIT_AMOUNT_WRONG);
    EXPECT(pit_draw(book, sizeof book, 0, 7, 6), PIT_RIGHTS_SHORT);
    EXPECT(pit_give_draw(book, sizeof book, 3, 8, 3, 0), PIT_DESK_ABSENT);
    EXPECT(pit_give_draw(book, sizeof book, 0, 8, 3, 0), PIT_PILE_ABSENT);
    EXPECT(pit_give_draw(book, sizeof book, 0, 7, 3, 0), PIT_RECEIVER_WRONG);
    EXPECT(pit_give_draw(book, sizeof book, 0, 7, 1, 0), PIT_AMOUNT_WRONG);
    EXPECT(pit_give_tip(book, sizeof book, 3, 8, 3, 0), PIT_DESK_ABSENT);
    EXPECT(pit_give_tip(book, sizeof book, 0, 8, 3, 0), PIT_PILE_ABSENT);
    EXPECT(pit_give_tip(book, sizeof book, 0, 7, 255, 0), PIT_RECEIVER_WRONG);
    EXPECT(pit_give_tip(book, sizeof book, 0, 7, 1, 16), PIT_RIGHTS_SHORT);
    EXPECT_BYTES(book, g, sizeof g);
    uint32_t tonnes = 77;
    EXPECT(pit_draw_rights(book, sizeof book, 3, 8, &tonnes), PIT_DESK_ABSENT);
    EXPECT(pit_draw_rights(book, sizeof book, 0, 8, &tonnes), PIT_PILE_ABSENT);
    EXPECT(pit_tip_rights(book, sizeof book, 3, 8, &tonnes), PIT_DESK_ABSENT);
    EXPECT(pit_tip_rights(book, sizeof book, 0, 8, &tonnes), PIT_PILE_ABSENT);
    EXPECT(pit_tonnage(book, sizeof book, 8, &tonnes), PIT_PILE_ABSENT);
    EXPECT(tonnes, 77);
}

/* 15: a tally of 999,999,990 with rights to spare takes 10 tonnes more, and not 11. */
static void refused_at_the_limit(void)
{
    uint8_t book[WORKED_LENGTH], before[WORKED_LENGTH];
    uint32_t record[PIT_RECORD_NUMBERS] = {0};
    open_f(book);
    EXPECT(pit_fetch(book, sizeof book, 7, record, PIT_RECORD_NUMBERS), PIT_DONE);
    record[PIT_RECORD_TIPPED(0)] = PIT_TALLY_LIMIT - 10;
    record[PIT_RECORD_DRAWN(0)] = PIT_TALLY_LIMIT - 10;
    EXPECT(pit_store(book, sizeof book, 7, record, PIT_RECORD_NUMBERS), PIT_DONE);
    memcpy(before, book, sizeof book);
    EXPECT(pit_tip(book, sizeof book, 0, 7, 11), PIT_LIMIT_REACHED);
    EXPECT_BYTES(book, before, sizeof book);
    EXPECT(pit_tip(book, sizeof book, 0, 7, 10), PIT_DONE);
    EXPECT(tonnage_of(book), 20);
}

void acts_refused(void)
{
    refused_in_order();
    refused_at_the_limit();
    passed("acts and queries: 10 to 15 in the table's order, and the book stays");
}
