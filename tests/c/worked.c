/* The worked book of document 01 through the C functions: its bytes, its listing, cases a to j; then the other groups. */
#include <string.h>

#include "expect.h"

/* The bytes that differ from 0, by document 01's layout: head, contents, then four rows of eight numbers. */
static const uint8_t f_bytes[WORKED_LENGTH] = {
    1, 3, 1, 0, 7, 0, 10, 0, 0, 0,
    [10] = 10, [14] = 110,              /* floor, top */
    [30] = 40, [34] = 30, [38] = 30,    /* tip shares */
};

static const uint8_t g_bytes[WORKED_LENGTH] = {
    1, 3, 1, 0, 7, 0, 10, 0, 0, 0,
    [10] = 10, [14] = 110,
    [30] = 40, [34] = 30, [38] = 30,
    [42] = 30, [46] = 5, [54] = 10, [58] = 10,    /* desk 0: tipped, drawn, draw gives to 1 and 2 */
    [74] = 1, [78] = 4,                           /* desk 1: tipped, drawn */
    [110] = 2,                                    /* desk 2: drawn */
};

static void worked_books(void)
{
    uint8_t book[WORKED_LENGTH + 2];
    memset(book, 0xa5, sizeof book);
    open_f(book);
    EXPECT_BYTES(book, f_bytes, WORKED_LENGTH);
    make_g(book);
    EXPECT_BYTES(book, g_bytes, WORKED_LENGTH);
    EXPECT(pit_check(book, WORKED_LENGTH), PIT_DONE);
    EXPECT(book[WORKED_LENGTH], 0xa5);
    EXPECT(tonnage_of(book), 30);
    static const uint32_t draw[] = {5, 7, 8};
    static const uint32_t tip[] = {15, 33, 32};
    for (uint8_t desk = 0; desk < 3; desk++) {
        EXPECT(draw_rights_of(book, desk), draw[desk]);
        EXPECT(tip_rights_of(book, desk), tip[desk]);
    }
    passed("F and G, byte for byte, and what G lists");
}

/* a to d: acts on F. */
static void cases_on_f(void)
{
    uint8_t f[WORKED_LENGTH], book[WORKED_LENGTH];
    open_f(f);
    EXPECT(tonnage_of(f), 10);
    passed("a: F known 10");

    memcpy(book, f, sizeof f);
    EXPECT(pit_draw(book, sizeof book, 0, WORKED_PILE, 1), PIT_RIGHTS_SHORT);
    EXPECT_BYTES(book, f, sizeof f);
    passed("b: F, desk 0 draws 1: 14");

    EXPECT(pit_tip(book, sizeof book, 0, WORKED_PILE, 40), PIT_DONE);
    EXPECT(tonnage_of(book), 50);
    EXPECT(tip_rights_of(book, 0), 0);
    passed("c: F, desk 0 tips 40: known 50, tip rights 0");

    memcpy(book, f, sizeof f);
    EXPECT(pit_tip(book, sizeof book, 0, WORKED_PILE, 41), PIT_RIGHTS_SHORT);
    EXPECT_BYTES(book, f, sizeof f);
    passed("d: F, desk 0 tips 41: 14");
}

/* e to g: gives and amounts on G. */
static void cases_on_g(void)
{
    uint8_t g[WORKED_LENGTH], book[WORKED_LENGTH];
    make_g(g);
    memcpy(book, g, sizeof g);
    EXPECT(pit_give_draw(book, sizeof book, 0, WORKED_PILE, 1, 6), PIT_RIGHTS_SHORT);
    EXPECT_BYTES(book, g, sizeof g);
    EXPECT(pit_give_draw(book, sizeof book, 0, WORKED_PILE, 1, 5), PIT_DONE);
    EXPECT(draw_rights_of(book, 0), 0);
    EXPECT(draw_rights_of(book, 1), 12);
    passed("e: G, desk 0 gives draw 5 to desk 1: draw rights 0 and 12; giving 6: 14");

    memcpy(book, g, sizeof g);
    EXPECT(pit_give_draw(book, sizeof book, 0, WORKED_PILE, 0, 1), PIT_RECEIVER_WRONG);
    EXPECT(pit_give_tip(book, sizeof book, 0, WORKED_PILE, 0, 1), PIT_RECEIVER_WRONG);
    EXPECT_BYTES(book, g, sizeof g);
    passed("f: G, desk 0 gives to itself: 12");

    static const uint32_t amounts[] = {0, 1001, 1000};
    static const uint8_t answers[] = {PIT_AMOUNT_WRONG, PIT_AMOUNT_WRONG, PIT_RIGHTS_SHORT};
    for (int k = 0; k < 3; k++) {
        EXPECT(pit_tip(book, sizeof book, 0, WORKED_PILE, amounts[k]), answers[k]);
        EXPECT(pit_draw(book, sizeof book, 0, WORKED_PILE, amounts[k]), answers[k]);
        EXPECT(pit_give_draw(book, sizeof book, 0, WORKED_PILE, 1, amounts[k]), answers[k]);
        EXPECT(pit_give_tip(book, sizeof book, 0, WORKED_PILE, 1, amounts[k]), answers[k]);
    }
    EXPECT_BYTES(book, g, sizeof g);
    passed("g: amounts 0 and 1,001: 13; 1,000 from G: 14");
}

/* h to j: takes. */
static void cases_of_takes(void)
{
    uint8_t f[WORKED_LENGTH], g[WORKED_LENGTH], book[WORKED_LENGTH], before[WORKED_LENGTH], copy[WORKED_LENGTH];
    uint32_t changed = 77;
    open_f(f);
    make_g(g);
    memcpy(book, g, sizeof g);
    EXPECT(pit_take(book, sizeof book, f, sizeof f, 0, &changed), PIT_DONE);
    EXPECT_BYTES(book, g, sizeof g);
    EXPECT(changed, 0);
    passed("h: desk 0 takes F into G: G unaltered");

    memcpy(book, f, sizeof f);
    changed = 77;
    EXPECT(pit_take(book, sizeof book, g, sizeof g, 2, &changed), PIT_OWN_ROW_BEHIND);
    EXPECT_BYTES(book, f, sizeof f);
    passed("i: desk 2 takes G into F: 32");

    EXPECT(pit_tip(book, sizeof book, 0, WORKED_PILE, 10), PIT_DONE);
    EXPECT(pit_give_tip(book, sizeof book, 0, WORKED_PILE, 1, 5), PIT_DONE);
    memcpy(before, book, sizeof book);
    memcpy(copy, f, sizeof f);
    EXPECT(pit_tip(copy, sizeof copy, 0, WORKED_PILE, 30), PIT_DONE);
    EXPECT(pit_take(book, sizeof book, copy, sizeof copy, 1, &changed), PIT_ROWS_SPLIT);
    EXPECT_BYTES(book, before, sizeof book);
    EXPECT(changed, 77);
    passed("j: desk 1 takes \"F, desk 0 tips 30\" into \"F, desk 0 tips 10, gives tip 5 to desk 1\": 31");
}

static void cases_a_to_j(void)
{
    cases_on_f();
    cases_on_g();
    cases_of_takes();
}

int main(void)
{
    worked_books();
    cases_a_to_j();
    books_refused();
    copies_refused();
    openings_refused();
    acts_refused();
    takes();
    bounds();
    contents_and_bodies();
    body_lengths();
    records();
    compared_rows();
    tickets();
    reconciliations();
    shortest_and_longest();
    return 0;
}
