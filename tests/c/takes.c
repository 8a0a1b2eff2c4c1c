/* Takes past document 01's letters: what comes in, from every pile, and what is refused before anything is written. */
#include <string.h>

#include "expect.h"

/* Desk 1 has tipped and takes desk 0's acts; a repeated copy counts once. */
static void takes_done(void)
{
    uint8_t own[TWO_PILES_LENGTH], copy[TWO_PILES_LENGTH];
    uint32_t tonnes = 0, changed = 77;
    open_two_piles(own);
    open_two_piles(copy);
    EXPECT(pit_tip(own, sizeof own, 1, 3, 2), PIT_DONE);
    EXPECT(pit_tip(copy, sizeof copy, 0, 3, 30), PIT_DONE);
    EXPECT(pit_draw(copy, sizeof copy, 0, 500, 4), PIT_DONE);
    for (int k = 0; k < 2; k++) {
        EXPECT(pit_take(own, sizeof own, copy, sizeof copy, 1, &changed), PIT_DONE);
        EXPECT(changed, k == 0 ? 2 : 0);
        EXPECT(pit_tonnage(own, sizeof own, 3, &tonnes), PIT_DONE);
        EXPECT(tonnes, 62);
        EXPECT(pit_tonnage(own, sizeof own, 500, &tonnes), PIT_DONE);
        EXPECT(tonnes, 6);
    }
    /* Desk 0 takes all that back, and then both books are equal. */
    EXPECT(pit_take(copy, sizeof copy, own, sizeof own, 0, &changed), PIT_DONE);
    EXPECT(changed, 1);
    EXPECT_BYTES(copy, own, sizeof own);
    passed("a take brings in the later rows of both piles, once");
}

/* News of two desks on three piles are six pairs of a pile and a desk; two acts of a desk on a pile change one row. */
static void rows_changed(void)
{
    static const uint32_t list[] = {1, 0, 60, 10, 10, 10, 10, 10, 10, 2, 0, 60, 10, 10, 10, 10, 10, 10, 3, 0, 60, 10, 10, 10, 10, 10, 10};
    uint8_t own[PIT_BOOK_LENGTH(3, 3)], copy[sizeof own], before[sizeof own];
    uint32_t changed = 77;
    EXPECT(pit_open(3, 3, list, PIT_LIST_NUMBERS(3, 3), own, sizeof own), PIT_DONE);
    memcpy(copy, own, sizeof own);
    EXPECT(pit_draw(own, sizeof own, 0, 2, 1), PIT_DONE);
    for (uint16_t pile = 1; pile <= 3; pile++) {
        EXPECT(pit_tip(copy, sizeof copy, 1, pile, 1), PIT_DONE);
        EXPECT(pit_draw(copy, sizeof copy, 2, pile, 1), PIT_DONE);
    }
    EXPECT(pit_take(own, sizeof own, copy, sizeof copy, 0, &changed), PIT_DONE);
    EXPECT(changed, 6);
    memcpy(before, own, sizeof own);
    EXPECT(pit_take(own, sizeof own, copy, sizeof copy, 0, &changed), PIT_DONE);
    EXPECT(changed, 0);
    EXPECT_BYTES(own, before, sizeof own);
    EXPECT(pit_tip(copy, sizeof copy, 1, 3, 1), PIT_DONE);
    EXPECT(pit_draw(copy, sizeof copy, 1, 3, 1), PIT_DONE);
    EXPECT(pit_tip(copy, sizeof copy, 2, 3, 1), PIT_DONE);
    EXPECT(pit_take(own, sizeof own, copy, sizeof copy, 0, &changed), PIT_DONE);
    EXPECT(changed, 2);
    passed("a take reports the pairs of a pile and a desk whose row changed");
}

/* Desk 0's copy and desk 1's reach desk 2: one by one, in either order, or by way of desk 1. */
static void relays(void)
{
    uint8_t zero[WORKED_LENGTH], one[sizeof zero], in_turn[sizeof zero], exchanged[sizeof zero], at_once[sizeof zero];
    uint32_t changed = 77;
    open_f(zero);
    memcpy(one, zero, sizeof zero);
    EXPECT(pit_tip(zero, sizeof zero, 0, WORKED_PILE, 30), PIT_DONE);
    memcpy(in_turn, zero, sizeof zero);
    EXPECT(pit_tip(in_turn, sizeof in_turn, 2, WORKED_PILE, 1), PIT_DONE);
    EXPECT(pit_draw(zero, sizeof zero, 0, WORKED_PILE, 4), PIT_DONE);
    EXPECT(pit_tip(one, sizeof one, 1, WORKED_PILE, 2), PIT_DONE);
    memcpy(exchanged, in_turn, sizeof in_turn);
    memcpy(at_once, in_turn, sizeof in_turn);

    EXPECT(pit_take(in_turn, sizeof in_turn, zero, sizeof zero, 2, &changed), PIT_DONE);
    EXPECT(changed, 1);
    EXPECT(pit_take(in_turn, sizeof in_turn, one, sizeof one, 2, &changed), PIT_DONE);
    EXPECT(changed, 1);
    EXPECT(pit_take(exchanged, sizeof exchanged, one, sizeof one, 2, &changed), PIT_DONE);
    EXPECT(pit_take(exchanged, sizeof exchanged, zero, sizeof zero, 2, &changed), PIT_DONE);
    EXPECT(pit_take(one, sizeof one, zero, sizeof zero, 1, &changed), PIT_DONE);
    EXPECT(pit_take(at_once, sizeof at_once, one, sizeof one, 2, &changed), PIT_DONE);
    EXPECT(changed, 2);
    EXPECT_BYTES(exchanged, in_turn, sizeof in_turn);
    EXPECT_BYTES(at_once, in_turn, sizeof in_turn);
    passed("copies relayed in any order and grouping leave the same book");
}

/* Desk 0 acted twice from one old book on the second pile; the first pile's row alone could be taken. */
static void split_at_the_second_pile(void)
{
    uint8_t own[TWO_PILES_LENGTH], copy[TWO_PILES_LENGTH], before[TWO_PILES_LENGTH];
    uint32_t changed = 77;
    open_two_piles(own);
    open_two_piles(copy);
    EXPECT(pit_draw(own, sizeof own, 0, 500, 1), PIT_DONE);
    EXPECT(pit_tip(copy, sizeof copy, 0, 3, 30), PIT_DONE);
    EXPECT(pit_give_draw(copy, sizeof copy, 0, 500, 1, 1), PIT_DONE);
    memcpy(before, own, sizeof own);
    EXPECT(pit_take(own, sizeof own, copy, sizeof copy, 1, &changed), PIT_ROWS_SPLIT);
    /* By pile, and then by desk: for desk 0 its own row of the first pile comes before the split. */
    EXPECT(pit_take(own, sizeof own, copy, sizeof copy, 0, &changed), PIT_OWN_ROW_BEHIND);
    EXPECT_BYTES(own, before, sizeof own);
    EXPECT(changed, 77);
    passed("a take that is refused at the second pile leaves the first");
}

static void takes_refused(void)
{
    uint8_t g[WORKED_LENGTH], book[WORKED_LENGTH], other[WORKED_LENGTH] = {0}, two[TWO_PILES_LENGTH];
    static const uint32_t list[] = {WORKED_PILE, 11, 111, 0, 0, 0, 40, 30, 30};
    uint32_t changed = 77;
    make_g(g);
    memcpy(book, g, sizeof g);
    open_two_piles(two);
    EXPECT(pit_open(3, 1, list, 9, other, sizeof other), PIT_DONE);
    EXPECT(pit_take(book, sizeof book, other, sizeof other, 3, &changed), PIT_DESK_ABSENT);
    EXPECT(pit_take(book, sizeof book, other, sizeof other, 2, &changed), PIT_OPENING_DIFFERS);
    EXPECT(pit_take(book, sizeof book, two, sizeof two, 2, &changed), PIT_OPENING_DIFFERS);
    EXPECT_BYTES(book, g, sizeof g);
    EXPECT(changed, 77);
    passed("takes: 11, then 30, and the own book stays");
}

void takes(void)
{
    takes_done();
    rows_changed();
    relays();
    split_at_the_second_pile();
    takes_refused();
}
