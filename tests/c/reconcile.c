/* The bridge's tickets against the desk's: the four counts, the longest lists, and what is refused, in which order, with what stays. */
#include <string.h>

#include "expect.h"

#define LENGTH PIT_TICKET_LENGTH
#define LIMIT PIT_TICKET_LIST_LIMIT

/* Room for one ticket more than a list can have. */
static uint8_t bridge[(LIMIT + 1) * LENGTH], desk[(LIMIT + 1) * LENGTH];

struct counts {
    uint32_t alike, differing, only_bridge, only_desk;
};

static const struct counts none = {0, 0, 0, 0};

static uint8_t reconcile(size_t bridge_length, size_t desk_length, struct counts *c)
{
    return pit_reconcile(bridge, bridge_length, desk, desk_length, &c->alike, &c->differing, &c->only_bridge, &c->only_desk);
}

static void expect_counts(size_t at_bridge, size_t at_desk, struct counts want)
{
    struct counts got = {77, 77, 77, 77};
    EXPECT(reconcile(at_bridge * LENGTH, at_desk * LENGTH, &got), PIT_DONE);
    EXPECT(got.alike, want.alike);
    EXPECT(got.differing, want.differing);
    EXPECT(got.only_bridge, want.only_bridge);
    EXPECT(got.only_desk, want.only_desk);
}

/* Ticket k of a list: a load of desk 0 onto pile 7. */
static void put(uint8_t *list, size_t k, uint32_t number, uint32_t tonnes)
{
    EXPECT(pit_write_ticket(number, 7, tonnes, PIT_TICKET_TIP, 0, list + k * LENGTH, LENGTH), PIT_DONE);
}

static void empty_and_one(void)
{
    static const struct counts alike = {1, 0, 0, 0}, differing = {0, 1, 0, 0}, apart = {0, 0, 1, 1};
    static const struct counts at_bridge = {0, 0, 1, 0}, at_desk = {0, 0, 0, 1};
    expect_counts(0, 0, none);
    put(bridge, 0, 5, 30);
    put(desk, 0, 5, 30);
    expect_counts(1, 1, alike);
    expect_counts(1, 0, at_bridge);
    expect_counts(0, 1, at_desk);
    put(desk, 0, 6, 30);
    expect_counts(1, 1, apart);
    put(desk, 0, 4, 30);
    expect_counts(1, 1, apart);
    /* One byte differs: of the pile, of the tonnes, the kind, the desk. */
    for (size_t at = 6; at < LENGTH; at++) {
        static const uint8_t other[LENGTH] = {0, 0, 0, 0, 0, 0, 0x08, 0x01, 0x31, 0x02, 0x01};
        put(desk, 0, 5, 30);
        desk[at] = other[at];
        expect_counts(1, 1, differing);
    }
    passed("tickets of empty lists and lists of one: alike, differing in each field, only at the bridge, only at the desk");
}

/* A list, and beside it one with a ticket missing, one that differs and two more, the last behind the other list's last. */
static void shift(void)
{
    static const uint32_t at_bridge[] = {0, 7, 8, 20, 99999998};
    static const uint32_t at_desk[] = {0, 8, 9, 20, 99999998, PIT_TICKET_NUMBER_LIMIT};
    static const struct counts want = {3, 1, 1, 2}, exchanged = {3, 1, 2, 1}, itself = {5, 0, 0, 0};
    uint8_t kept[5 * LENGTH];
    for (size_t k = 0; k < 5; k++)
        put(bridge, k, at_bridge[k], 30);
    for (size_t k = 0; k < 6; k++)
        put(desk, k, at_desk[k], at_desk[k] == 20 ? 31 : 30);
    expect_counts(5, 6, want);
    memcpy(kept, bridge, sizeof kept);
    memcpy(bridge, desk, 6 * LENGTH);
    memcpy(desk, kept, sizeof kept);
    expect_counts(6, 5, exchanged);
    memcpy(bridge, desk, sizeof kept);
    expect_counts(5, 5, itself);
    passed("tickets of a shift: 3 alike, 1 differing, 1 only at the bridge, 2 only at the desk; the lists exchanged; a list and itself");
}

/* The bridge has the even numbers from 0 on; the desk each third, and of each ninth another ticket. */
static void longest(void)
{
    struct counts want = none, got = {77, 78, 79, 80};
    for (size_t k = 0; k <= LIMIT; k++) {
        put(bridge, k, (uint32_t)(2 * k), 30);
        put(desk, k, (uint32_t)(3 * k), k % 3 == 0 ? 31 : 30);
    }
    for (size_t k = 0; k < LIMIT; k++) {
        size_t number = 3 * k;
        if (number % 2 != 0 || number / 2 >= LIMIT)
            want.only_desk++;
        else if (k % 3 == 0)
            want.differing++;
        else
            want.alike++;
    }
    want.only_bridge = LIMIT - want.alike - want.differing;
    expect_counts(LIMIT, LIMIT, want);
    memcpy(desk, bridge, LIMIT * LENGTH);
    want = none;
    want.alike = LIMIT;
    expect_counts(LIMIT, LIMIT, want);
    want = none;
    want.only_bridge = LIMIT;
    expect_counts(LIMIT, 0, want);
    EXPECT(reconcile((LIMIT + 1) * LENGTH, LIMIT * LENGTH, &got), PIT_LENGTH_WRONG);
    EXPECT(reconcile(LIMIT * LENGTH, (LIMIT + 1) * LENGTH, &got), PIT_LENGTH_WRONG);
    EXPECT(got.alike == 77 && got.differing == 78 && got.only_bridge == 79 && got.only_desk == 80, 1);
    passed("4,096 tickets against 4,096, and 4,097 refused");
}

/* Two lists of two tickets, ever less of which is wrong: what is told is what comes first. */
static void refused(void)
{
    struct counts got = {77, 78, 79, 80};
    put(bridge, 0, 9, 30);
    put(bridge, 1, 9, 30);
    put(desk, 0, 6, 30);
    put(desk, 1, 5, 30);
    bridge[9] = 3;
    bridge[LENGTH] = 0xff;
    desk[4] = 0x09;
    desk[LENGTH + 8] = 0;
    EXPECT(reconcile(2 * LENGTH + 1, 2 * LENGTH, &got), PIT_LENGTH_WRONG);
    EXPECT(reconcile(2 * LENGTH, 2 * LENGTH - 1, &got), PIT_LENGTH_WRONG);
    EXPECT(reconcile(2 * LENGTH, 2 * LENGTH, &got), PIT_KIND_OR_DESK_WRONG);
    bridge[9] = 1;
    EXPECT(reconcile(2 * LENGTH, 2 * LENGTH, &got), PIT_DIGITS_WRONG);
    bridge[LENGTH] = 0;
    EXPECT(reconcile(2 * LENGTH, 2 * LENGTH, &got), PIT_TICKET_PILE_WRONG);
    desk[4] = 0;
    EXPECT(reconcile(2 * LENGTH, 2 * LENGTH, &got), PIT_AMOUNT_WRONG);
    desk[LENGTH + 8] = 0x30;
    EXPECT(reconcile(2 * LENGTH, 2 * LENGTH, &got), PIT_BRIDGE_NOT_RISING);
    put(bridge, 1, 10, 30);
    EXPECT(reconcile(2 * LENGTH, 2 * LENGTH, &got), PIT_DESK_NOT_RISING);
    EXPECT(got.alike == 77 && got.differing == 78 && got.only_bridge == 79 && got.only_desk == 80, 1);
    put(desk, 1, 7, 30);
    EXPECT(reconcile(2 * LENGTH, 2 * LENGTH, &got), PIT_DONE);
    passed("lists refused: 3, the bridge's tickets, the desk's, 36, 37, and no count is altered");
}

void reconciliations(void)
{
    empty_and_one();
    shift();
    longest();
    refused();
}
