/* Weighbridge tickets: the worked one both ways, every field at its limits, and what is refused, in which order, with what stays. */
#include <string.h>

#include "expect.h"

/* Ticket 12345678: desk 0 tips 30 tonnes onto pile 7. */
static const uint8_t worked[PIT_TICKET_LENGTH] = {0x12, 0x34, 0x56, 0x78, 0x00, 0x00, 0x07, 0x00, 0x30, 0x01, 0x00};

struct ticket {
    uint32_t number, pile, tonnes;
    uint8_t kind, desk;
};

static uint8_t read_into(const uint8_t *bytes, size_t length, struct ticket *t)
{
    return pit_read_ticket(bytes, length, &t->number, &t->pile, &t->tonnes, &t->kind, &t->desk);
}

static uint8_t write_from(struct ticket t, uint8_t *out, size_t length)
{
    return pit_write_ticket(t.number, t.pile, t.tonnes, t.kind, t.desk, out, length);
}

static void expect_ticket(struct ticket got, struct ticket want)
{
    EXPECT(got.number, want.number);
    EXPECT(got.pile, want.pile);
    EXPECT(got.tonnes, want.tonnes);
    EXPECT(got.kind, want.kind);
    EXPECT(got.desk, want.desk);
}

static void worked_ticket(void)
{
    static const struct ticket want = {12345678, 7, 30, PIT_TICKET_TIP, 0};
    uint8_t out[PIT_TICKET_LENGTH + 2];
    struct ticket got = {77, 77, 77, 77, 77};
    memset(out, 0xee, sizeof out);
    EXPECT(write_from(want, out, sizeof out), PIT_DONE);
    EXPECT_BYTES(out, worked, PIT_TICKET_LENGTH);
    EXPECT(out[11] == 0xee && out[12] == 0xee, 1);
    EXPECT(read_into(out, PIT_TICKET_LENGTH, &got), PIT_DONE);
    expect_ticket(got, want);
    passed("ticket 12345678, pile 7, 30 tonnes, tip, desk 0: its bytes, and read again");
}

/* What is written is read again, and what was read is written as the same bytes. */
static void limits(void)
{
    static const struct ticket all[] = {
        {0, 1, 1, PIT_TICKET_TIP, 0},
        {PIT_TICKET_NUMBER_LIMIT, 65535, PIT_AMOUNT_LIMIT, PIT_TICKET_DRAW, 7},
        {10000000, 10000, 100, PIT_TICKET_TIP, 1},
        {9090909, 9090, 909, PIT_TICKET_DRAW, 6},
    };
    static const uint8_t last[PIT_TICKET_LENGTH] = {0x99, 0x99, 0x99, 0x99, 0x06, 0x55, 0x35, 0x10, 0x00, 0x02, 0x07};
    for (size_t k = 0; k < sizeof all / sizeof all[0]; k++) {
        uint8_t bytes[PIT_TICKET_LENGTH], again[PIT_TICKET_LENGTH];
        struct ticket got = {77, 77, 77, 77, 77};
        EXPECT(write_from(all[k], bytes, sizeof bytes), PIT_DONE);
        EXPECT(read_into(bytes, sizeof bytes, &got), PIT_DONE);
        expect_ticket(got, all[k]);
        EXPECT(write_from(got, again, sizeof again), PIT_DONE);
        EXPECT_BYTES(again, bytes, sizeof bytes);
        if (k == 1)
            EXPECT_BYTES(bytes, last, sizeof last);
    }
    passed("tickets at the limits of their fields, both ways");
}

/* Bytes of the worked ticket replaced from a position on, and the answer. Digits of 15 make values that are out of range too. */
static void readings_refused(void)
{
    static const struct {
        size_t at, count;
        uint8_t bytes[7], answer;
    } all[] = {
        {0, 1, {0xa2}, PIT_DIGITS_WRONG},
        {3, 4, {0x7a, 0, 0, 0}, PIT_DIGITS_WRONG},
        {4, 3, {0xff, 0xff, 0xff}, PIT_DIGITS_WRONG},
        {4, 5, {0, 0, 0, 0xff, 0xff}, PIT_TICKET_PILE_WRONG},
        {4, 3, {0x06, 0x55, 0x36}, PIT_TICKET_PILE_WRONG},
        {7, 3, {0xff, 0xff, 0}, PIT_DIGITS_WRONG},
        {8, 1, {0x3a}, PIT_DIGITS_WRONG},
        {7, 3, {0, 0, 0}, PIT_AMOUNT_WRONG},
        {7, 2, {0x10, 0x01}, PIT_AMOUNT_WRONG},
        {9, 2, {0, 8}, PIT_KIND_OR_DESK_WRONG},
        {9, 1, {3}, PIT_KIND_OR_DESK_WRONG},
        {10, 1, {8}, PIT_KIND_OR_DESK_WRONG},
    };
    static const struct ticket before = {77, 78, 79, 80, 81};
    uint8_t bytes[PIT_TICKET_LENGTH + 1];
    struct ticket got = before;
    memset(bytes, 0xff, sizeof bytes);
    EXPECT(read_into(bytes, 0, &got), PIT_LENGTH_WRONG);
    EXPECT(read_into(bytes, PIT_TICKET_LENGTH - 1, &got), PIT_LENGTH_WRONG);
    EXPECT(read_into(bytes, PIT_TICKET_LENGTH + 1, &got), PIT_LENGTH_WRONG);
    for (size_t k = 0; k < sizeof all / sizeof all[0]; k++) {
        memcpy(bytes, worked, sizeof worked);
        memcpy(bytes + all[k].at, all[k].bytes, all[k].count);
        EXPECT(read_into(bytes, PIT_TICKET_LENGTH, &got), all[k].answer);
    }
    expect_ticket(got, before);
    passed("readings refused: 3, then each field's digits before its value, and nothing lent is altered");
}

static void writings_refused(void)
{
    static const struct {
        struct ticket ticket;
        uint8_t answer;
    } all[] = {
        {{PIT_TICKET_NUMBER_LIMIT + 1, 0, 0, 0, 8}, PIT_DIGITS_WRONG},
        {{UINT32_MAX, 0, 0, 0, 8}, PIT_DIGITS_WRONG},
        {{0, 0, 0, 0, 8}, PIT_TICKET_PILE_WRONG},
        {{0, 65536, 0, 0, 8}, PIT_TICKET_PILE_WRONG},
        {{0, 1, 0, 0, 8}, PIT_AMOUNT_WRONG},
        {{0, 1, 1001, 0, 8}, PIT_AMOUNT_WRONG},
        {{0, 1, 1, 0, 8}, PIT_KIND_OR_DESK_WRONG},
        {{0, 1, 1, 3, 0}, PIT_KIND_OR_DESK_WRONG},
        {{0, 1, 1, 1, 8}, PIT_KIND_OR_DESK_WRONG},
        {{0, 1, 1, 1, 7}, PIT_BUFFER_SHORT},
    };
    uint8_t out[PIT_TICKET_LENGTH], before[PIT_TICKET_LENGTH];
    memset(out, 0xee, sizeof out);
    memcpy(before, out, sizeof out);
    for (size_t k = 0; k < sizeof all / sizeof all[0]; k++)
        EXPECT(write_from(all[k].ticket, out, sizeof out - 1), all[k].answer);
    EXPECT_BYTES(out, before, sizeof out);
    passed("writings refused: 33, 34, 13, 35, and 8 last, and nothing is written");
}

void tickets(void)
{
    worked_ticket();
    limits();
    readings_refused();
    writings_refused();
}
