#include "expect.h"

#include <stdio.h>
#include <stdlib.h>
#include <string.h>

void expect(const char *file, int line, const char *what, unsigned long long got, unsigned long long want)
{
    if (got != want) {
        fprintf(stderr, "%s:%d: %s is %llu and should be %llu\n", file, line, what, got, want);
        exit(1);
    }
}

void expect_bytes(const char *file, int line, const char *what, const void *got, const void *want, size_t length)
{
    const uint8_t *g = got;
    const uint8_t *w = want;
    for (size_t k = 0; k < length; k++) {
        if (g[k] != w[k]) {
            fprintf(stderr, "%s:%d: byte %zu of %s is %d and should be %d\n", file, line, k, what, g[k], w[k]);
            exit(1);
        }
    }
}

void passed(const char *group)
{
    printf("passed: %s\n", group);
}

void open_f(uint8_t book[WORKED_LENGTH])
{
    static const uint32_t list[] = {WORKED_PILE, 10, 110, 0, 0, 0, 40, 30, 30};
    /* No byte of a new book is left from what stood there. */
    memset(book, 0xa5, WORKED_LENGTH);
    EXPECT(pit_open(3, 1, list, 9, book, WORKED_LENGTH), PIT_DONE);
}

void make_g(uint8_t book[WORKED_LENGTH])
{
    open_f(book);
    EXPECT(pit_tip(book, WORKED_LENGTH, 0, WORKED_PILE, 30), PIT_DONE);
    EXPECT(pit_tip(book, WORKED_LENGTH, 1, WORKED_PILE, 1), PIT_DONE);
    EXPECT(pit_give_draw(book, WORKED_LENGTH, 0, WORKED_PILE, 1, 10), PIT_DONE);
    EXPECT(pit_give_draw(book, WORKED_LENGTH, 0, WORKED_PILE, 2, 10), PIT_DONE);
    EXPECT(pit_draw(book, WORKED_LENGTH, 0, WORKED_PILE, 5), PIT_DONE);
    EXPECT(pit_draw(book, WORKED_LENGTH, 1, WORKED_PILE, 4), PIT_DONE);
    EXPECT(pit_draw(book, WORKED_LENGTH, 2, WORKED_PILE, 2), PIT_DONE);
}

uint32_t tonnage_of(const uint8_t book[WORKED_LENGTH])
{
    uint32_t tonnes = 0;
    EXPECT(pit_tonnage(book, WORKED_LENGTH, WORKED_PILE, &tonnes), PIT_DONE);
    return tonnes;
}

uint32_t draw_rights_of(const uint8_t book[WORKED_LENGTH], uint8_t desk)
{
    uint32_t tonnes = 0;
    EXPECT(pit_draw_rights(book, WORKED_LENGTH, desk, WORKED_PILE, &tonnes), PIT_DONE);
    return tonnes;
}

uint32_t tip_rights_of(const uint8_t book[WORKED_LENGTH], uint8_t desk)
{
    uint32_t tonnes = 0;
    EXPECT(pit_tip_rights(book, WORKED_LENGTH, desk, WORKED_PILE, &tonnes), PIT_DONE);
    return tonnes;
}

uint32_t least_of(const uint8_t book[WORKED_LENGTH], uint8_t desk)
{
    uint32_t tonnes = 0;
    EXPECT(pit_least(book, WORKED_LENGTH, desk, WORKED_PILE, &tonnes), PIT_DONE);
    return tonnes;
}

uint32_t most_of(const uint8_t book[WORKED_LENGTH], uint8_t desk)
{
    uint32_t tonnes = 0;
    EXPECT(pit_most(book, WORKED_LENGTH, desk, WORKED_PILE, &tonnes), PIT_DONE);
    return tonnes;
}

void open_two_piles(uint8_t book[TWO_PILES_LENGTH])
{
    static const uint32_t list[] = {3, 0, 100, 10, 20, 30, 40, 500, 5, 10, 5, 0, 0, 0};
    memset(book, 0xa5, TWO_PILES_LENGTH);
    EXPECT(pit_open(2, 2, list, 14, book, TWO_PILES_LENGTH), PIT_DONE);
}
