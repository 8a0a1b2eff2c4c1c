/* What a desk can be sure of: F's and G's lines, acts that have not come in, and the refusals with what stays. */
#include <string.h>

#include "expect.h"

/* What the worked books print for each desk after least and most. */
static void worked_lines(void)
{
    uint8_t f[WORKED_LENGTH], g[WORKED_LENGTH];
    static const uint32_t f_most[] = {70, 80, 80};
    static const uint32_t g_least[] = {15, 17, 18};
    static const uint32_t g_most[] = {95, 77, 78};
    open_f(f);
    make_g(g);
    for (uint8_t desk = 0; desk < 3; desk++) {
        EXPECT(least_of(f, desk), 10);
        EXPECT(most_of(f, desk), f_most[desk]);
        EXPECT(least_of(g, desk), g_least[desk]);
        EXPECT(most_of(g, desk), g_most[desk]);
    }
    passed("least and most of F and G, by every desk");
}

/* Desk 1 has not heard of the others' tips, then not of their draws: what it knows stays, and what it is sure of holds to the last tonne. */
static void acts_in_the_air(void)
{
    uint8_t own[WORKED_LENGTH], others[WORKED_LENGTH];
    make_g(own);
    make_g(others);
    EXPECT(pit_tip(others, sizeof others, 0, WORKED_PILE, 15), PIT_DONE);
    EXPECT(pit_tip(others, sizeof others, 2, WORKED_PILE, 32), PIT_DONE);
    EXPECT(tonnage_of(own), 30);
    EXPECT(tonnage_of(others), 77);
    EXPECT(most_of(own, 1), 77);
    EXPECT(pit_draw(others, sizeof others, 0, WORKED_PILE, 20), PIT_DONE);
    EXPECT(pit_draw(others, sizeof others, 2, WORKED_PILE, 40), PIT_DONE);
    EXPECT(tonnage_of(own), 30);
    EXPECT(tonnage_of(others), 17);
    EXPECT(least_of(own, 1), 17);
    passed("least and most while the others' acts are in the air");
}

/* Where one desk has all rights, it is sure of the tonnage; where the floor is the top, every desk is. */
static void sure_of_it(void)
{
    uint8_t book[PIT_BOOK_LENGTH(2, 2)];
    static const uint32_t list[] = {1, 5, 10, 2, 0, 3, 0, 65535, PIT_TOP_LIMIT, PIT_TOP_LIMIT, 0, 0, 0, 0};
    uint32_t least = 77, most = 77;
    EXPECT(pit_open(2, 2, list, 14, book, sizeof book), PIT_DONE);
    EXPECT(pit_least(book, sizeof book, 0, 1, &least), PIT_DONE);
    EXPECT(pit_most(book, sizeof book, 0, 1, &most), PIT_DONE);
    EXPECT(least == 7 && most == 7, 1);
    EXPECT(pit_least(book, sizeof book, 1, 1, &least), PIT_DONE);
    EXPECT(pit_most(book, sizeof book, 1, 1, &most), PIT_DONE);
    EXPECT(least == 5 && most == 10, 1);
    for (uint8_t desk = 0; desk < 2; desk++) {
        EXPECT(pit_least(book, sizeof book, desk, 65535, &least), PIT_DONE);
        EXPECT(pit_most(book, sizeof book, desk, 65535, &most), PIT_DONE);
        EXPECT(least == PIT_TOP_LIMIT && most == PIT_TOP_LIMIT, 1);
    }
    passed("least and most where a desk has all rights, and where there are none");
}

/* Ever fewer things wrong: the book, the desk, the pile. books_refused has all of a book's own refusals. */
static void refused(void)
{
    uint8_t g[WORKED_LENGTH], book[WORKED_LENGTH];
    uint32_t tonnes = 77;
    make_g(g);
    memcpy(book, g, sizeof g);
    EXPECT(pit_least(book, sizeof book - 1, 3, 8, &tonnes), PIT_LENGTH_WRONG);
    EXPECT(pit_most(book, sizeof book - 1, 3, 8, &tonnes), PIT_LENGTH_WRONG);
    EXPECT(pit_least(book, sizeof book, 3, 8, &tonnes), PIT_DESK_ABSENT);
    EXPECT(pit_most(book, sizeof book, 255, 8, &tonnes), PIT_DESK_ABSENT);
    EXPECT(pit_least(book, sizeof book, 3, 7, &tonnes), PIT_DESK_ABSENT);
    EXPECT(pit_most(book, sizeof book, 3, 7, &tonnes), PIT_DESK_ABSENT);
    EXPECT(pit_least(book, sizeof book, 0, 8, &tonnes), PIT_PILE_ABSENT);
    EXPECT(pit_most(book, sizeof book, 2, 65535, &tonnes), PIT_PILE_ABSENT);
    EXPECT(tonnes, 77);
    EXPECT_BYTES(book, g, sizeof g);
    passed("least and most: the book's own, then 11, then 10, and nothing lent is altered");
}

void bounds(void)
{
    worked_lines();
    acts_in_the_air();
    sure_of_it();
    refused();
}
