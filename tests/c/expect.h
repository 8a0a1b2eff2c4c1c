/* Expectations, and the worked books F and G that the groups start from. */
#ifndef EXPECT_H
#define EXPECT_H

#include <stdint.h>

#include "pitbook.h"

/* A number as it should be, or the program ends with the place and both numbers. */
#define EXPECT(got, want) expect(__FILE__, __LINE__, #got, (unsigned long long)(got), (unsigned long long)(want))

/* Bytes as they should be, or the program ends with the place and the first that differs. */
#define EXPECT_BYTES(got, want, length) expect_bytes(__FILE__, __LINE__, #got, got, want, length)

void expect(const char *file, int line, const char *what, unsigned long long got, unsigned long long want);
void expect_bytes(const char *file, int line, const char *what, const void *got, const void *want, size_t length);
void passed(const char *group);

/* F and G have 3 desks and the one pile 7. */
#define WORKED_LENGTH 138
#define WORKED_PILE 7
#define WORKED_BODY 10

void open_f(uint8_t book[WORKED_LENGTH]);
void make_g(uint8_t book[WORKED_LENGTH]);

/* What a book says of its pile 7; the call must be done. */
uint32_t tonnage_of(const uint8_t book[WORKED_LENGTH]);
uint32_t draw_rights_of(const uint8_t book[WORKED_LENGTH], uint8_t desk);
uint32_t tip_rights_of(const uint8_t book[WORKED_LENGTH], uint8_t desk);
uint32_t least_of(const uint8_t book[WORKED_LENGTH], uint8_t desk);
uint32_t most_of(const uint8_t book[WORKED_LENGTH], uint8_t desk);

/* Two desks: pile 3 has 30 of 0 to 100, and pile 500 has 10 of 5 to 10. */
#define TWO_PILES_LENGTH PIT_BOOK_LENGTH(2, 2)

void open_two_piles(uint8_t book[TWO_PILES_LENGTH]);

/* The groups. */
void books_refused(void);
void copies_refused(void);
void openings_refused(void);
void acts_refused(void);
void takes(void);
void bounds(void);
void contents_and_bodies(void);
void body_lengths(void);
void records(void);
void compared_rows(void);
void tickets(void);
void reconciliations(void);
void shortest_and_longest(void);

#endif
