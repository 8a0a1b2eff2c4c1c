/*
 * The pit book: a file of stockpiles that the dispatch desks of a quarry keep, as a run of bytes.
 *
 * Every function answers with a refusal's number, or with PIT_DONE. The first refusal in the order that stands at a function is
 * given. A refused call leaves all that it was lent as it was.
 *
 * A book, a list, a row or a ticket goes in as a pointer and its length. Lengths of books, rows, tickets and lists of tickets count
 * bytes, all others count numbers.
 *
 * What the caller owes:
 * - no pointer is NULL, not even where the length is 0: any address that is aligned for its type will do then;
 * - length elements stand at the pointer, each with some value, and nobody else writes them during the call, not through a mapped file either;
 * - what a call may write (a pointer without const) overlaps nothing else that is lent to the same call. Read-only arguments may overlap.
 *
 * Every argument that is a number may have any value of its type. No function keeps a pointer, allocates or has a state of its own,
 * so calls on different books may run at the same time.
 */
#ifndef PITBOOK_H
#define PITBOOK_H

#include <stddef.h>
#include <stdint.h>

#ifdef __cplusplus
extern "C" {
#endif

/* The refusals, by their numbers. */
enum pit_refusal {
    PIT_DONE = 0,                /* no refusal */
    PIT_BOOK_SHORT = 1,          /* fewer than 4 bytes */
    PIT_HEAD_WRONG = 2,          /* head wrong; number of desks or piles out of range */
    PIT_LENGTH_WRONG = 3,        /* length not as the head, the sizes, the record, a row, the ticket or a list of tickets want it */
    PIT_CONTENTS_WRONG = 4,      /* pile number or position wrong, or numbers not rising */
    PIT_OPENING_UNLAWFUL = 5,    /* opening unlawful, or an unused share not 0 */
    PIT_TALLY_WRONG = 6,         /* tally over its limit, a give to oneself, or an unused place not 0 */
    PIT_RIGHTS_NEGATIVE = 7,     /* a desk has spent or given more than it held */
    PIT_BUFFER_SHORT = 8,        /* what is lent for the result is too short */
    PIT_PILE_ABSENT = 10,        /* no such pile in the book */
    PIT_DESK_ABSENT = 11,        /* no such desk in the book */
    PIT_RECEIVER_WRONG = 12,     /* no such receiver, or the giver itself */
    PIT_AMOUNT_WRONG = 13,       /* amount, or a ticket's tonnes, 0 or over PIT_AMOUNT_LIMIT */
    PIT_RIGHTS_SHORT = 14,       /* the desk holds less rights than the amount */
    PIT_LIMIT_REACHED = 15,      /* the tally would pass PIT_TALLY_LIMIT */
    PIT_COPY_SHORT = 21,         /* 21 to 27: what 1 to 7 say of a book, of the copy */
    PIT_COPY_HEAD_WRONG = 22,
    PIT_COPY_LENGTH_WRONG = 23,
    PIT_COPY_CONTENTS_WRONG = 24,
    PIT_COPY_OPENING_UNLAWFUL = 25,
    PIT_COPY_TALLY_WRONG = 26,
    PIT_COPY_RIGHTS_NEGATIVE = 27,
    PIT_OPENING_DIFFERS = 30,    /* number of desks, pile numbers or an opening differ */
    PIT_ROWS_SPLIT = 31,         /* two rows of one desk differ and neither is later: it acted twice from one old book */
    PIT_OWN_ROW_BEHIND = 32,     /* the copy has a later row of the taker's own desk */
    PIT_DIGITS_WRONG = 33,       /* a packed digit above 9; in writing, a ticket's number over PIT_TICKET_NUMBER_LIMIT */
    PIT_TICKET_PILE_WRONG = 34,  /* a ticket's pile 0 or over 65,535 */
    PIT_KIND_OR_DESK_WRONG = 35, /* a ticket's kind not PIT_TICKET_TIP or PIT_TICKET_DRAW, or its desk above 7 */
    PIT_BRIDGE_NOT_RISING = 36,  /* the ticket numbers of the bridge's list do not rise strictly */
    PIT_DESK_NOT_RISING = 37     /* those of the desk's list do not */
};

/* What pit_compare tells of two rows. */
enum pit_order {
    PIT_ALIKE = 1,
    PIT_MINE_LATER = 2,
    PIT_COPY_LATER = 3,
    PIT_SPLIT = 4
};

/* A ticket's kind. */
enum pit_ticket_kind {
    PIT_TICKET_TIP = 1,
    PIT_TICKET_DRAW = 2
};

/* Limits: desks and piles of a book, tonnes of an act, tonnes of a tally, tonnes of a top. */
#define PIT_DESKS 8
#define PIT_PILES 32
#define PIT_AMOUNT_LIMIT 1000
#define PIT_TALLY_LIMIT 1000000000
#define PIT_TOP_LIMIT 10000000

/* Bytes of a row, of a body and of a book, for 1 to 8 desks and 1 to 32 piles. */
#define PIT_ROW_LENGTH(desks) ((size_t)8 * ((size_t)(desks) + 1))
#define PIT_BODY_LENGTH(desks) (PIT_ROW_LENGTH(desks) * ((size_t)(desks) + 1))
#define PIT_BOOK_LENGTH(desks, piles) ((size_t)4 + (size_t)(piles) * (6 + PIT_BODY_LENGTH(desks)))
#define PIT_BOOK_LONGEST 20932

/* Bytes of a weighbridge ticket, and the highest number of one. */
#define PIT_TICKET_LENGTH 11
#define PIT_TICKET_NUMBER_LIMIT 99999999

/* The most tickets of a list. */
#define PIT_TICKET_LIST_LIMIT 4096

/* Numbers of the list that opens a book. */
#define PIT_LIST_NUMBERS(desks, piles) ((size_t)(piles) * (3 + (size_t)2 * (size_t)(desks)))

/*
 * A pile's record as 163 numbers, and where each stands: the number of desks, floor, top, 8 draw shares, 8 tip shares, then for each
 * of 8 desks a row of 18: tipped, drawn, 8 draw gives, 8 tip gives. All that belongs to desks past the number of desks is 0.
 */
#define PIT_RECORD_NUMBERS 163
#define PIT_RECORD_DESKS 0
#define PIT_RECORD_FLOOR 1
#define PIT_RECORD_TOP 2
#define PIT_RECORD_DRAW_SHARE(desk) (3 + (desk))
#define PIT_RECORD_TIP_SHARE(desk) (11 + (desk))
#define PIT_RECORD_TIPPED(desk) (19 + 18 * (desk))
#define PIT_RECORD_DRAWN(desk) (20 + 18 * (desk))
#define PIT_RECORD_DRAW_GIVE(desk, receiver) (21 + 18 * (desk) + (receiver))
#define PIT_RECORD_TIP_GIVE(desk, receiver) (29 + 18 * (desk) + (receiver))

/*
 * Opens a book: writes it to the start of out, with all tallies 0. The list has for each pile, by rising number, its number, floor,
 * top, draw shares and tip shares. Bytes of out past the book stay.
 * Answers 2 for the number of desks or piles, 3 for the list's length, 4 for the pile numbers, 5 for an opening, 8 for out, or 0.
 */
uint8_t pit_open(uint8_t desks, uint8_t piles, const uint32_t *list, size_t list_length, uint8_t *out, size_t out_length);

/* Checks a book, all of it. Answers 1 to 7, or 0. */
uint8_t pit_check(const uint8_t *book, size_t book_length);

/*
 * Fills in the contents in file order: entry k's pile number to numbers[k] and where its body starts in the book to positions[k].
 * Entries past the number of piles, the book's third byte, stay; PIT_PILES entries are always enough.
 * Answers 1 to 7 for the book, 8 where either list is shorter than the contents, or 0.
 */
uint8_t pit_contents(const uint8_t *book, size_t book_length, uint32_t *numbers, size_t numbers_length, uint32_t *positions,
                     size_t positions_length);

/*
 * Finds a pile's body, a part of the book: length bytes from book + start.
 * Answers 1 to 7 for the book, 10, or 0; start and length stay where it is not 0.
 */
uint8_t pit_body(const uint8_t *book, size_t book_length, uint16_t pile, size_t *start, size_t *length);

/*
 * A desk tips or draws: adds the amount to its tipped or drawn tally of the pile. All other bytes stay.
 * Answers 1 to 7 for the book, 11, 10, 13, 14, 15, or 0.
 */
uint8_t pit_tip(uint8_t *book, size_t book_length, uint8_t desk, uint16_t pile, uint32_t amount);
uint8_t pit_draw(uint8_t *book, size_t book_length, uint8_t desk, uint16_t pile, uint32_t amount);

/*
 * A desk gives draw rights or tip rights to another: adds the amount to its give to that receiver. All other bytes stay.
 * Answers 1 to 7 for the book, 11, 10, 12, 13, 14, 15, or 0.
 */
uint8_t pit_give_draw(uint8_t *book, size_t book_length, uint8_t desk, uint16_t pile, uint8_t receiver, uint32_t amount);
uint8_t pit_give_tip(uint8_t *book, size_t book_length, uint8_t desk, uint16_t pile, uint8_t receiver, uint32_t amount);

/*
 * A desk takes another's copy into its own book: for each pile and desk the later row stands there afterwards. The number of pairs of a
 * pile and a desk whose row changed goes to changed. It is 0 exactly when the book's bytes are as they were: the copy held no act that
 * this book lacked.
 * Order and grouping are of no consequence where no take is refused: if a desk's takes of two copies are both answered 0, and so is a
 * take of one of these copies into the other, then taking both in either order, or the copy that has taken the other, is answered 0 and
 * leaves the same bytes.
 * Answers 1 to 7 for the own book, 21 to 27 for the copy, 11, 30, then by pile and by desk 31 or 32, or 0; changed stays where it is
 * not 0.
 */
uint8_t pit_take(uint8_t *own, size_t own_length, const uint8_t *copy, size_t copy_length, uint8_t desk, uint32_t *changed);

/*
 * A desk's draw rights or tip rights of a pile, in tonnes, to out.
 * Answers 1 to 7 for the book, 11, 10, or 0; out stays where it is not 0.
 */
uint8_t pit_draw_rights(const uint8_t *book, size_t book_length, uint8_t desk, uint16_t pile, uint32_t *out);
uint8_t pit_tip_rights(const uint8_t *book, size_t book_length, uint8_t desk, uint16_t pile, uint32_t *out);

/*
 * A pile's known tonnage, to out: by the acts that this book holds, and no others. It is not what lies on the ground while acts of
 * other desks have not come in yet; pit_least and pit_most say how far off that can be.
 * Answers 1 to 7 for the book, 10, or 0; out stays where it is not 0.
 */
uint8_t pit_tonnage(const uint8_t *book, size_t book_length, uint16_t pile, uint32_t *out);

/*
 * What a desk can be sure of: the least or the most that a pile has, in tonnes, to out. The least is floor + the desk's draw rights,
 * for these nobody else can draw; the most is top - its tip rights, for that space nobody else can fill. Where the book is the desk's
 * own newest: at this moment all acts made so far anywhere, whether this book holds them or not, leave the pile's tonnage between the
 * two, both included.
 * Answers 1 to 7 for the book, 11, 10, or 0; out stays where it is not 0.
 */
uint8_t pit_least(const uint8_t *book, size_t book_length, uint8_t desk, uint16_t pile, uint32_t *out);
uint8_t pit_most(const uint8_t *book, size_t book_length, uint8_t desk, uint16_t pile, uint32_t *out);

/*
 * Fetches a pile's record, as PIT_RECORD_NUMBERS numbers; those past them stay.
 * Answers 1 to 7 for the book, 10, 8 where the record is shorter, or 0.
 */
uint8_t pit_fetch(const uint8_t *book, size_t book_length, uint16_t pile, uint32_t *record, size_t record_length);

/*
 * Stores a record of the same opening as the pile's body. All bytes outside that body stay.
 * Answers 1 to 7 for the book, 10, 3 where the length is not PIT_RECORD_NUMBERS, 2, 5, 6 or 7 for the record, 30, or 0.
 */
uint8_t pit_store(uint8_t *book, size_t book_length, uint16_t pile, const uint32_t *record, size_t record_length);

/*
 * Compares two rows of a desk, mine and the copy's: PIT_ALIKE, PIT_MINE_LATER, PIT_COPY_LATER or PIT_SPLIT, to order. One row is later
 * than another if it is at least the other at every place and differs from it; rows that differ with neither later are split. Of two rows
 * that are not split, a take keeps the later one.
 * Answers 3 where the rows differ in length or have a length other than PIT_ROW_LENGTH of 1 to 8 desks, or 0; order stays where it is
 * not 0.
 */
uint8_t pit_compare(const uint8_t *mine, size_t mine_length, const uint8_t *copy, size_t copy_length, uint32_t *order);

/*
 * Reads a weighbridge ticket of PIT_TICKET_LENGTH bytes: its number in 4, its pile in 3 and its tonnes in 2, all packed decimal (two
 * digits a byte, the high one first), then its kind and its desk in a byte each.
 * Answers 3 for the length, then field by field, each field's digits before its value: 33 for a digit above 9, 34 for the pile, 13
 * for the tonnes, 35 for kind or desk; or 0. What is lent for the fields stays where it is not 0.
 */
uint8_t pit_read_ticket(const uint8_t *bytes, size_t length, uint32_t *number, uint32_t *pile, uint32_t *tonnes, uint8_t *kind,
                        uint8_t *desk);

/*
 * Writes a weighbridge ticket to the start of out; bytes past it stay. What is written is read again as it was, and what was read is
 * written as the same bytes.
 * Answers 33 for a number over PIT_TICKET_NUMBER_LIMIT, 34 for the pile, 13 for the tonnes, 35 for kind or desk, 8 where out is
 * shorter than PIT_TICKET_LENGTH, or 0.
 */
uint8_t pit_write_ticket(uint32_t number, uint32_t pile, uint32_t tonnes, uint8_t kind, uint8_t desk, uint8_t *out, size_t out_length);

/*
 * Compares the bridge's list of tickets with the desk's own. A list is its tickets one behind the other, at most
 * PIT_TICKET_LIST_LIMIT of them, rising strictly by ticket number. Each count is a number of ticket numbers: those that both lists
 * have with the same ticket, those that both have with tickets that differ, those that the bridge's list alone has, and those that
 * the desk's alone has.
 * Answers 3 where a length is no multiple of PIT_TICKET_LENGTH or a list has more tickets; then what pit_read_ticket answers of the
 * bridge's tickets, in list order, then of the desk's; then 36 and 37 where the bridge's numbers and the desk's do not rise; or 0. What
 * is lent for the counts stays where it is not 0.
 */
uint8_t pit_reconcile(const uint8_t *bridge, size_t bridge_length, const uint8_t *desk, size_t desk_length, uint32_t *alike,
                      uint32_t *differing, uint32_t *only_bridge, uint32_t *only_desk);

#ifdef __cplusplus
}
#endif

#endif
