/*
 * Lanebook for C and C++: plan a run beside the book, and read the book by pages.
 *
 * Both calls look at a map and a book that the caller holds as bytes, and write packed rows to
 * the caller's answer slice. They keep nothing between calls, allocate nothing and call nothing
 * but memset, so several threads may call them at once. A thread that calls them should have
 * 128 KiB of stack to spare.
 *
 * Link with crates/portal/out/libportal.a, which `rt lib` writes in crates/portal; no other library
 * is needed (x86-64 Linux).
 *
 * SLICES. A slice is a pointer and a length in bytes. Numbers stand high byte first; the width
 * of each in bytes is given in brackets.
 *
 *   map     places(2) links(2)
 *           a place each:  capacity(1) duration(2)
 *           a link each:   from(1) to(1)
 *   book    next ticket(3) rows(2)
 *           a row each:    place(1) entry(3) ticket(3) exit(3) next(1)
 *   answer  as many rows as fit it whole; odd bytes at its end are never touched
 *
 *   what               from     to
 *   places of a map       1    256   numbered from 0
 *   capacity              1     16   wagons at a time
 *   duration              1  3,600   seconds that a stay lasts at least
 *   links of a map        0  1,024   ordered pairs of different places, none twice
 *   rows of a book        0  1,024   in strictly rising order of (place, entry, ticket)
 *   next ticket           1  1,000,000
 *   entry, exit           0  86,400  seconds of the day; a stay covers entry to exit - 1
 *   rows of a plan        1  1,280
 *   rows of a page        1     64
 *
 * LANEBOOK_SLICE_FORMAT is the number of this form. It is raised whenever a place, a link, a row or
 * what stands before them takes other bytes. Who builds slices by hand may ask for it:
 *
 *   #if LANEBOOK_SLICE_FORMAT != 1
 *   #error "slices are built for format 1"
 *   #endif
 *
 * On a run's last row, next is the row's own place. The first seven bytes of a packed row are
 * its key, and memcmp over them is the order of keys.
 *
 * THE RESULT of either call is one number: the refusal times 2^32, plus, when done, the
 * arrival (for a page: 1 where the book has more, else 0) times 2,048 plus the count of rows
 * written. Where the refusal is one of 13 to 16, the number of the row at fault stands as the
 * count; beside every other refusal there are zeros. The functions below take it apart.
 *
 * REFUSALS. A number is given exactly when its condition holds and none before it in the
 * call's order does: plan 1, 2, 13, 14, 15, 16, 3, 4, 5, 6; page 1, 2, 13, 14, 15, 16, 10,
 * 11, 6. A refused call leaves the answer slice as it was.
 *
 *   no.                          plan page  given when
 *    0  LANEBOOK_DONE             x    x    done
 *    1  LANEBOOK_BAD_MAP          x    x    the map breaks a rule, or its length is not the one
 *                                           its counts give
 *    2  LANEBOOK_BAD_BOOK         x    x    the count of rows or the next ticket is out of its
 *                                           range; a row's place or next is not on the map,
 *                                           its entry or exit above 86,400, its ticket 0 or
 *                                           not below the next ticket; or the book's length is
 *                                           not the one its count gives
 *    3  LANEBOOK_NOT_A_PLACE      x         start or destination is not a place of the map
 *    4  LANEBOOK_OFF_DAY          x         the second is above 86,400
 *    5  LANEBOOK_NO_PLAN          x         no permitted plan exists
 *    6  LANEBOOK_SHORT_ANSWER     x    x    the answer slice has room for fewer rows than the
 *                                           plan has, or than the page size (even where fewer
 *                                           rows would be shown)
 *   10  LANEBOOK_BAD_PAGE_SIZE         x    page size 0 or above 64
 *   11  LANEBOOK_BAD_CURSOR            x    cursor place not on the map, entry above 86,400 or
 *                                           ticket above 999,999
 *   13  LANEBOOK_KEYS_FALL        x    x    a row's key is not above that of the row before it
 *   14  LANEBOOK_BROKEN_RUN       x    x    a ticket's rows are not one whole run
 *   15  LANEBOOK_OVERFULL         x    x    a place has more wagons at some second than its
 *                                           capacity
 *   16  LANEBOOK_BARRED           x    x    rows that go on in the same second close a ring
 *
 * THE ROW AT FAULT. Rows are counted from 1 in the order in which the book stores them. The
 * whole book is looked through for each of 13 to 16 before the next is asked: one that
 * overfills a place at row 3 and has falling keys at row 900 is refused with 13 and row 900.
 * The row is
 *
 *   of 13  the first whose key is not above that of the row before it
 *   of 14  the first of the lowest ticket whose rows are not one whole run: stays that follow
 *          each other along links, each exit the next one's entry, each as long as its place's
 *          duration or longer, the last exactly as long, and no row besides
 *   of 15  the first that overfills its place together with rows before it alone
 *   of 16  the first that closes a ring together with rows before it alone
 *
 * So 13, 15 and 16 never name row 1. examples/installer.c says in words what is wrong at a row.
 *
 * BOOKING AND CANCELLING are not among the calls: both are done at the barn's desk, and an adviser holds
 * a copy of its map and book as slices. examples/adviser.c changes a book by hand to have something to
 * walk through; that part of it is a stand-in which nothing proves.
 *
 * WHAT THE CALLER OWES. Each pointer leads to at least as many bytes as its length says, and is
 * not NULL even where the length is 0. The answer slice shares no byte with the map or the
 * book, and nothing else writes to the three while the call runs. Any bytes and any numbers
 * may stand in them: whatever breaks a rule is refused.
 */
#ifndef LANEBOOK_H
#define LANEBOOK_H

#include <stddef.h>
#include <stdint.h>

#ifdef __cplusplus
extern "C" {
#endif

/* ---- refusals */

#define LANEBOOK_DONE 0u
#define LANEBOOK_BAD_MAP 1u
#define LANEBOOK_BAD_BOOK 2u
#define LANEBOOK_NOT_A_PLACE 3u
#define LANEBOOK_OFF_DAY 4u
#define LANEBOOK_NO_PLAN 5u
#define LANEBOOK_SHORT_ANSWER 6u
#define LANEBOOK_BAD_PAGE_SIZE 10u
#define LANEBOOK_BAD_CURSOR 11u
#define LANEBOOK_KEYS_FALL 13u
#define LANEBOOK_BROKEN_RUN 14u
#define LANEBOOK_OVERFULL 15u
#define LANEBOOK_BARRED 16u

/* ---- limits, and lengths in bytes */

#define LANEBOOK_DAY 86400u
#define LANEBOOK_MOST_PLACES 256u
#define LANEBOOK_MOST_LINKS 1024u
#define LANEBOOK_MOST_ROWS 1024u
#define LANEBOOK_MOST_ON_PAGE 64u
#define LANEBOOK_MOST_STAYS 1280u
#define LANEBOOK_TICKET_LIMIT 1000000u /* tickets issued are below it */

#define LANEBOOK_SLICE_FORMAT 1

#define LANEBOOK_PLACE_BYTES 3u
#define LANEBOOK_LINK_BYTES 2u
#define LANEBOOK_KEY_BYTES 7u
#define LANEBOOK_ROW_BYTES 11u
#define LANEBOOK_MAP_HEAD 4u
#define LANEBOOK_BOOK_HEAD 5u
#define LANEBOOK_MAP_BYTES(places, links) \
    (LANEBOOK_MAP_HEAD + LANEBOOK_PLACE_BYTES * (size_t)(places) + LANEBOOK_LINK_BYTES * (size_t)(links))
#define LANEBOOK_BOOK_BYTES(rows) (LANEBOOK_BOOK_HEAD + LANEBOOK_ROW_BYTES * (size_t)(rows))
#define LANEBOOK_ANSWER_BYTES(rows) (LANEBOOK_ROW_BYTES * (size_t)(rows))

/* ---- the calls */

/*
 * The best run from start to destination that begins at the given second, beside the booked
 * runs: no place is ever above its capacity, no ring is closed, and no permitted run arrives
 * sooner. A ring is closed where the run goes from p to q and booked runs that go on in the same
 * second lead from q to p: one of them (two wagons head-on), or several, each entering the place
 * that the next one leaves. Its stays are written in travel order with ticket 0.
 * Of runs that arrive equally soon the same one is always given. A free window is a longest stretch
 * of a place's day in which one more wagon fits for the place's duration or longer. The run enters
 * each window on its way at the earliest second at which any permitted run could, its last one being
 * the destination's that can be entered first. It comes into a window from the one out of which
 * that second can be had; where there are several, from the one with the earlier entry, then
 * the lower place, then the earlier start.
 * Done: lanebook_arrival and lanebook_count. LANEBOOK_ANSWER_BYTES(LANEBOOK_MOST_STAYS) bytes
 * are room for every plan.
 */
uint64_t lanebook_plan(const uint8_t *map, size_t map_len, const uint8_t *book, size_t book_len,
                       uint32_t start, uint32_t destination, uint32_t second,
                       uint8_t *answer, size_t answer_len);

/*
 * The book's rows with keys above the cursor (place, entry, ticket), least first: all of them,
 * or the first `size` where there are more. The answer slice needs room for `size` rows.
 * Done: lanebook_more and lanebook_count; lanebook_next_cursor gives the next page's cursor.
 * A walk begins at lanebook_first_cursor(), keeps to one map and ends at the first page without
 * more. The book may change between pages: every row that stands throughout is shown exactly
 * once, and none twice. Only the cursor's key counts; its row may be gone. A refused page is no
 * part of a walk: it leaves the cursor where it was.
 */
uint64_t lanebook_page(const uint8_t *map, size_t map_len, const uint8_t *book, size_t book_len,
                       uint32_t size, uint32_t place, uint32_t entry, uint32_t ticket,
                       uint8_t *answer, size_t answer_len);

/* ---- the result taken apart */

/* The refusal's number; LANEBOOK_DONE where there is none. */
static inline uint32_t lanebook_refusal(uint64_t result)
{
    return (uint32_t)(result >> 32);
}

/* The rows written; 0 where refused. */
static inline uint32_t lanebook_count(uint64_t result)
{
    return lanebook_refusal(result) == LANEBOOK_DONE ? (uint32_t)result % 2048u : 0;
}

/* The number, from 1, of the stored row at which the book is refused with 13, 14, 15 or 16; else 0. */
static inline uint32_t lanebook_fault_row(uint64_t result)
{
    const uint32_t refusal = lanebook_refusal(result);
    return refusal >= LANEBOOK_KEYS_FALL && refusal <= LANEBOOK_BARRED ? (uint32_t)result % 2048u : 0;
}

/* Of a plan: the second at which its last stay ends; 0 where refused. */
static inline uint32_t lanebook_arrival(uint64_t result)
{
    return (uint32_t)result / 2048u;
}

/* Of a page: 1 where the book has rows after this page's, else 0. */
static inline int lanebook_more(uint64_t result)
{
    return (uint32_t)result / 2048u != 0;
}

/* The refusal in words. */
static inline const char *lanebook_refusal_text(uint32_t refusal)
{
    switch (refusal) {
    case LANEBOOK_DONE: return "done";
    case LANEBOOK_BAD_MAP: return "the map breaks a rule";
    case LANEBOOK_BAD_BOOK: return "a count, a length or a field of the book is out of range";
    case LANEBOOK_NOT_A_PLACE: return "start or destination is not a place";
    case LANEBOOK_OFF_DAY: return "the start second is above 86,400";
    case LANEBOOK_NO_PLAN: return "no permitted plan exists";
    case LANEBOOK_SHORT_ANSWER: return "the answer slice is too short";
    case LANEBOOK_BAD_PAGE_SIZE: return "page size 0 or above 64";
    case LANEBOOK_BAD_CURSOR: return "the cursor is out of range";
    case LANEBOOK_KEYS_FALL: return "the keys of the book's rows do not rise";
    case LANEBOOK_BROKEN_RUN: return "a ticket's rows are not one whole run";
    case LANEBOOK_OVERFULL: return "a place of the book is overfilled";
    case LANEBOOK_BARRED: return "rows of the book close a ring";
    default: return "no refusal of these calls";
    }
}

/* ---- numbers and rows in slices */

/* The number that stands in `bytes` bytes, high byte first. */
static inline uint32_t lanebook_number(const uint8_t *at, size_t bytes)
{
    uint32_t number = 0;
    size_t i;
    for (i = 0; i < bytes; i++) {
        number = number << 8 | at[i];
    }
    return number;
}

/* Writes a number over `bytes` bytes, high byte first; what does not fit is cut. */
static inline void lanebook_put_number(uint8_t *at, size_t bytes, uint32_t number)
{
    while (bytes > 0) {
        bytes--;
        at[bytes] = (uint8_t)(number & 0xFFu);
        number >>= 8;
    }
}

/* A stay of a run. A plan's rows have ticket 0. */
typedef struct lanebook_row {
    uint32_t place;
    uint32_t entry;
    uint32_t ticket;
    uint32_t exit;
    uint32_t next; /* the run's next place; its own on the run's last row */
} lanebook_row;

/* The fields of the packed row that begins here. */
static inline lanebook_row lanebook_row_at(const uint8_t *at)
{
    lanebook_row row;
    row.place = at[0];
    row.entry = lanebook_number(at + 1, 3);
    row.ticket = lanebook_number(at + 4, 3);
    row.exit = lanebook_number(at + 7, 3);
    row.next = at[10];
    return row;
}

/* Packs a row into the LANEBOOK_ROW_BYTES bytes that begin here. */
static inline void lanebook_put_row(uint8_t *at, lanebook_row row)
{
    lanebook_put_number(at, 1, row.place);
    lanebook_put_number(at + 1, 3, row.entry);
    lanebook_put_number(at + 4, 3, row.ticket);
    lanebook_put_number(at + 7, 3, row.exit);
    lanebook_put_number(at + 10, 1, row.next);
}

/* The row with this index in an answer slice, from 0 to one below the count. */
static inline lanebook_row lanebook_answer_row(const uint8_t *answer, size_t index)
{
    return lanebook_row_at(answer + LANEBOOK_ANSWER_BYTES(index));
}

/* ---- cursors */

typedef struct lanebook_cursor {
    uint32_t place;
    uint32_t entry;
    uint32_t ticket;
} lanebook_cursor;

/* Where each walk begins. */
static inline lanebook_cursor lanebook_first_cursor(void)
{
    lanebook_cursor first;
    first.place = 0;
    first.entry = 0;
    first.ticket = 0;
    return first;
}

/* The cursor after a page: the key of its last row, or the cursor given where it has none or is refused. */
static inline lanebook_cursor lanebook_next_cursor(lanebook_cursor given, const uint8_t *answer, uint64_t result)
{
    if (lanebook_count(result) > 0) {
        const lanebook_row last = lanebook_answer_row(answer, lanebook_count(result) - 1);
        given.place = last.place;
        given.entry = last.entry;
        given.ticket = last.ticket;
    }
    return given;
}

#ifdef __cplusplus
}
#endif

#endif
