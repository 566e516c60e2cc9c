/*
 * An adviser at the portal: plans runs, and walks the book by pages while others book and
 * cancel. First on the small barn of the rules, then on a larger one.
 *
 * What is proved of Lanebook are the two calls. Booking and cancelling stand in here for what the
 * barn's own desk does between an adviser's pages: nothing proves these few lines, which change a
 * slice by hand. An adviser in a barn holds a copy of the desk's book and changes nothing in it.
 *
 *     gcc -std=c99 -Iinclude examples/adviser.c crates/portal/out/libportal.a -o adviser
 */
#include <inttypes.h>
#include <stdio.h>
#include <stdlib.h>
#include <string.h>

#include "lanebook.h"

#if LANEBOOK_SLICE_FORMAT != 1
#error "the maps and books below are slices of format 1"
#endif

/* ---- maps: places(2) links(2), then capacity(1) duration(2) and from(1) to(1) each */

static const uint8_t small_map[] = {
    0, 4, 0, 6,
    2, 0, 10,  1, 0, 20,  1, 0, 30,  1, 0, 10,
    0, 1,  1, 3,  0, 2,  2, 3,  3, 1,  1, 0,
};

/* The kitchen 0, a northern alley 1 2 3 and a southern one 4 5 6 to the yard 7, and a pen at the
 * end of each of 2, 3, 5 and 6. Every link goes both ways. */
static const uint8_t large_map[] = {
    0, 12, 0, 24,
    4, 0, 60,
    1, 0, 20,  1, 0, 20,  1, 0, 20,
    1, 0, 25,  1, 0, 25,  1, 0, 25,
    2, 0, 40,
    1, 0, 90,  1, 0, 90,  1, 0, 90,  1, 0, 90,
    0, 1,  1, 0,  1, 2,  2, 1,  2, 3,  3, 2,  3, 7,  7, 3,
    0, 4,  4, 0,  4, 5,  5, 4,  5, 6,  6, 5,  6, 7,  7, 6,
    2, 8,  8, 2,  3, 9,  9, 3,  5, 10,  10, 5,  6, 11,  11, 6,
};

/* ---- a barn whose book this program holds as a slice */

struct barn {
    const uint8_t *map;
    size_t map_len;
    uint8_t book[LANEBOOK_BOOK_BYTES(LANEBOOK_MOST_ROWS)];
    size_t book_len;
};

static uint32_t next_ticket(const struct barn *barn)
{
    return lanebook_number(barn->book, 3);
}

static uint32_t row_count(const struct barn *barn)
{
    return lanebook_number(barn->book + 3, 2);
}

static void set_row_count(struct barn *barn, uint32_t count)
{
    lanebook_put_number(barn->book + 3, 2, count);
    barn->book_len = LANEBOOK_BOOK_BYTES(count);
}

static uint8_t *packed_row(struct barn *barn, uint32_t index)
{
    return barn->book + LANEBOOK_BOOK_BYTES(index);
}

static struct barn empty_barn(const uint8_t *map, size_t map_len)
{
    struct barn barn;
    memset(&barn, 0, sizeof barn);
    barn.map = map;
    barn.map_len = map_len;
    lanebook_put_number(barn.book, 3, 1);
    set_row_count(&barn, 0);
    return barn;
}

/* Puts a row in its place; packed keys compare as bytes. */
static void put_in(struct barn *barn, lanebook_row row)
{
    const uint32_t count = row_count(barn);
    uint8_t packed[LANEBOOK_ROW_BYTES];
    uint32_t at = 0;
    lanebook_put_row(packed, row);
    while (at < count && memcmp(packed_row(barn, at), packed, LANEBOOK_KEY_BYTES) < 0) {
        at++;
    }
    memmove(packed_row(barn, at + 1), packed_row(barn, at), LANEBOOK_ANSWER_BYTES(count - at));
    memcpy(packed_row(barn, at), packed, LANEBOOK_ROW_BYTES);
    set_row_count(barn, count + 1);
}

/* Removes a ticket's rows and returns how many they were. */
static uint32_t cancel(struct barn *barn, uint32_t ticket)
{
    const uint32_t count = row_count(barn);
    uint32_t kept = 0;
    uint32_t at;
    for (at = 0; at < count; at++) {
        if (lanebook_row_at(packed_row(barn, at)).ticket != ticket) {
            memmove(packed_row(barn, kept), packed_row(barn, at), LANEBOOK_ROW_BYTES);
            kept++;
        }
    }
    set_row_count(barn, kept);
    return count - kept;
}

/* ---- planning */

static uint8_t plan_rows[LANEBOOK_ANSWER_BYTES(LANEBOOK_MOST_STAYS)];

/* Plans a run and prints it, each stay as place:entry-exit. */
static uint64_t plan(const struct barn *barn, uint32_t start, uint32_t destination, uint32_t second)
{
    const uint64_t result = lanebook_plan(barn->map, barn->map_len, barn->book, barn->book_len,
                                          start, destination, second, plan_rows, sizeof plan_rows);
    uint32_t i;
    printf("%" PRIu32 " to %" PRIu32 " at %" PRIu32 ": ", start, destination, second);
    if (lanebook_refusal(result) != LANEBOOK_DONE) {
        printf("refused %" PRIu32 ", %s", lanebook_refusal(result), lanebook_refusal_text(lanebook_refusal(result)));
    } else {
        for (i = 0; i < lanebook_count(result); i++) {
            const lanebook_row stay = lanebook_answer_row(plan_rows, i);
            printf("%" PRIu32 ":%" PRIu32 "-%" PRIu32 ", ", stay.place, stay.entry, stay.exit);
        }
        printf("arrival %" PRIu32, lanebook_arrival(result));
    }
    return result;
}

static void ask(const struct barn *barn, uint32_t start, uint32_t destination, uint32_t second)
{
    plan(barn, start, destination, second);
    putchar('\n');
}

/* Plans a run and, where it can be had, adds its rows under the next ticket. */
static void book(struct barn *barn, uint32_t start, uint32_t destination, uint32_t second)
{
    const uint64_t result = plan(barn, start, destination, second);
    const uint32_t ticket = next_ticket(barn);
    uint32_t i;
    if (lanebook_refusal(result) != LANEBOOK_DONE) {
        putchar('\n');
        return;
    }
    if (ticket == LANEBOOK_TICKET_LIMIT || row_count(barn) + lanebook_count(result) > LANEBOOK_MOST_ROWS) {
        puts("; the book is full");
        return;
    }
    for (i = 0; i < lanebook_count(result); i++) {
        lanebook_row stay = lanebook_answer_row(plan_rows, i);
        stay.ticket = ticket;
        put_in(barn, stay);
    }
    lanebook_put_number(barn->book, 3, ticket + 1);
    printf("; booked as ticket %" PRIu32 "\n", ticket);
}

/* ---- walking the book */

static void print_time(uint32_t second)
{
    printf("  %02" PRIu32 ":%02" PRIu32 ":%02" PRIu32, second / 3600, second / 60 % 60, second % 60);
}

static void print_row(lanebook_row row)
{
    printf("  %5" PRIu32, row.place);
    print_time(row.entry);
    print_time(row.exit);
    printf("  %6" PRIu32 "  ", row.ticket);
    if (row.next == row.place) {
        puts("ends here");
    } else {
        printf("to %" PRIu32 "\n", row.next);
    }
}

/* How often a packed row stands among others. */
static uint32_t times_among(const uint8_t *row, const uint8_t *rows, uint32_t count)
{
    uint32_t times = 0;
    uint32_t i;
    for (i = 0; i < count; i++) {
        times += memcmp(row, rows + LANEBOOK_ANSWER_BYTES(i), LANEBOOK_ROW_BYTES) == 0;
    }
    return times;
}

#define MOST_SHOWN (4 * LANEBOOK_MOST_ROWS)

/* What happens in the barn after a page of the walk. */
typedef void changes(struct barn *barn, uint32_t page);

/* Walks the book by pages of this size, prints them, and holds what was shown to what stood in the
 * book from the first page to the last. */
static void walk(struct barn *barn, uint32_t size, changes *meanwhile)
{
    static uint8_t shown[LANEBOOK_ANSWER_BYTES(MOST_SHOWN)];
    static uint8_t stood[LANEBOOK_ANSWER_BYTES(LANEBOOK_MOST_ROWS)];
    uint32_t shown_count = 0;
    uint32_t stood_count = row_count(barn);
    lanebook_cursor cursor = lanebook_first_cursor();
    uint32_t page = 0;
    uint32_t i;
    memcpy(stood, packed_row(barn, 0), LANEBOOK_ANSWER_BYTES(stood_count));
    for (;;) {
        uint8_t rows[LANEBOOK_ANSWER_BYTES(LANEBOOK_MOST_ON_PAGE)];
        const uint64_t result = lanebook_page(barn->map, barn->map_len, barn->book, barn->book_len, size,
                                              cursor.place, cursor.entry, cursor.ticket, rows, sizeof rows);
        const uint32_t count = lanebook_count(result);
        uint32_t kept = 0;
        if (lanebook_refusal(result) != LANEBOOK_DONE) {
            printf("refused %" PRIu32 ", %s\n", lanebook_refusal(result), lanebook_refusal_text(lanebook_refusal(result)));
            exit(1);
        }
        if (shown_count + count > MOST_SHOWN) {
            puts("The book changes faster than it is read.");
            exit(1);
        }
        page++;
        printf("Page %" PRIu32 " of the book, which has %" PRIu32 " rows now\n", page, row_count(barn));
        puts("  place     entry      exit  ticket");
        for (i = 0; i < count; i++) {
            print_row(lanebook_answer_row(rows, i));
        }
        memcpy(shown + LANEBOOK_ANSWER_BYTES(shown_count), rows, LANEBOOK_ANSWER_BYTES(count));
        shown_count += count;
        /* Of the rows that have stood so far, those that still do. */
        for (i = 0; i < stood_count; i++) {
            const uint8_t *row = stood + LANEBOOK_ANSWER_BYTES(i);
            if (times_among(row, packed_row(barn, 0), row_count(barn)) > 0) {
                memmove(stood + LANEBOOK_ANSWER_BYTES(kept), row, LANEBOOK_ROW_BYTES);
                kept++;
            }
        }
        stood_count = kept;
        if (!lanebook_more(result)) {
            break;
        }
        cursor = lanebook_next_cursor(cursor, rows, result);
        meanwhile(barn, page);
    }
    for (i = 0; i < stood_count; i++) {
        if (times_among(stood + LANEBOOK_ANSWER_BYTES(i), shown, shown_count) != 1) {
            puts("A row that stood throughout was not shown exactly once.");
            exit(1);
        }
    }
    printf("%" PRIu32 " pages showed %" PRIu32 " rows. The %" PRIu32 " that stood throughout were each shown once.\n\n",
           page, shown_count, stood_count);
}

static void cancel_and_say(struct barn *barn, uint32_t ticket)
{
    printf("Meanwhile ticket %" PRIu32 " is cancelled, %" PRIu32 " rows.\n", ticket, cancel(barn, ticket));
}

static void book_and_say(struct barn *barn, uint32_t start, uint32_t destination, uint32_t second)
{
    printf("Meanwhile ");
    book(barn, start, destination, second);
}

static void in_the_small_barn(struct barn *barn, uint32_t page)
{
    if (page == 1) {
        cancel_and_say(barn, 1);
    }
}

static void in_the_large_barn(struct barn *barn, uint32_t page)
{
    switch (page) {
    case 1:
        cancel_and_say(barn, 3);
        book_and_say(barn, 0, 9, 400);
        break;
    case 2:
        book_and_say(barn, 7, 10, 0);
        break;
    case 3:
        cancel_and_say(barn, 5);
        cancel_and_say(barn, 6);
        break;
    case 4:
        book_and_say(barn, 9, 0, 1000);
        break;
    default:
        break;
    }
}

int main(void)
{
    struct barn small = empty_barn(small_map, sizeof small_map);
    struct barn large = empty_barn(large_map, sizeof large_map);
    uint32_t pen;

    puts("The small barn");
    book(&small, 0, 3, 0);
    book(&small, 0, 3, 0);
    ask(&small, 0, 3, 0);
    ask(&small, 0, 3, 10);
    ask(&small, 0, 4, 0);
    ask(&small, 3, 3, 86401);
    putchar('\n');
    walk(&small, 2, in_the_small_barn);

    puts("The large barn");
    for (pen = 8; pen <= 11; pen++) {
        book(&large, 0, pen, 0);
    }
    for (pen = 8; pen <= 11; pen++) {
        book(&large, pen, 0, 300);
        book(&large, 0, pen, 300);
    }
    ask(&large, 7, 0, 0);
    putchar('\n');
    walk(&large, 12, in_the_large_barn);

    puts("The best run from the yard to the kitchen, after all that");
    ask(&large, 7, 0, 300);
    return 0;
}
