/*
 * For who installs the system in a barn: says whether a book is good on a map, and if not, which row is wrong and why.
 *
 *     installer MAP BOOK [NEXT_TICKET]
 *
 * MAP is a file of the frames 01 and 02 that were sent to lanebook. BOOK is a file of row lines as lanebook prints them, so that the
 * number of a row is the number of its line. The next ticket, in decimal digits, is one above the highest ticket of the rows unless it
 * is given. Lines are as lanebook's own: uppercase hexadecimal, ended by a line feed alone.
 *
 * The judge is the library: lanebook_page gives the refusal and the row. What this program adds is the reason, looked for in the
 * rows themselves. Where it finds none it says what the library said. It ends with 0 where the book is good, 1 where map or book is wrong,
 * and 2 where a file cannot be read as one.
 *
 *     gcc -std=c99 -Iinclude examples/installer.c crates/portal/out/libportal.a -o installer
 */
#include <errno.h>
#include <inttypes.h>
#include <stdarg.h>
#include <stdio.h>
#include <stdlib.h>
#include <string.h>

#include "lanebook.h"

#if LANEBOOK_SLICE_FORMAT != 1
#error "the map and the book below are slices of format 1"
#endif

#define MOST_COUNTED 65535u   /* what a count of two bytes holds; more of anything makes no slice */
#define MOST_TICKET 16777215u /* what the three bytes of a ticket hold */
#define MOST_CAPACITY 16u
#define MOST_DURATION 3600u
#define LONGEST_LINE LANEBOOK_ROW_BYTES /* in bytes, two digits each */

/* ---- the map and the book, in slices that hold all that can be counted */

static uint8_t map[LANEBOOK_MAP_BYTES(MOST_COUNTED, MOST_COUNTED)];
static uint32_t place_count;
static uint32_t link_count;
static uint32_t place_line[MOST_COUNTED]; /* the lines of the map's file that they stand on */
static uint32_t link_line[MOST_COUNTED];

static uint8_t book[LANEBOOK_BOOK_BYTES(MOST_COUNTED)];
static uint32_t row_count;
static uint32_t next_ticket;

static uint32_t capacity(uint32_t place)
{
    return lanebook_number(map + LANEBOOK_MAP_BYTES(place, 0), 1);
}

static uint32_t duration(uint32_t place)
{
    return lanebook_number(map + LANEBOOK_MAP_BYTES(place, 0) + 1, 2);
}

static uint32_t link_from(uint32_t link)
{
    return map[LANEBOOK_MAP_BYTES(place_count, link)];
}

static uint32_t link_to(uint32_t link)
{
    return map[LANEBOOK_MAP_BYTES(place_count, link) + 1];
}

/* The number of the first link, from 0, that leads from one place to the other; the count of links where none does. */
static uint32_t find_link(uint32_t from, uint32_t to)
{
    uint32_t link = 0;
    while (link < link_count && (link_from(link) != from || link_to(link) != to)) {
        link++;
    }
    return link;
}

/* The row with this number, from 1. */
static lanebook_row row_at(uint32_t number)
{
    return lanebook_row_at(book + LANEBOOK_BOOK_BYTES(number - 1));
}

static int ends_run(lanebook_row row)
{
    return row.next == row.place;
}

/* 1 where one row's wagon goes on into the other row's stay. */
static int leads_to(lanebook_row row, lanebook_row other)
{
    return !ends_run(row) && row.ticket == other.ticket && row.next == other.place && row.exit == other.entry;
}

/* ---- reading the files */

static void give_up(const char *format, ...)
{
    va_list values;
    va_start(values, format);
    vfprintf(stderr, format, values);
    va_end(values);
    fputc('\n', stderr);
    exit(2);
}

struct lines {
    FILE *file;
    const char *name;
    uint32_t number; /* of the line read last */
};

static struct lines open_lines(const char *name)
{
    struct lines lines;
    lines.file = fopen(name, "rb");
    lines.name = name;
    lines.number = 0;
    if (lines.file == NULL) {
        give_up("%s cannot be opened: %s.", name, strerror(errno));
    }
    return lines;
}

static void bad_line(const struct lines *lines, const char *why)
{
    give_up("%s, line %" PRIu32 ": %s.", lines->name, lines->number, why);
}

/* Reads the bytes of the next line and returns how many they are, 0 at the end of the file. */
static size_t next_line(struct lines *lines, uint8_t bytes[LONGEST_LINE])
{
    static const char digits[] = "0123456789ABCDEF";
    size_t count = 0; /* of digits */
    int c = getc(lines->file);
    lines->number++;
    if (c == '\n') {
        bad_line(lines, "the line is empty");
    }
    while (c != EOF && c != '\n') {
        const char *digit = (const char *)memchr(digits, c, 16);
        if (c == '\r') {
            bad_line(lines, "the line has a carriage return; lines end in a line feed alone");
        }
        if (digit == NULL) {
            bad_line(lines, "a character is none of 0 to 9 and A to F");
        }
        if (count == 2 * LONGEST_LINE) {
            bad_line(lines, "the line has more than 22 digits");
        }
        if (count % 2 == 0) {
            bytes[count / 2] = (uint8_t)((digit - digits) << 4);
        } else {
            bytes[count / 2] |= (uint8_t)(digit - digits);
        }
        count++;
        c = getc(lines->file);
    }
    if (ferror(lines->file)) {
        give_up("%s cannot be read: %s.", lines->name, strerror(errno));
    }
    if (count % 2 != 0) {
        bad_line(lines, "the line has an odd number of digits");
    }
    return count / 2;
}

static void read_map(const char *name)
{
    static uint8_t links[LANEBOOK_LINK_BYTES * MOST_COUNTED];
    struct lines lines = open_lines(name);
    uint8_t line[LONGEST_LINE];
    size_t length;
    while ((length = next_line(&lines, line)) > 0) {
        if (line[0] == 0x01 && length == 1 + LANEBOOK_PLACE_BYTES) {
            if (place_count == MOST_COUNTED) {
                bad_line(&lines, "more places than a map can count");
            }
            memcpy(map + LANEBOOK_MAP_BYTES(place_count, 0), line + 1, LANEBOOK_PLACE_BYTES);
            place_line[place_count++] = lines.number;
        } else if (line[0] == 0x02 && length == 1 + LANEBOOK_LINK_BYTES) {
            if (link_count == MOST_COUNTED) {
                bad_line(&lines, "more links than a map can count");
            }
            memcpy(links + LANEBOOK_LINK_BYTES * link_count, line + 1, LANEBOOK_LINK_BYTES);
            link_line[link_count++] = lines.number;
        } else {
            bad_line(&lines, "neither a place (01 and 6 digits) nor a link (02 and 4 digits)");
        }
    }
    fclose(lines.file);
    lanebook_put_number(map, 2, place_count);
    lanebook_put_number(map + 2, 2, link_count);
    memcpy(map + LANEBOOK_MAP_BYTES(place_count, 0), links, LANEBOOK_LINK_BYTES * link_count);
}

/* Reads the rows and takes the number above their highest ticket as the next one. */
static void read_book(const char *name)
{
    struct lines lines = open_lines(name);
    uint8_t line[LONGEST_LINE];
    size_t length;
    uint32_t highest = 0;
    while ((length = next_line(&lines, line)) > 0) {
        if (length != LANEBOOK_ROW_BYTES) {
            bad_line(&lines, "a row has 22 digits: place, entry, ticket, exit and next place");
        }
        if (row_count == MOST_COUNTED) {
            bad_line(&lines, "more rows than a book can count");
        }
        memcpy(book + LANEBOOK_BOOK_BYTES(row_count), line, LANEBOOK_ROW_BYTES);
        row_count++;
        if (row_at(row_count).ticket > highest) {
            highest = row_at(row_count).ticket;
        }
    }
    fclose(lines.file);
    lanebook_put_number(book + 3, 2, row_count);
    next_ticket = highest < MOST_TICKET ? highest + 1 : highest;
}

static void read_next_ticket(const char *word)
{
    const size_t length = strlen(word);
    if (length == 0 || length > 8 || strspn(word, "0123456789") != length || strtoul(word, NULL, 10) > MOST_TICKET) {
        give_up("The next ticket must be a number from 0 to %u, in decimal digits, and not \"%s\".", MOST_TICKET, word);
    }
    next_ticket = (uint32_t)strtoul(word, NULL, 10);
}

/* ---- saying it */

static void print_time(uint32_t second)
{
    printf("%02" PRIu32 ":%02" PRIu32 ":%02" PRIu32, second / 3600, second / 60 % 60, second % 60);
}

/* Some rows of the book, by number. */
struct rows {
    uint32_t count;
    uint32_t number[MOST_COUNTED];
};

static void add(struct rows *rows, uint32_t number)
{
    rows->number[rows->count++] = number;
}

/* Prints them as "rows 1, 2 and 5", the word being "row" or "Row". */
static void print_rows(const char *word, const struct rows *rows)
{
    uint32_t i;
    printf("%s%s", word, rows->count == 1 ? "" : "s");
    for (i = 0; i < rows->count; i++) {
        printf("%s %" PRIu32, i == 0 ? "" : i + 1 < rows->count ? "," : " and", rows->number[i]);
    }
}

/* ---- the reasons: each looks for one, prints it, and returns 1 where it found one, else 0 */

static int explain_map(void)
{
    uint32_t i;
    if (place_count == 0 || place_count > LANEBOOK_MOST_PLACES) {
        printf("The map is wrong: it has %" PRIu32 " places, and a map has 1 to %u.\n", place_count, LANEBOOK_MOST_PLACES);
        return 1;
    }
    if (link_count > LANEBOOK_MOST_LINKS) {
        printf("The map is wrong: it has %" PRIu32 " links, and a map has at most %u.\n", link_count, LANEBOOK_MOST_LINKS);
        return 1;
    }
    for (i = 0; i < place_count; i++) {
        if (capacity(i) == 0 || capacity(i) > MOST_CAPACITY) {
            printf("Line %" PRIu32 " of the map is wrong: place %" PRIu32 " takes %" PRIu32 " wagons, and a place takes 1 to %u.\n",
                   place_line[i], i, capacity(i), MOST_CAPACITY);
            return 1;
        }
        if (duration(i) == 0 || duration(i) > MOST_DURATION) {
            printf("Line %" PRIu32 " of the map is wrong: the duration of place %" PRIu32 " is %" PRIu32 " seconds, and a duration is 1 to %u.\n",
                   place_line[i], i, duration(i), MOST_DURATION);
            return 1;
        }
    }
    for (i = 0; i < link_count; i++) {
        const uint32_t from = link_from(i);
        const uint32_t to = link_to(i);
        if (from >= place_count || to >= place_count) {
            printf("Line %" PRIu32 " of the map is wrong: it links place %" PRIu32 " to place %" PRIu32 ", and the last place is %" PRIu32 ".\n",
                   link_line[i], from, to, place_count - 1);
            return 1;
        }
        if (from == to) {
            printf("Line %" PRIu32 " of the map is wrong: it links place %" PRIu32 " to itself.\n", link_line[i], from);
            return 1;
        }
        if (find_link(from, to) < i) {
            printf("Line %" PRIu32 " of the map is wrong: it links place %" PRIu32 " to place %" PRIu32 ", and line %" PRIu32 " does so already.\n",
                   link_line[i], from, to, link_line[find_link(from, to)]);
            return 1;
        }
    }
    return 0;
}

static int explain_field(uint32_t number, const char *field, uint32_t value, uint32_t least, uint32_t most)
{
    if (value >= least && value <= most) {
        return 0;
    }
    printf("Row %" PRIu32 " is wrong: its %s is %" PRIu32 ", and it must be %" PRIu32 " to %" PRIu32 ".\n", number, field, value, least, most);
    return 1;
}

static int explain_time(uint32_t number, const char *field, uint32_t second)
{
    if (second <= LANEBOOK_DAY) {
        return 0;
    }
    printf("Row %" PRIu32 " is wrong: its %s is ", number, field);
    print_time(second);
    printf(", and the day ends at ");
    print_time(LANEBOOK_DAY);
    puts(".");
    return 1;
}

static int explain_ranges(void)
{
    uint32_t i;
    if (row_count > LANEBOOK_MOST_ROWS) {
        printf("The book is wrong: it has %" PRIu32 " rows, and a book has at most %u.\n", row_count, LANEBOOK_MOST_ROWS);
        return 1;
    }
    for (i = 1; i <= row_count; i++) {
        const lanebook_row row = row_at(i);
        if (explain_field(i, "place", row.place, 0, place_count - 1) || explain_time(i, "entry", row.entry)
            || explain_field(i, "ticket", row.ticket, 1, LANEBOOK_TICKET_LIMIT - 1) || explain_time(i, "exit", row.exit)
            || explain_field(i, "next place", row.next, 0, place_count - 1)) {
            return 1;
        }
    }
    if (next_ticket == 0 || next_ticket > LANEBOOK_TICKET_LIMIT) {
        printf("The next ticket number is wrong: it is %" PRIu32 ", and it must be 1 to %u.\n", next_ticket, LANEBOOK_TICKET_LIMIT);
        return 1;
    }
    for (i = 1; i <= row_count; i++) {
        if (row_at(i).ticket >= next_ticket) {
            printf("Row %" PRIu32 " is wrong: its ticket is %" PRIu32 ", and it must be below the next ticket number, which is %" PRIu32 ".\n",
                   i, row_at(i).ticket, next_ticket);
            return 1;
        }
    }
    return 0;
}

static void print_key(uint32_t number)
{
    const lanebook_row row = row_at(number);
    printf("row %" PRIu32 " is place %" PRIu32 ", entry ", number, row.place);
    print_time(row.entry);
    printf(", ticket %" PRIu32, row.ticket);
}

static int explain_keys(uint32_t number)
{
    int order;
    if (number == 1) {
        return 0;
    }
    order = memcmp(book + LANEBOOK_BOOK_BYTES(number - 1), book + LANEBOOK_BOOK_BYTES(number - 2), LANEBOOK_KEY_BYTES);
    if (order > 0) {
        return 0;
    }
    if (order == 0) {
        printf("Row %" PRIu32 " is wrong: it stands twice. In place, entry and ticket it is the same as row %" PRIu32 ": ", number, number - 1);
        print_key(number);
    } else {
        printf("Row %" PRIu32 " is wrong: it comes too early to stand after row %" PRIu32 ". Rows are ordered by place, entry and ticket: ",
               number, number - 1);
        print_key(number - 1);
        printf(", and ");
        print_key(number);
    }
    puts(".");
    return 1;
}

static void print_stay(uint32_t number)
{
    const lanebook_row row = row_at(number);
    printf("  Row %" PRIu32 " is in place %" PRIu32 " from ", number, row.place);
    print_time(row.entry);
    printf(" to ");
    print_time(row.exit);
}

/* How long a row of a run stays. */
static int explain_stay(uint32_t number)
{
    const lanebook_row row = row_at(number);
    const uint32_t least = row.entry + duration(row.place);
    if (ends_run(row) ? row.exit == least : row.exit >= least) {
        return 0;
    }
    print_stay(number);
    printf(", and %s lasts %s %" PRIu32 " seconds there.\n", ends_run(row) ? "the last stay of a run" : "a stay",
           ends_run(row) ? "exactly" : "at least", duration(row.place));
    return 1;
}

/* Where a row of a run goes. */
static int explain_way(uint32_t number)
{
    const lanebook_row row = row_at(number);
    int follows = ends_run(row);
    int found = 0;
    uint32_t i;
    for (i = 1; i <= row_count; i++) {
        follows |= leads_to(row, row_at(i));
    }
    if (!ends_run(row) && find_link(row.place, row.next) == link_count) {
        printf("  Row %" PRIu32 " goes from place %" PRIu32 " to place %" PRIu32 ", and no link leads there.\n", number, row.place, row.next);
        found = 1;
    }
    if (!follows) {
        printf("  Row %" PRIu32 " goes to place %" PRIu32 " at ", number, row.next);
        print_time(row.exit);
        printf(", and no row of ticket %" PRIu32 " follows it there.\n", row.ticket);
        found = 1;
    }
    return found;
}

static int explain_run(uint32_t number)
{
    static struct rows before;
    static struct rows firsts;
    static struct rows lasts;
    const uint32_t ticket = row_at(number).ticket;
    int found = 0;
    uint32_t i;
    uint32_t j;
    printf("Ticket %" PRIu32 ", whose first row is row %" PRIu32 ", is wrong: its rows are not one whole run.\n", ticket, number);
    firsts.count = 0;
    lasts.count = 0;
    for (i = 1; i <= row_count; i++) {
        if (row_at(i).ticket != ticket) {
            continue;
        }
        found |= explain_stay(i);
        found |= explain_way(i);
        before.count = 0;
        for (j = 1; j <= row_count; j++) {
            if (leads_to(row_at(j), row_at(i))) {
                add(&before, j);
            }
        }
        if (before.count > 1) {
            print_rows("  Row", &before);
            printf(" lead to the same row, row %" PRIu32 ".\n", i);
            found = 1;
        }
        if (before.count == 0) {
            add(&firsts, i);
        }
        if (ends_run(row_at(i))) {
            add(&lasts, i);
        }
    }
    if (firsts.count > 1) {
        printf("  The run has more than one beginning: nothing leads to ");
        print_rows("row", &firsts);
        puts(".");
        found = 1;
    }
    if (lasts.count > 1) {
        printf("  The run has more than one end: ");
        print_rows("row", &lasts);
        puts(".");
        found = 1;
    }
    return found;
}

/* Rows stand by entry within a place, so a row that overfills its place does so when it enters. */
static int explain_load(uint32_t number)
{
    static struct rows there;
    const lanebook_row row = row_at(number);
    uint32_t i;
    there.count = 0;
    for (i = 1; i <= number; i++) {
        const lanebook_row other = row_at(i);
        if (other.place == row.place && other.entry <= row.entry && row.entry < other.exit) {
            add(&there, i);
        }
    }
    if (there.count <= capacity(row.place)) {
        return 0;
    }
    printf("Row %" PRIu32 " is wrong: it overfills place %" PRIu32 " at ", number, row.place);
    print_time(row.entry);
    printf(". The place takes %" PRIu32 " at a time, and ", capacity(row.place));
    print_rows("row", &there);
    puts(" are there then.");
    return 1;
}

/* Looks for a way back from where the row goes, over crossings of the same second in rows before it. */
static int explain_ring(uint32_t number)
{
    const lanebook_row row = row_at(number);
    uint32_t onward[256]; /* the row that leads from a place towards the row's own, or 0 */
    uint32_t reached[256];
    uint32_t count = 1;
    uint32_t done;
    uint32_t place;
    uint32_t i;
    memset(onward, 0, sizeof onward);
    onward[row.place] = number;
    reached[0] = row.place;
    for (done = 0; done < count; done++) {
        for (i = 1; i < number; i++) {
            const lanebook_row other = row_at(i);
            if (other.exit == row.exit && other.next == reached[done] && onward[other.place] == 0) {
                onward[other.place] = i;
                reached[count++] = other.place;
            }
        }
    }
    if (ends_run(row) || onward[row.next] == 0) {
        return 0;
    }
    printf("Row %" PRIu32 " is wrong: it closes a ring, for ", number);
    for (place = row.next; place != row.place; place = row_at(onward[place]).next) {
        printf("row %" PRIu32 " %sfrom %" PRIu32 " to %" PRIu32 ", ", onward[place], place == row.next ? "goes " : "", place,
               row_at(onward[place]).next);
    }
    printf("row %" PRIu32 " from %" PRIu32 " to %" PRIu32 ", all at ", number, row.place, row.next);
    print_time(row.exit);
    puts(".");
    return 1;
}

static int explain(uint32_t refusal, uint32_t row)
{
    if (refusal >= LANEBOOK_KEYS_FALL && (row == 0 || row > row_count)) {
        return 0;
    }
    switch (refusal) {
    case LANEBOOK_BAD_MAP: return explain_map();
    case LANEBOOK_BAD_BOOK: return explain_ranges();
    case LANEBOOK_KEYS_FALL: return explain_keys(row);
    case LANEBOOK_BROKEN_RUN: return explain_run(row);
    case LANEBOOK_OVERFULL: return explain_load(row);
    case LANEBOOK_BARRED: return explain_ring(row);
    default: return 0;
    }
}

int main(int words, char **word)
{
    const lanebook_cursor first = lanebook_first_cursor();
    uint8_t answer[LANEBOOK_ANSWER_BYTES(1)];
    uint64_t result;
    if (words != 3 && words != 4) {
        give_up("usage: installer MAP BOOK [NEXT_TICKET]");
    }
    read_map(word[1]);
    read_book(word[2]);
    if (words == 4) {
        read_next_ticket(word[3]);
    }
    lanebook_put_number(book, 3, next_ticket);
    result = lanebook_page(map, LANEBOOK_MAP_BYTES(place_count, link_count), book, LANEBOOK_BOOK_BYTES(row_count), 1,
                           first.place, first.entry, first.ticket, answer, sizeof answer);
    if (lanebook_refusal(result) == LANEBOOK_DONE) {
        printf("The book is good. It has %" PRIu32 " row%s, and the next ticket is %" PRIu32 ".\n", row_count, row_count == 1 ? "" : "s", next_ticket);
        return 0;
    }
    if (!explain(lanebook_refusal(result), lanebook_fault_row(result))) {
        printf("Refused with %" PRIu32 " at row %" PRIu32 ": %s.\n", lanebook_refusal(result), lanebook_fault_row(result),
               lanebook_refusal_text(lanebook_refusal(result)));
    }
    return 1;
}
