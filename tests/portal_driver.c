/*
 * Makes the portal's calls that standard input lists, one a line, with the library:
 *
 *     plan MAP BOOK START DESTINATION SECOND BYTES
 *     page MAP BOOK SIZE PLACE ENTRY TICKET BYTES
 *
 * MAP and BOOK are uppercase hexadecimal (- for an empty slice), BYTES is the length of the
 * answer slice, the other numbers are decimal. Each call prints its result as one decimal
 * number, then each row written. peer/target/portal answers the same lines.
 *
 * Every call is made twice: with each slice's last byte right before a page that cannot be
 * touched, then with each slice's first byte right behind one. The other side of a slice is
 * filled with guard bytes. The program ends with a message and status 1 where a guard byte, a
 * byte of the map or the book, or a byte of the answer past the rows written has changed, where
 * a refusal comes with other numbers (13 to 16 name a row of the book, the others none), or where
 * the two calls differ.
 *
 * The calls take 32-bit numbers and the lines may hold larger ones. UINT32_MAX stands in for
 * those: it too is above every range.
 */
#define _DEFAULT_SOURCE
#include <errno.h>
#include <inttypes.h>
#include <stdarg.h>
#include <stdio.h>
#include <stdlib.h>
#include <string.h>
#include <sys/mman.h>
#include <unistd.h>

#include "lanebook.h"

#define GUARDS ((size_t)1024)
#define MOST_WORDS 8
/* Far more than any answer needs; longer answer slices are cut to it. */
#define LONGEST_ANSWER ((uint64_t)1 << 20)

static unsigned long line_number;

static void fail(const char *form, ...)
{
    va_list rest;
    fflush(stdout);
    fprintf(stderr, "portal_driver: line %lu: ", line_number);
    va_start(rest, form);
    vfprintf(stderr, form, rest);
    va_end(rest);
    fputc('\n', stderr);
    exit(1);
}

static void *some_memory(size_t bytes)
{
    void *memory = malloc(bytes > 0 ? bytes : 1);
    if (memory == NULL) {
        fail("out of memory");
    }
    return memory;
}

/* ---- bytes that a line names */

struct bytes {
    uint8_t *at;
    size_t len;
};

static unsigned digit(char sign)
{
    if (sign >= '0' && sign <= '9') {
        return (unsigned)(sign - '0');
    }
    if (sign >= 'A' && sign <= 'F') {
        return (unsigned)(sign - 'A') + 10;
    }
    fail("'%c' is no hexadecimal digit", sign);
    return 0;
}

static struct bytes slice_of(const char *word)
{
    struct bytes slice;
    size_t signs = strcmp(word, "-") == 0 ? 0 : strlen(word);
    size_t i;
    if (signs % 2 != 0) {
        fail("half a byte");
    }
    slice.len = signs / 2;
    slice.at = some_memory(slice.len);
    for (i = 0; i < slice.len; i++) {
        slice.at[i] = (uint8_t)(digit(word[2 * i]) * 16 + digit(word[2 * i + 1]));
    }
    return slice;
}

static uint64_t number_of(const char *word)
{
    char *end;
    unsigned long long number;
    errno = 0;
    number = strtoull(word, &end, 10);
    if (word[0] < '0' || word[0] > '9' || *end != '\0' || errno != 0) {
        fail("'%s' is no number", word);
    }
    return number;
}

static uint32_t narrow(uint64_t number)
{
    return number > UINT32_MAX ? UINT32_MAX : (uint32_t)number;
}

/* ---- slices between a page that cannot be touched and guard bytes */

/* Memory with a forbidden page at either end. */
struct field {
    uint8_t *at;
    size_t len;
};

struct lent {
    uint8_t *at;
    size_t len;
    uint8_t *guards; /* right before the slice, or right behind it */
    uint8_t guard;
};

enum side { LAST_BYTE_AT_FENCE, FIRST_BYTE_AT_FENCE };

static void make_room(struct field *field, size_t len)
{
    const size_t page = (size_t)sysconf(_SC_PAGESIZE);
    uint8_t *whole;
    if (len <= field->len) {
        return;
    }
    if (field->len > 0 && munmap(field->at - page, field->len + 2 * page) != 0) {
        fail("munmap");
    }
    field->len = (len + page - 1) / page * page;
    whole = mmap(NULL, field->len + 2 * page, PROT_NONE, MAP_PRIVATE | MAP_ANONYMOUS, -1, 0);
    if (whole == MAP_FAILED || mprotect(whole + page, field->len, PROT_READ | PROT_WRITE) != 0) {
        fail("no memory for a slice");
    }
    field->at = whole + page;
}

/* A slice of this length at one end of the field, beside guard bytes. */
static struct lent lend(struct field *field, size_t len, enum side side, uint8_t guard)
{
    struct lent lent;
    make_room(field, len + GUARDS);
    lent.len = len;
    lent.at = side == LAST_BYTE_AT_FENCE ? field->at + (field->len - len) : field->at;
    lent.guards = side == LAST_BYTE_AT_FENCE ? lent.at - GUARDS : lent.at + len;
    lent.guard = guard;
    memset(lent.guards, guard, GUARDS);
    return lent;
}

/* The index of the first byte that is not this value; the length where all are. */
static size_t first_other(const uint8_t *bytes, size_t len, uint8_t value)
{
    size_t i = 0;
    if (len > 0 && bytes[0] == value && memcmp(bytes, bytes + 1, len - 1) == 0) {
        return len;
    }
    while (i < len && bytes[i] == value) {
        i++;
    }
    return i;
}

static void check_guards(const struct lent *lent, const char *name)
{
    const size_t other = first_other(lent->guards, GUARDS, lent->guard);
    if (other < GUARDS) {
        fail("a byte outside the %s changed, %ld from its first", name, (long)(lent->guards + other - lent->at));
    }
}

static struct lent lend_copy(struct field *field, const struct bytes *bytes, enum side side, uint8_t guard)
{
    struct lent lent = lend(field, bytes->len, side, guard);
    memcpy(lent.at, bytes->at, bytes->len);
    return lent;
}

static void check_copy(const struct lent *lent, const struct bytes *bytes, const char *name)
{
    check_guards(lent, name);
    if (memcmp(lent->at, bytes->at, bytes->len) != 0) {
        fail("the %s changed", name);
    }
}

/* ---- calls */

enum kind { PLAN, PAGE };

struct call {
    enum kind kind;
    struct bytes map;
    struct bytes book;
    uint32_t asked[4];
    size_t answer_len;
};

#define FIRST_WITH_ROW 13u
#define LAST_WITH_ROW 16u

/* The count that a book slice gives; 0 where it is too short for one. */
static uint32_t rows_of_book(const struct bytes *book)
{
    return book->len < LANEBOOK_BOOK_HEAD ? 0 : lanebook_number(book->at + 3, 2);
}

/* A refusal 13 to 16 comes with the number of a row of the book, every other one with zeros. */
static void check_refusal(uint64_t result, const struct bytes *book)
{
    const uint32_t refusal = lanebook_refusal(result);
    const uint32_t row = (uint32_t)result % 2048u;
    const int names_row = refusal >= FIRST_WITH_ROW && refusal <= LAST_WITH_ROW;
    if ((uint32_t)result / 2048u != 0 || (names_row ? row < 1 || row > rows_of_book(book) : row != 0)) {
        fail("refusal %" PRIu32 " with other numbers, %" PRIu32, refusal, (uint32_t)result);
    }
}

/* The bytes that a call writes: its rows when done, none when refused. */
static size_t bytes_written(uint64_t result)
{
    return lanebook_refusal(result) == LANEBOOK_DONE ? LANEBOOK_ANSWER_BYTES(lanebook_count(result)) : 0;
}

/* Makes the call on slices at this side of their fences; the rows go to `rows`. */
static uint64_t answer_at(const struct call *call, enum side side, uint8_t fill, uint8_t *rows)
{
    static struct field map_field, book_field, answer_field;
    const struct lent map = lend_copy(&map_field, &call->map, side, 0x3C);
    const struct lent book = lend_copy(&book_field, &call->book, side, 0xC3);
    const struct lent answer = lend(&answer_field, call->answer_len, side, (uint8_t)~fill);
    const uint32_t *asked = call->asked;
    uint64_t result;
    size_t written;
    size_t kept;

    memset(answer.at, fill, answer.len);
    if (call->kind == PLAN) {
        result = lanebook_plan(map.at, map.len, book.at, book.len, asked[0], asked[1], asked[2], answer.at, answer.len);
    } else {
        result = lanebook_page(map.at, map.len, book.at, book.len, asked[0], asked[1], asked[2], asked[3], answer.at, answer.len);
    }

    check_copy(&map, &call->map, "map");
    check_copy(&book, &call->book, "book");
    check_guards(&answer, "answer");
    if (lanebook_refusal(result) != LANEBOOK_DONE) {
        check_refusal(result, &call->book);
    }
    written = bytes_written(result);
    if (written > answer.len) {
        fail("%" PRIu32 " rows in %lu bytes", lanebook_count(result), (unsigned long)answer.len);
    }
    kept = written + first_other(answer.at + written, answer.len - written, fill);
    if (kept < answer.len) {
        fail("byte %lu of the answer changed, past the %lu bytes written", (unsigned long)kept, (unsigned long)written);
    }
    memcpy(rows, answer.at, written);
    return result;
}

static void answer(const struct call *call)
{
    uint8_t *rows = some_memory(call->answer_len);
    uint8_t *again = some_memory(call->answer_len);
    const uint64_t result = answer_at(call, LAST_BYTE_AT_FENCE, 0xA5, rows);
    const uint64_t second = answer_at(call, FIRST_BYTE_AT_FENCE, 0x5A, again);
    const size_t written = bytes_written(result);
    size_t i;
    if (second != result || memcmp(rows, again, written) != 0) {
        fail("the same call answered %" PRIu64 " and then %" PRIu64 ", or other rows", result, second);
    }
    printf("%" PRIu64 "\n", result);
    for (i = 0; i < written; i++) {
        printf(i % LANEBOOK_ROW_BYTES == LANEBOOK_ROW_BYTES - 1 ? "%02X\n" : "%02X", (unsigned)rows[i]);
    }
    free(rows);
    free(again);
}

/* ---- lines */

static void answer_line(char *line)
{
    char *words[MOST_WORDS];
    size_t count = 0;
    size_t i;
    uint64_t length;
    struct call call = {0};
    char *word;
    for (word = strtok(line, " "); word != NULL; word = strtok(NULL, " ")) {
        if (count == MOST_WORDS) {
            fail("too many words");
        }
        words[count++] = word;
    }
    if (count == 7 && strcmp(words[0], "plan") == 0) {
        call.kind = PLAN;
    } else if (count == 8 && strcmp(words[0], "page") == 0) {
        call.kind = PAGE;
    } else {
        fail("neither plan with 6 words nor page with 7");
    }
    call.map = slice_of(words[1]);
    call.book = slice_of(words[2]);
    for (i = 3; i + 1 < count; i++) {
        call.asked[i - 3] = narrow(number_of(words[i]));
    }
    length = number_of(words[count - 1]);
    call.answer_len = (size_t)(length > LONGEST_ANSWER ? LONGEST_ANSWER : length);
    answer(&call);
    free(call.map.at);
    free(call.book.at);
}

int main(void)
{
    char *line = NULL;
    size_t room = 0;
    ssize_t len;
    while ((len = getline(&line, &room, stdin)) >= 0) {
        line_number++;
        if (len > 0 && line[len - 1] == '\n') {
            line[len - 1] = '\0';
        }
        answer_line(line);
    }
    free(line);
    if (fflush(stdout) != 0 || ferror(stdin)) {
        fail("input or output failed");
    }
    return 0;
}
