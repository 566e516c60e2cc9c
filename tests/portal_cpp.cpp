/*
 * The portal from C++: a class around the calls, linked with the archive, plans in the small barn of the rules, books by hand, walks the
 * book by pages of two while a ticket is cancelled, and holds every number to those of the rules' cases (examples/adviser.out has them).
 * Then books that are wrong, each in one way: both calls must give the refusal and the row at fault, and leave answer and cursor alone.
 * usage: portal_cpp
 */
#include "lanebook.h"
#include <algorithm>
#include <cstdio>
#include <cstdlib>
#include <string>
#include <vector>

static bool operator==(const lanebook_row &a, const lanebook_row &b)
{
    return a.place == b.place && a.entry == b.entry && a.ticket == b.ticket && a.exit == b.exit && a.next == b.next;
}

namespace {

typedef std::vector<uint8_t> Bytes;

void expect(bool holds, const char *what)
{
    if (!holds) {
        std::printf("portal_cpp: %s\n", what);
        std::exit(1);
    }
}

/* The answer to either call; arrival is 1 or 0 for a page with more rows behind it or none. */
struct Answer {
    uint32_t refusal;
    uint32_t arrival;
    std::vector<lanebook_row> rows;

    Answer(uint64_t result, const Bytes &slice) : refusal(lanebook_refusal(result)), arrival(lanebook_arrival(result))
    {
        for (uint32_t i = 0; i < lanebook_count(result); i++) {
            rows.push_back(lanebook_answer_row(slice.data(), i));
        }
    }

    bool is(uint32_t when, const std::vector<lanebook_row> &what) const
    {
        return refusal == LANEBOOK_DONE && arrival == when && rows == what;
    }
};

Bytes packed_book(uint32_t next_ticket, const std::vector<lanebook_row> &rows)
{
    Bytes book(LANEBOOK_BOOK_BYTES(rows.size()));
    lanebook_put_number(book.data(), 3, next_ticket);
    lanebook_put_number(book.data() + 3, 2, static_cast<uint32_t>(rows.size()));
    for (size_t i = 0; i < rows.size(); i++) {
        lanebook_put_row(book.data() + LANEBOOK_BOOK_BYTES(i), rows[i]);
    }
    return book;
}

class Barn {
public:
    explicit Barn(const Bytes &slice) : map(slice), next_ticket(1) {}

    Answer plan(uint32_t start, uint32_t destination, uint32_t second) const
    {
        const Bytes book = packed();
        Bytes slice(LANEBOOK_ANSWER_BYTES(LANEBOOK_MOST_STAYS));
        const uint64_t result = lanebook_plan(map.data(), map.size(), book.data(), book.size(), start, destination, second,
                                              slice.data(), slice.size());
        return Answer(result, slice);
    }

    Answer page(uint32_t size, lanebook_cursor &at) const
    {
        const Bytes book = packed();
        Bytes slice(LANEBOOK_ANSWER_BYTES(LANEBOOK_MOST_ON_PAGE));
        const uint64_t result = lanebook_page(map.data(), map.size(), book.data(), book.size(), size, at.place, at.entry, at.ticket,
                                              slice.data(), slice.size());
        at = lanebook_next_cursor(at, slice.data(), result);
        return Answer(result, slice);
    }

    void enter(std::vector<lanebook_row> run)
    {
        for (lanebook_row &row : run) {
            row.ticket = next_ticket;
            rows.push_back(row);
        }
        next_ticket++;
        std::sort(rows.begin(), rows.end(), [](const lanebook_row &a, const lanebook_row &b) {
            return a.place != b.place ? a.place < b.place : a.entry != b.entry ? a.entry < b.entry : a.ticket < b.ticket;
        });
    }

    void cancel(uint32_t ticket)
    {
        rows.erase(std::remove_if(rows.begin(), rows.end(), [ticket](const lanebook_row &row) { return row.ticket == ticket; }), rows.end());
    }

private:
    Bytes packed() const
    {
        return packed_book(next_ticket, rows);
    }

    Bytes map;
    uint32_t next_ticket;
    std::vector<lanebook_row> rows;
};

/* Both calls refuse the book with this number and row (0 for none), and change neither the answer slice nor the cursor. The plan's
   destination is off the map and the page's size 0, so that what is wrong with the book must be asked for first. */
void expect_fault(const Bytes &map, const Bytes &book, uint32_t refusal, uint32_t row, const char *what)
{
    const Bytes filled(LANEBOOK_ANSWER_BYTES(LANEBOOK_MOST_ON_PAGE), 0xA5);
    const lanebook_cursor given = {1, 2, 3};
    Bytes slice = filled;
    const uint64_t results[] = {
        lanebook_plan(map.data(), map.size(), book.data(), book.size(), 0, 255, 0, slice.data(), slice.size()),
        lanebook_page(map.data(), map.size(), book.data(), book.size(), 0, given.place, given.entry, given.ticket, slice.data(), slice.size()),
    };
    for (uint64_t result : results) {
        const lanebook_cursor after = lanebook_next_cursor(given, slice.data(), result);
        expect(lanebook_refusal(result) == refusal && lanebook_fault_row(result) == row, what);
        expect(result == (static_cast<uint64_t>(refusal) << 32) + row, what);
        expect(lanebook_count(result) == 0 && lanebook_arrival(result) == 0 && !lanebook_more(result), what);
        expect(after.place == given.place && after.entry == given.entry && after.ticket == given.ticket, what);
        expect(slice == filled, what);
    }
}

/* The numbers as they go over the wire, their words, and that a row is read off 13 to 16 alone. */
void expect_words()
{
    static_assert(LANEBOOK_KEYS_FALL == 13 && LANEBOOK_BROKEN_RUN == 14 && LANEBOOK_OVERFULL == 15 && LANEBOOK_BARRED == 16, "numbers");
    const std::string none = lanebook_refusal_text(12);
    std::vector<std::string> texts;
    for (uint32_t refusal = 0; refusal <= 17; refusal++) {
        const bool given = refusal <= 6 || refusal == 10 || refusal == 11 || (refusal >= 13 && refusal <= 16);
        const bool has_row = refusal >= 13 && refusal <= 16;
        const std::string text = lanebook_refusal_text(refusal);
        const uint64_t result = (static_cast<uint64_t>(refusal) << 32) + 1024;
        expect(given == (text != none), "a refusal without words, or words without a refusal");
        expect(!given || std::count(texts.begin(), texts.end(), text) == 0, "two refusals in the same words");
        expect(lanebook_fault_row(result) == (has_row ? 1024u : 0u), "the row at fault");
        expect(lanebook_count(result) == (refusal == LANEBOOK_DONE ? 1024u : 0u), "the count beside a refusal");
        texts.push_back(text);
    }
    expect(std::string(lanebook_refusal_text(LANEBOOK_KEYS_FALL)) == "the keys of the book's rows do not rise", "the words of 13");
    expect(std::string(lanebook_refusal_text(LANEBOOK_BROKEN_RUN)) == "a ticket's rows are not one whole run", "the words of 14");
    expect(std::string(lanebook_refusal_text(LANEBOOK_OVERFULL)) == "a place of the book is overfilled", "the words of 15");
    expect(std::string(lanebook_refusal_text(LANEBOOK_BARRED)) == "rows of the book close a ring", "the words of 16");
}

} // namespace

int main()
{
    const Bytes small = {
        0, 4, 0, 6,
        2, 0, 10,  1, 0, 20,  1, 0, 30,  1, 0, 10,
        0, 1,  1, 3,  0, 2,  2, 3,  3, 1,  1, 0,
    };
    Barn barn(small);
    const Answer first = barn.plan(0, 3, 0);
    expect(first.is(40, {{0, 0, 0, 10, 1}, {1, 10, 0, 30, 3}, {3, 30, 0, 40, 3}}), "the first plan");
    barn.enter(first.rows);
    const Answer second = barn.plan(0, 3, 0);
    expect(second.is(50, {{0, 0, 0, 10, 2}, {2, 10, 0, 40, 3}, {3, 40, 0, 50, 3}}), "the second plan");
    barn.enter(second.rows);
    expect(barn.plan(0, 3, 0).refusal == LANEBOOK_NO_PLAN, "a plan where there is none");
    expect(barn.plan(0, 3, 10).is(60, {{0, 10, 0, 30, 1}, {1, 30, 0, 50, 3}, {3, 50, 0, 60, 3}}), "the plan ten seconds later");
    expect(barn.plan(0, 4, 0).refusal == LANEBOOK_NOT_A_PLACE, "a destination off the map");
    expect(barn.plan(3, 3, 86401).refusal == LANEBOOK_OFF_DAY, "a second off the day");

    lanebook_cursor at = lanebook_first_cursor();
    expect(barn.page(2, at).is(1, {{0, 0, 1, 10, 1}, {0, 0, 2, 10, 2}}), "the first page");
    barn.cancel(1);
    expect(barn.page(2, at).is(0, {{2, 10, 2, 40, 3}, {3, 40, 2, 50, 3}}), "the second page, after a cancellation");
    expect(barn.page(65, at).refusal == LANEBOOK_BAD_PAGE_SIZE, "a page of 65 rows");

    const Bytes flat = {0, 1, 0, 0, 0, 0, 10};
    const Bytes wide = {0, 3, 0, 3,  2, 0, 10,  2, 0, 10,  2, 0, 10,  0, 1,  1, 2,  2, 0};
    const std::vector<lanebook_row> good = {{0, 0, 1, 10, 1}, {0, 0, 2, 10, 2}, {1, 10, 1, 30, 3}, {2, 10, 2, 40, 3}, {3, 30, 1, 40, 3}, {3, 40, 2, 50, 3}};
    Bytes cut = packed_book(3, good);
    cut.pop_back();
    expect_fault(flat, packed_book(3, good), LANEBOOK_BAD_MAP, 0, "a map that breaks a rule");
    expect_fault(small, cut, LANEBOOK_BAD_BOOK, 0, "a book of another length");
    expect_fault(small, packed_book(0, good), LANEBOOK_BAD_BOOK, 0, "next ticket 0");
    expect_fault(small, packed_book(2, good), LANEBOOK_BAD_BOOK, 0, "a ticket not below the next");
    expect_fault(small, packed_book(2, {{4, 0, 1, 10, 4}}), LANEBOOK_BAD_BOOK, 0, "a row off the map");
    expect_fault(small, packed_book(2, {{3, 86391, 1, 86401, 3}}), LANEBOOK_BAD_BOOK, 0, "a row off the day");
    expect_fault(small, packed_book(2, std::vector<lanebook_row>(1025, good[0])), LANEBOOK_BAD_BOOK, 0, "1,025 rows");
    expect_fault(small, packed_book(2, std::vector<lanebook_row>(1024, good[0])), LANEBOOK_KEYS_FALL, 2, "a row that stands 1,024 times");
    expect_fault(small, packed_book(3, {good[0], good[2], good[1]}), LANEBOOK_KEYS_FALL, 3, "a row that comes too early");
    expect_fault(small, packed_book(2, {{3, 0, 1, 9, 3}}), LANEBOOK_BROKEN_RUN, 1, "a last stay too short");
    expect_fault(small, packed_book(2, {{3, 0, 1, 11, 3}}), LANEBOOK_BROKEN_RUN, 1, "a last stay too long");
    expect_fault(small, packed_book(2, {{0, 0, 1, 9, 1}, {1, 9, 1, 29, 1}}), LANEBOOK_BROKEN_RUN, 1, "a stay too short");
    expect_fault(small, packed_book(2, {{0, 0, 1, 10, 3}, {3, 10, 1, 20, 3}}), LANEBOOK_BROKEN_RUN, 1, "a step without a link");
    expect_fault(small, packed_book(2, {{0, 0, 1, 10, 1}}), LANEBOOK_BROKEN_RUN, 1, "a run without an end");
    expect_fault(small, packed_book(2, {{0, 0, 1, 10, 0}, {0, 50, 1, 60, 0}}), LANEBOOK_BROKEN_RUN, 1, "a run with two ends");
    expect_fault(small, packed_book(2, {{0, 0, 1, 10, 1}, {1, 10, 1, 30, 1}, {3, 0, 1, 10, 1}}), LANEBOOK_BROKEN_RUN, 1, "a run with two beginnings");
    expect_fault(small, packed_book(3, {{0, 0, 2, 10, 1}, {2, 0, 1, 10, 2}}), LANEBOOK_BROKEN_RUN, 2, "the lowest of two broken tickets");
    expect_fault(small, packed_book(4, {{1, 0, 1, 20, 1}, {1, 20, 2, 40, 1}, {1, 39, 3, 59, 1}}), LANEBOOK_OVERFULL, 3, "two wagons where one may be");
    expect_fault(small, packed_book(3, {{0, 20, 1, 30, 1}, {0, 30, 2, 40, 0}, {1, 10, 2, 30, 0}, {1, 30, 1, 50, 1}}), LANEBOOK_BARRED, 3, "two wagons head-on");
    expect_fault(wide, packed_book(4, {{0, 0, 1, 10, 1}, {0, 10, 3, 20, 0}, {1, 0, 2, 10, 2}, {1, 10, 1, 20, 1}, {2, 0, 3, 10, 0}, {2, 10, 2, 20, 2}}),
                 LANEBOOK_BARRED, 5, "three wagons in a ring");
    expect_fault(small, packed_book(4, {{1, 0, 1, 20, 1}, {1, 10, 2, 30, 1}, {1, 5, 3, 25, 1}}), LANEBOOK_KEYS_FALL, 3, "falling keys after an overfilled place");
    expect_fault(small, packed_book(4, {{1, 0, 1, 20, 1}, {1, 10, 2, 30, 1}, {3, 0, 3, 9, 3}}), LANEBOOK_BROKEN_RUN, 3, "a broken run after an overfilled place");
    expect_fault(small, packed_book(5, {{0, 20, 1, 30, 1}, {0, 30, 2, 40, 0}, {1, 10, 2, 30, 0}, {1, 30, 1, 50, 1}, {3, 0, 3, 10, 3}, {3, 5, 4, 15, 3}}),
                 LANEBOOK_OVERFULL, 6, "an overfilled place after a ring");
    expect_words();
    std::puts("C++: the small barn planned and walked, and books that are wrong refused at the right rows");
    return 0;
}
