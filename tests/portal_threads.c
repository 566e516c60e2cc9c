/*
 * Several threads at the portal at once. The header says that the calls keep nothing, so each answer must be the one that a single
 * thread gets. One thread first makes every call alone and keeps the answers; then all threads make them together, many times and each
 * in an order of its own, over a barn of their own and over one that they share, and every result and every byte of every answer slice
 * is held to what was kept. While the threads run no map and no book can be written: a call that tries ends the test.
 * usage: portal_threads ROUNDS
 */
#define _GNU_SOURCE
#include "lanebook.h"
#include <inttypes.h>
#include <pthread.h>
#include <stdio.h>
#include <stdlib.h>
#include <string.h>
#include <sys/mman.h>

enum {
    THREADS = 6,
    SHARED = THREADS, /* the number of the barn that all share; thread t has barn t */
    PLACES = 16,      /* of a ring with a way across */
    LINKS = 2 * PLACES + 2,
    RUNS = 40,
    CALLS = 512,
    ROOM = LANEBOOK_ANSWER_BYTES(LANEBOOK_MOST_ON_PAGE),
    FILL = 0xA5
};

struct barn {
    uint8_t map[LANEBOOK_MAP_BYTES(PLACES, LINKS)];
    uint8_t book[LANEBOOK_BOOK_BYTES(LANEBOOK_MOST_ROWS)];
    size_t book_len;
};

struct answer {
    uint64_t result;
    uint8_t rows[ROOM];
};

static struct barn *barns;
static struct answer alone[THREADS + 1][CALLS];
static unsigned long rounds;
static pthread_barrier_t start;
static unsigned inside;   /* threads within a call */
static uint64_t together; /* calls begun while another thread was within one */

static void fail(const char *what)
{
    printf("portal_threads: %s\n", what);
    exit(1);
}

/* ---- barns, each with other durations and runs */

static void put_link(struct barn *barn, uint32_t index, uint32_t from, uint32_t to)
{
    uint8_t *at = barn->map + LANEBOOK_MAP_BYTES(PLACES, index);
    lanebook_put_number(at, 1, from);
    lanebook_put_number(at + 1, 1, to);
}

static void fill_map(struct barn *barn, uint32_t number)
{
    lanebook_put_number(barn->map, 2, PLACES);
    lanebook_put_number(barn->map + 2, 2, LINKS);
    for (uint32_t place = 0; place < PLACES; place++) {
        lanebook_put_number(barn->map + LANEBOOK_MAP_BYTES(place, 0), 1, 1 + (place + number) % 3 / 2);
        lanebook_put_number(barn->map + LANEBOOK_MAP_BYTES(place, 0) + 1, 2, 5 + number + 3 * place % 7);
        put_link(barn, 2 * place, place, (place + 1) % PLACES);
        put_link(barn, 2 * place + 1, (place + 1) % PLACES, place);
    }
    put_link(barn, LINKS - 2, 0, PLACES / 2);
    put_link(barn, LINKS - 1, PLACES / 2, 0);
}

static void put_in(struct barn *barn, lanebook_row row)
{
    const uint32_t count = lanebook_number(barn->book + 3, 2);
    uint8_t packed[LANEBOOK_ROW_BYTES];
    uint8_t *at = barn->book + LANEBOOK_BOOK_HEAD;
    uint8_t *end = at + LANEBOOK_ANSWER_BYTES(count);
    if (count == LANEBOOK_MOST_ROWS) {
        fail("more rows than a book holds");
    }
    lanebook_put_row(packed, row);
    while (at < end && memcmp(at, packed, LANEBOOK_KEY_BYTES) < 0) {
        at += LANEBOOK_ROW_BYTES;
    }
    memmove(at + LANEBOOK_ROW_BYTES, at, (size_t)(end - at));
    memcpy(at, packed, LANEBOOK_ROW_BYTES);
    lanebook_put_number(barn->book + 3, 2, count + 1);
    barn->book_len = LANEBOOK_BOOK_BYTES(count + 1);
}

static void fill_book(struct barn *barn, uint32_t number)
{
    static uint8_t rows[LANEBOOK_ANSWER_BYTES(LANEBOOK_MOST_STAYS)];
    uint32_t ticket = 1;
    barn->book_len = LANEBOOK_BOOK_BYTES(0);
    for (uint32_t run = 0; run < RUNS; run++) {
        lanebook_put_number(barn->book, 3, ticket);
        const uint64_t plan = lanebook_plan(barn->map, sizeof barn->map, barn->book, barn->book_len, (5 * run + number) % PLACES,
                                            (11 * run + 3) % PLACES, 9 * run, rows, sizeof rows);
        for (uint32_t i = 0; i < lanebook_count(plan); i++) {
            lanebook_row row = lanebook_answer_row(rows, i);
            row.ticket = ticket;
            put_in(barn, row);
        }
        ticket += lanebook_count(plan) > 0;
    }
    lanebook_put_number(barn->book, 3, ticket);
}

/* ---- the calls: plans and pages in turn, some of them to be refused (1, 2, 3, 5, 10 and 11) */

static void make(uint32_t number, uint32_t call, struct answer *answer)
{
    const struct barn *barn = &barns[number];
    const uint32_t i = call / 2;
    const size_t map_len = sizeof barn->map - (call % 64 == 10);
    const size_t book_len = barn->book_len - (call % 64 == 21);
    memset(answer->rows, FILL, ROOM);
    if (call % 2 == 0) {
        answer->result = lanebook_plan(barn->map, map_len, barn->book, book_len, i % (PLACES + 1), i * 7 % PLACES, 13 * i % 400, answer->rows, ROOM);
    } else {
        answer->result = lanebook_page(barn->map, map_len, barn->book, book_len, i % (LANEBOOK_MOST_ON_PAGE + 2), i * 5 % (PLACES + 1), 29 * i % 500,
                                       i % RUNS, answer->rows, ROOM);
    }
}

static void check(uint32_t thread, uint32_t number, uint32_t call)
{
    const struct answer *want = &alone[number][call];
    struct answer got;
    /* Relaxed, so that counting orders nothing between the threads. */
    if (__atomic_fetch_add(&inside, 1, __ATOMIC_RELAXED) > 0) {
        __atomic_fetch_add(&together, 1, __ATOMIC_RELAXED);
    }
    make(number, call, &got);
    __atomic_fetch_sub(&inside, 1, __ATOMIC_RELAXED);
    if (got.result != want->result || memcmp(got.rows, want->rows, ROOM) != 0) {
        printf("portal_threads: thread %" PRIu32 ", barn %" PRIu32 ", call %" PRIu32 ": %" PRIu64 ", alone %" PRIu64 ", or other rows\n", thread,
               number, call, got.result, want->result);
        exit(1);
    }
}

static void *work(void *number)
{
    const uint32_t thread = *(const uint32_t *)number;
    pthread_barrier_wait(&start);
    for (unsigned long round = 0; round < rounds; round++) {
        for (uint32_t i = 0; i < CALLS; i++) {
            const uint32_t call = (uint32_t)(((2 * thread + 1) * i + 31 * round) % CALLS);
            check(thread, thread, call);
            check(thread, SHARED, call);
        }
    }
    return NULL;
}

int main(int words, char **word)
{
    pthread_t threads[THREADS];
    uint32_t numbers[THREADS];
    uint32_t done = 0;
    rounds = words == 2 ? strtoul(word[1], NULL, 10) : 0;
    if (rounds == 0) {
        fail("usage: portal_threads ROUNDS");
    }
    barns = mmap(NULL, (THREADS + 1) * sizeof *barns, PROT_READ | PROT_WRITE, MAP_PRIVATE | MAP_ANONYMOUS, -1, 0);
    if (barns == MAP_FAILED) {
        fail("no memory for the barns");
    }
    for (uint32_t number = 0; number <= THREADS; number++) {
        fill_map(&barns[number], number);
        fill_book(&barns[number], number);
        for (uint32_t call = 0; call < CALLS; call++) {
            make(number, call, &alone[number][call]);
            done += lanebook_count(alone[number][call].result) > 0;
        }
    }
    /* Were the barns' answers alike, or mostly refusals, the comparison would say little. */
    for (uint32_t number = 0; number < THREADS; number++) {
        uint32_t differ = 0;
        for (uint32_t call = 0; call < CALLS; call++) {
            differ += memcmp(&alone[number][call], &alone[number + 1][call], sizeof alone[number][call]) != 0;
        }
        if (differ < CALLS / 2) {
            fail("the barns' answers are alike");
        }
    }
    if (done < (THREADS + 1) * CALLS / 2) {
        fail("most calls show no row");
    }
    if (mprotect(barns, (THREADS + 1) * sizeof *barns, PROT_READ) != 0 || pthread_barrier_init(&start, NULL, THREADS) != 0) {
        fail("mprotect or a barrier");
    }
    for (uint32_t number = 0; number < THREADS; number++) {
        numbers[number] = number;
        if (pthread_create(&threads[number], NULL, work, &numbers[number]) != 0) {
            fail("no thread");
        }
    }
    for (uint32_t number = 0; number < THREADS; number++) {
        if (pthread_join(threads[number], NULL) != 0) {
            fail("no end of a thread");
        }
    }
    printf("%d threads made %lu calls, %" PRIu64 " of them while another was within one, and got the answers that one thread gets alone\n", THREADS,
           2 * rounds * CALLS * THREADS, together);
    if (together == 0) {
        fail("no two calls were made at once");
    }
    return 0;
}
