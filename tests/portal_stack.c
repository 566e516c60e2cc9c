/*
 * How much stack the longest plans take. A line of 255 places of one wagon each, driven back and forth: four booked wagons sweep the
 * line in turn, to its end and back, each a second behind the wagon that is planned, which can neither wait nor turn round before
 * the line's end. Its destination, behind the line's last place, is free only after the fifth sweep, so the plan goes through every
 * free window there is. The call runs in a thread whose stack was painted before; the header promises that 128 KiB are enough.
 * usage: portal_stack
 */
#define _GNU_SOURCE
#include "lanebook.h"
#include <pthread.h>
#include <stdio.h>
#include <string.h>
#include <sys/mman.h>

enum {
    LINE = 255,
    SWEEP = LINE - 1,
    SWEEPS = 4,
    LINKS = 2 * SWEEP + 1,
    ROWS = SWEEPS * SWEEP + 1,
    STAYS = LINE + SWEEPS * SWEEP + 1,
    FREE_AT = (SWEEPS + 1) * SWEEP + 1,
    STACK = 1 << 20,
    PROMISED = 128 << 10,
    PAINT = 0xA5
};

static uint8_t map[4 + 3 * (LINE + 1) + 2 * LINKS];
static uint8_t book[5 + 11 * ROWS];
static uint8_t answer[LANEBOOK_ANSWER_BYTES(LANEBOOK_MOST_STAYS)];
static uint64_t result;

static uint8_t *put(uint8_t *at, int width, uint32_t number)
{
    for (int i = width - 1; i >= 0; i--) {
        *at++ = (uint8_t)(number >> (8 * i));
    }
    return at;
}

static uint8_t *put_row(uint8_t *at, uint32_t place, uint32_t entry, uint32_t ticket, uint32_t exit, uint32_t next)
{
    at = put(put(put(at, 1, place), 3, entry), 3, ticket);
    return put(put(at, 3, exit), 1, next);
}

static void fill_map(void)
{
    uint8_t *at = put(put(map, 2, LINE + 1), 2, LINKS);
    for (uint32_t place = 0; place < LINE; place++) {
        at = put(put(at, 1, 1), 2, 1);
    }
    at = put(put(at, 1, 1), 2, FREE_AT);
    for (uint32_t place = 0; place < SWEEP; place++) {
        at = put(put(at, 1, place), 1, place + 1);
        at = put(put(at, 1, place + 1), 1, place);
    }
    put(put(at, 1, SWEEP), 1, LINE);
}

/* The wagon that is planned begins sweep k at second k * SWEEP, at one end of the line; ticket k + 1 begins there a second later and
   ends one place before the other end. */
static void fill_book(void)
{
    uint8_t *at = put(put(book, 3, SWEEPS + 2), 2, ROWS);
    for (uint32_t place = 0; place < LINE; place++) {
        for (uint32_t sweep = 0; sweep < SWEEPS; sweep++) {
            uint32_t back = sweep % 2;
            uint32_t done = back ? SWEEP - place : place;
            uint32_t entry = sweep * SWEEP + done + 1;
            uint32_t next = done == SWEEP - 1 ? place : back ? place - 1 : place + 1;
            if (done < SWEEP) {
                at = put_row(at, place, entry, sweep + 1, entry + 1, next);
            }
        }
    }
    put_row(at, LINE, 0, SWEEPS + 1, FREE_AT, LINE);
}

static void *call(void *unused)
{
    (void)unused;
    result = lanebook_plan(map, sizeof map, book, sizeof book, 0, LINE, 0, answer, sizeof answer);
    return NULL;
}

int main(void)
{
    uint8_t *stack = mmap(NULL, STACK, PROT_READ | PROT_WRITE, MAP_PRIVATE | MAP_ANONYMOUS, -1, 0);
    pthread_attr_t attributes;
    pthread_t thread;
    if (stack == MAP_FAILED) {
        puts("no memory for a stack");
        return 1;
    }
    fill_map();
    fill_book();
    memset(stack, PAINT, STACK);
    if (pthread_attr_init(&attributes) || pthread_attr_setstack(&attributes, stack, STACK) || pthread_create(&thread, &attributes, call, NULL)
        || pthread_join(thread, NULL)) {
        puts("no thread");
        return 1;
    }
    size_t untouched = 0;
    while (untouched < STACK && stack[untouched] == PAINT) {
        untouched++;
    }
    size_t used = STACK - untouched;
    printf("a plan of %u stays took %zu bytes of a thread's stack\n", lanebook_count(result), used);
    if (lanebook_refusal(result) != LANEBOOK_DONE || lanebook_count(result) != STAYS || lanebook_arrival(result) != 2 * FREE_AT) {
        printf("expected %d stays and arrival %d; refusal %u, arrival %u\n", STAYS, 2 * FREE_AT, lanebook_refusal(result), lanebook_arrival(result));
        return 1;
    }
    return used > PROMISED;
}
