/* Times the calls of one seat and the turns of its collector, in one thread, by the library for C. bench/peers says what is timed. With a word, `calls`, it times calls alone,
   on heaps on which no collector works; else what a collector works on: its turns are made behind each record. */
#include "fodderpause.h"
#include "timing.h"
#include "work.h"

#include <stdlib.h>
#include <string.h>

/* The tree's nodes are in the registers of their heights, from 1 on. */
enum { HELD = 1, OTHER, GOT, NUMBER, CLEAR, ARRAY, FIRST_SHELF = 8 };

static fodderpause_collector collector = FODDERPAUSE_NO_COLLECTOR;
static fodderpause_seat seat = FODDERPAUSE_NO_SEAT;

/* How many turns are made behind each record, how often a call was refused, and how often a cycle ended. */
static int turns;
static uint64_t refused;
static uint64_t cycles;

static void done(uint32_t code)
{
    if (code != FODDERPAUSE_DONE) {
        fprintf(stderr, "code %u\n", (unsigned) code);
        exit(1);
    }
}

static void open_heap(uint32_t groups, uint32_t spine)
{
    done(fodderpause_make(groups, spine, 1, &collector, &seat, 1));
}

static void close_heap(void)
{
    done(fodderpause_leave(&seat).code);
    done(fodderpause_fold_in(&collector, &seat));
    done(fodderpause_close(&collector));
}

static uint32_t turn(void)
{
    fodderpause_turned turned = fodderpause_turn(&collector);
    if (turned.kind == FODDERPAUSE_WAITS) {
        done(fodderpause_poll(&seat).code);
    }
    cycles += turned.kind == FODDERPAUSE_ENDED;
    return turned.kind;
}

/* Makes a record, and the collector's turns; where there was no room, to the end of two cycles. */
static void record(uint32_t d)
{
    while (fodderpause_new_record(&seat, d, 2).code != FODDERPAUSE_DONE) {
        refused++;
        for (int ends = 0; ends < 2;) {
            ends += turn() == FODDERPAUSE_ENDED;
        }
    }
    for (int k = 0; k < turns; k++) {
        turn();
    }
}

static void records(void)
{
    for (unsigned i = 0; i < RECORDS; i++) {
        record(HELD);
    }
}

static void arrays(void)
{
    for (unsigned i = 0; i < ARRAYS; i++) {
        done(fodderpause_new_array(&seat, ARRAY, CELLS).code);
        for (unsigned cell = 0; cell < CELLS; cell++) {
            done(fodderpause_set(&seat, ARRAY, cell, HELD).code);
        }
        for (unsigned cell = 0; cell < CELLS; cell++) {
            done(fodderpause_get(&seat, GOT, ARRAY, cell).code);
        }
        for (int k = 0; k < 60; k++) {
            turn();
        }
    }
}

/* Makes a tree of this height in the register of its height. */
static void tree(uint32_t height)
{
    record(height + 1);
    if (height > 0) {
        for (unsigned side = 0; side < 2; side++) {
            tree(height - 1);
            done(fodderpause_set(&seat, height + 1, side, height).code);
        }
    }
}

static void trees(void)
{
    for (unsigned i = 0; i < TREES; i++) {
        tree(DEPTH);
    }
}

/* The live set: records on shelves of arrays. */
static void fill_shelves(void)
{
    for (unsigned shelf = 0; shelf < SHELVES; shelf++) {
        done(fodderpause_new_array(&seat, FIRST_SHELF + shelf, SHELF).code);
        for (unsigned cell = 0; cell < SHELF; cell++) {
            record(HELD);
            done(fodderpause_set(&seat, FIRST_SHELF + shelf, cell, HELD).code);
        }
    }
}

static void replace_some(void)
{
    uint32_t state = 1;
    for (unsigned i = 0; i < REPLACED; i++) {
        uint32_t number = drawn(&state) % (SHELVES * SHELF);
        record(HELD);
        done(fodderpause_set(&seat, FIRST_SHELF + number / SHELF, number % SHELF, HELD).code);
    }
}

/* Each record and each turn is timed by itself. */
static void single(void)
{
    static struct spread calls, steps;
    for (unsigned i = 0; i < SINGLE; i++) {
        uint64_t start = now();
        fodderpause_made made = fodderpause_new_record(&seat, HELD, 2);
        add_time(&calls, now() - start);
        refused += made.code != FODDERPAUSE_DONE;
        for (int k = 0; k < 2; k++) {
            start = now();
            turn();
            add_time(&steps, now() - start);
        }
    }
    told_spread("record", &calls);
    told_spread("turn", &steps);
}

int main(int count, char **words)
{
    (void) count;
    (void) words;
    open_heap(1024, 8192);
    turns = 2;
    told("record", RECORDS, 10, records);
    told("array", ARRAYS, 10, arrays);
    single();
    close_heap();
    open_heap(4096, 0);
    turns = 6;
    told("tree", TREES * 8191, 10, trees);
    close_heap();
    open_heap(4096, 16384);
    turns = 20;
    fill_shelves();
    told("live", REPLACED, 10, replace_some);
    close_heap();
    printf("refused %llu 0\ncycles %llu 0\n", (unsigned long long) refused, (unsigned long long) cycles);
    return 0;
}
