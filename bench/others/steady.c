/* Makes as many calls of a seat of a heap without logs as its one argument says, beside the collector's turns, by the library for C: in turn a record, a set, a get and a copy, with
   two turns after each record. Prints how many calls were made, how many were refused, how many cycles ended, how many sets are left, the time in nanoseconds and the most memory that the process had, in kB. */
#include "fodderpause.h"
#include "timing.h"

#include <stdlib.h>
#include <sys/resource.h>

static fodderpause_collector collector = FODDERPAUSE_NO_COLLECTOR;
static fodderpause_seat seat = FODDERPAUSE_NO_SEAT;
static uint64_t refused;
static uint64_t cycles;

static void turn(void)
{
    fodderpause_turned turned = fodderpause_turn(&collector);
    if (turned.kind == FODDERPAUSE_WAITS) {
        refused += fodderpause_poll(&seat).code != FODDERPAUSE_DONE;
    }
    cycles += turned.kind == FODDERPAUSE_ENDED;
}

/* A record, a set that keeps it and drops the one before, a get of it, and a copy. */
static void four_calls(void)
{
    refused += fodderpause_new_record(&seat, 1, 2).code != FODDERPAUSE_DONE;
    refused += fodderpause_set(&seat, 4, 0, 1).code != FODDERPAUSE_DONE;
    refused += fodderpause_get(&seat, 2, 4, 0).code != FODDERPAUSE_DONE;
    refused += fodderpause_copy(&seat, 3, 2).code != FODDERPAUSE_DONE;
    turn();
    turn();
}

int main(int count, char **words)
{
    uint64_t calls = count == 2 ? strtoull(words[1], NULL, 10) : 0;
    if (fodderpause_make(64, 0, 1, &collector, &seat, 1) != FODDERPAUSE_DONE || fodderpause_new_record(&seat, 4, 2).code != FODDERPAUSE_DONE) {
        return 1;
    }
    uint64_t start = now();
    for (uint64_t made = 0; made < calls; made += 4) {
        four_calls();
    }
    uint64_t time = now() - start;
    struct rusage used;
    if (getrusage(RUSAGE_SELF, &used) != 0) {
        return 1;
    }
    printf("%llu %llu %llu %llu %llu %ld\n", (unsigned long long) calls, (unsigned long long) refused, (unsigned long long) cycles,
           (unsigned long long) fodderpause_sets_left(&seat).sets, (unsigned long long) time, used.ru_maxrss);
    return refused != 0;
}
