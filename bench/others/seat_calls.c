/* Times the calls of one seat by the library for C, 8,192 of a kind in a row, each time on a heap of its own on which no collector works: what bench/seats times of the seat itself.
   Prints for each what is timed, how many of it there are, and the least time of twenty in nanoseconds. */
#include "fodderpause.h"
#include "timing.h"
#include "work.h"

static fodderpause_collector collector = FODDERPAUSE_NO_COLLECTOR;
static fodderpause_seat seat = FODDERPAUSE_NO_SEAT;

/* The sum of what the calls answer, so that their answers are used. */
static uint64_t sum;

static void news(void)
{
    for (unsigned i = 0; i < FIELDS; i++) {
        sum += fodderpause_new_record(&seat, 2, 2).code;
    }
}

static void get_field(void)
{
    fodderpause_cell cell = fodderpause_get(&seat, 3, 1, 0);
    sum += cell.number + cell.seat + cell.stamp;
}

static void gets(void)
{
    for (unsigned i = 0; i < FIELDS; i++) {
        get_field();
    }
}

static void sets(void)
{
    for (unsigned i = 0; i < FIELDS; i++) {
        sum += fodderpause_set(&seat, 1, 0, 2).number;
    }
}

/* The first swaps, and each other finds the field swapped. */
static void swaps(void)
{
    for (unsigned i = 0; i < FIELDS; i++) {
        sum += fodderpause_cas(&seat, 1, 0, 4, 2).stamp;
    }
}

/* A get, and a compare and swap that swaps what was got. */
static void pairs(void)
{
    for (unsigned i = 0; i < FIELDS; i++) {
        get_field();
        sum += fodderpause_cas(&seat, 1, 0, 3, 2).stamp;
    }
}

static void numbers(void)
{
    for (unsigned i = 0; i < FIELDS; i++) {
        sum += fodderpause_load_number(&seat, 2, 7).code;
    }
}

static void told_calls(const char *name, void (*calls)(void))
{
    uint64_t least = UINT64_MAX;
    for (int i = 0; i < 20; i++) {
        if (fodderpause_make(1024, 16384, 32, &collector, &seat, 1) != FODDERPAUSE_DONE || fodderpause_new_record(&seat, 1, 2).code != FODDERPAUSE_DONE) {
            return;
        }
        uint64_t start = now();
        calls();
        uint64_t time = now() - start;
        if (time < least) {
            least = time;
        }
        fodderpause_drop_seat(&seat);
        fodderpause_drop_collector(&collector);
    }
    printf("%s %u %llu %llu\n", name, (unsigned) FIELDS, (unsigned long long) least, (unsigned long long) sum);
}

int main(void)
{
    told_calls("new", news);
    told_calls("get", gets);
    told_calls("set", sets);
    told_calls("cas", swaps);
    told_calls("pair", pairs);
    told_calls("num", numbers);
    return 0;
}
