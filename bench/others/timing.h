/* What the programs that are timed beside each other share: the clock, numbers that are drawn, and how long single calls took. */
#ifndef TIMING_H
#define TIMING_H

#include <stdint.h>
#include <stdio.h>
#include <time.h>

static inline uint64_t now(void)
{
    struct timespec t;
    clock_gettime(CLOCK_MONOTONIC, &t);
    return (uint64_t) t.tv_sec * 1000000000u + (uint64_t) t.tv_nsec;
}

/* The next number, the same each time from the same start. */
static inline uint32_t drawn(uint32_t *state)
{
    uint32_t x = *state;
    x ^= x << 13;
    x ^= x >> 17;
    x ^= x << 5;
    return *state = x;
}

/* Prints what is timed, how many of it there are, and the least time of so many in nanoseconds. */
static inline void told(const char *name, unsigned many, int times, void (*work)(void))
{
    uint64_t least = UINT64_MAX;
    for (int i = 0; i < times; i++) {
        uint64_t start = now();
        work();
        uint64_t time = now() - start;
        if (time < least) {
            least = time;
        }
    }
    printf("%s %u %llu\n", name, many, (unsigned long long) least);
}

/* Up to how many nanoseconds single calls took; the last row is for those that took longer than any of these. */
static const uint64_t LIMITS[] = {50, 100, 200, 500, 1000, 2000, 5000, 10000, 20000, 50000, 100000, 200000, 500000, 1000000};
enum { ROWS = sizeof LIMITS / sizeof LIMITS[0] };

/* How many calls fall into each row, and the longest. */
struct spread {
    uint64_t row[ROWS + 1];
    uint64_t longest;
    uint64_t count;
};

static inline void add_time(struct spread *spread, uint64_t time)
{
    int row = 0;
    while (row < ROWS && time > LIMITS[row]) {
        row++;
    }
    spread->row[row]++;
    spread->count++;
    if (time > spread->longest) {
        spread->longest = time;
    }
}

/* Prints the longest, and how many fall into each row. */
static inline void told_spread(const char *name, const struct spread *spread)
{
    printf("longest-%s %llu %llu\n", name, (unsigned long long) spread->count, (unsigned long long) spread->longest);
    for (int row = 0; row <= ROWS; row++) {
        printf("spread-%s %llu %llu\n", name, row < ROWS ? (unsigned long long) LIMITS[row] : 0ull, (unsigned long long) spread->row[row]);
    }
}

#endif
