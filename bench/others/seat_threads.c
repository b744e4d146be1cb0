/* Times seats in threads of their own beside a thread that makes the collector's turns, by the library for C: each makes records with a set, a get and a poll after each.
   Prints for 1, 2 and 4 seats how many records each makes and the least time of three in nanoseconds; and how often a call was refused and made again. */
#include "fodderpause.h"
#include "timing.h"
#include "work.h"

#include <pthread.h>
#include <sched.h>
#include <stdatomic.h>
#include <stdlib.h>

static fodderpause_collector collector;
static fodderpause_seat seats[MOST_THREADS];
static atomic_int through;
static atomic_ulong refused;

static void done(uint32_t code)
{
    if (code != FODDERPAUSE_DONE) {
        fprintf(stderr, "code %u\n", (unsigned) code);
        exit(1);
    }
}

static void *work(void *handle)
{
    fodderpause_seat *seat = handle;
    done(fodderpause_new_record(seat, 1, 2).code);
    for (unsigned i = 0; i < RECORDS; i++) {
        while (fodderpause_new_record(seat, 2, 2).code != FODDERPAUSE_DONE) {
            atomic_fetch_add(&refused, 1);
            done(fodderpause_poll(seat).code);
            sched_yield();
        }
        done(fodderpause_set(seat, 1, 0, 2).code);
        done(fodderpause_get(seat, 3, 1, 0).code);
        done(fodderpause_poll(seat).code);
    }
    done(fodderpause_leave(seat).code);
    atomic_fetch_add(&through, 1);
    return NULL;
}

static uint64_t timed(int threads)
{
    pthread_t started[MOST_THREADS];
    collector = fodderpause_no_collector();
    for (int k = 0; k < threads; k++) {
        seats[k] = fodderpause_no_seat();
    }
    atomic_store(&through, 0);
    done(fodderpause_make(4096, 0, 1, &collector, seats, (size_t) threads));
    uint64_t start = now();
    for (int k = 0; k < threads; k++) {
        if (pthread_create(&started[k], NULL, work, &seats[k]) != 0) {
            exit(1);
        }
    }
    while (atomic_load(&through) < threads) {
        for (int k = 0; k < 64; k++) {
            done(fodderpause_turn(&collector).code);
        }
    }
    for (int k = 0; k < threads; k++) {
        pthread_join(started[k], NULL);
    }
    uint64_t time = now() - start;
    for (int k = 0; k < threads; k++) {
        done(fodderpause_fold_in(&collector, &seats[k]));
    }
    done(fodderpause_close(&collector));
    return time;
}

int main(void)
{
    for (int threads = 1; threads <= MOST_THREADS; threads *= 2) {
        uint64_t least = UINT64_MAX;
        for (int i = 0; i < 3; i++) {
            uint64_t time = timed(threads);
            if (time < least) {
                least = time;
            }
        }
        printf("threads-%d %u %llu\n", threads, (unsigned) RECORDS, (unsigned long long) least);
    }
    printf("waits %lu 0\n", atomic_load(&refused));
    return 0;
}
