/* A map that four threads share: a table of lists, to which entries are added, and in which values are changed, by compare and swap, beside a thread that makes the collector's turns. */
#define _POSIX_C_SOURCE 200809L
/* Three other threads may take what a cycle frees before the fourth comes to it, which on a busy machine happens again and again. */
#define FODDERPAUSE_CYCLES 1000
#include "registers.h"

#include <pthread.h>
#include <sched.h>
#include <stdatomic.h>

enum { THREADS = 4, BUCKETS = 256, KEYS = 1000, EACH = 50000 };

enum { TABLE = 1, HEAD, ENTRY, VALUE, FRESH, MADE, NUMBER };

/* An entry's fields, and a value's: what was put, which how many-th of its key it is, by whom, and the checksum of the three. */
enum { ITS_KEY, ITS_NEXT, ITS_VALUE, ENTRY_FIELDS };
enum { WHAT, WHICH, BY_WHOM, CHECKSUM, VALUE_FIELDS };

static fodderpause_collector collector = FODDERPAUSE_NO_COLLECTOR;
static fodderpause_seat seats[THREADS] = {FODDERPAUSE_NO_SEAT, FODDERPAUSE_NO_SEAT, FODDERPAUSE_NO_SEAT, FODDERPAUSE_NO_SEAT};

static atomic_int through;
static atomic_long puts_made;
static atomic_long wrong;
static long values_found;

static uint32_t sum(uint32_t what, uint32_t which, uint32_t whom)
{
    return (what * 2654435761u ^ which * 40503u ^ whom) & 0x3fffffff;
}

/* Makes a record; where fragments are too few, it answers the phase and waits for the collector. */
static void new_record(fodderpause_seat *seat, uint32_t d, uint32_t fields)
{
    done(fodderpause_new_record_or_collect(seat, d, fields).code);
}

static void set_number(fodderpause_seat *seat, uint32_t r, uint32_t i, uint32_t n)
{
    num(seat, NUMBER, n);
    set(seat, r, i, NUMBER);
}

/* FRESH gets a value. */
static void make_value(fodderpause_seat *seat, uint32_t what, uint32_t which, uint32_t whom)
{
    new_record(seat, FRESH, VALUE_FIELDS);
    set_number(seat, FRESH, WHAT, what);
    set_number(seat, FRESH, WHICH, which);
    set_number(seat, FRESH, BY_WHOM, whom);
    set_number(seat, FRESH, CHECKSUM, sum(what, which, whom));
}

/* Which how many-th value of its key register VALUE's is; a value whose checksum is another's is counted. */
static uint32_t check_value(fodderpause_seat *seat)
{
    uint32_t what = get(seat, NUMBER, VALUE, WHAT).number;
    uint32_t which = get(seat, NUMBER, VALUE, WHICH).number;
    uint32_t whom = get(seat, NUMBER, VALUE, BY_WHOM).number;
    if (get(seat, NUMBER, VALUE, CHECKSUM).number != sum(what, which, whom)) {
        atomic_fetch_add(&wrong, 1);
    }
    return which;
}

/* ENTRY gets the entry of this key in the bucket's list, whose first HEAD then holds; false where there is none. */
static bool found(fodderpause_seat *seat, uint32_t key)
{
    get(seat, HEAD, TABLE, key % BUCKETS);
    for (copy(seat, ENTRY, HEAD); fodderpause_length(seat, ENTRY).code == FODDERPAUSE_DONE; get(seat, ENTRY, ENTRY, ITS_NEXT)) {
        if (get(seat, NUMBER, ENTRY, ITS_KEY).number == key) {
            return true;
        }
    }
    return false;
}

/* Gives the key a value that is one more than its last. */
static void put(fodderpause_seat *seat, uint32_t key, uint32_t what, uint32_t whom)
{
    for (;;) {
        if (found(seat, key)) {
            get(seat, VALUE, ENTRY, ITS_VALUE);
            make_value(seat, what, check_value(seat) + 1, whom);
            fodderpause_swap swap = fodderpause_cas(seat, ENTRY, ITS_VALUE, VALUE, FRESH);
            done(swap.code);
            if (swap.swapped == 1) {
                break;
            }
        } else {
            make_value(seat, what, 1, whom);
            new_record(seat, MADE, ENTRY_FIELDS);
            set_number(seat, MADE, ITS_KEY, key);
            set(seat, MADE, ITS_NEXT, HEAD);
            set(seat, MADE, ITS_VALUE, FRESH);
            fodderpause_swap swap = fodderpause_cas(seat, TABLE, key % BUCKETS, HEAD, MADE);
            done(swap.code);
            if (swap.swapped == 1) {
                break;
            }
        }
        done(fodderpause_poll(seat).code);
    }
    atomic_fetch_add(&puts_made, 1);
}

/* How many values all keys have had together. */
static long count_values(fodderpause_seat *seat)
{
    long all = 0;
    for (uint32_t key = 0; key < KEYS; key++) {
        if (found(seat, key)) {
            get(seat, VALUE, ENTRY, ITS_VALUE);
            all += check_value(seat);
        }
    }
    return all;
}

/* A thread's calls: as many gets as puts, of keys that a small generator draws. The first counts what all have put, once the others are through. */
static void *work(void *own)
{
    fodderpause_seat *seat = own;
    uint32_t whom = (uint32_t) (seat - seats);
    uint32_t drawn = whom + 1;
    get(seat, TABLE, BOARD, 0);
    for (uint32_t k = 0; k < EACH; k++) {
        drawn = drawn * 1664525u + 1013904223u;
        uint32_t key = (drawn >> 8) % KEYS;
        if (k % 2 == 0) {
            put(seat, key, drawn >> 4 & 0xfffff, whom);
        } else if (found(seat, key)) {
            get(seat, VALUE, ENTRY, ITS_VALUE);
            check_value(seat);
        }
        done(fodderpause_poll(seat).code);
    }
    if (whom == 0) {
        while (atomic_load(&through) < THREADS - 1) {
            done(fodderpause_poll(seat).code);
            sched_yield();
        }
        values_found = count_values(seat);
    }
    done(fodderpause_leave(seat).code);
    atomic_fetch_add(&through, 1);
    return NULL;
}

static void *turn_all(void *unused)
{
    (void) unused;
    while (atomic_load(&through) < THREADS) {
        fodderpause_turned turned = fodderpause_turn(&collector);
        done(turned.code);
        if (turned.kind == FODDERPAUSE_WAITS) {
            sched_yield();
        }
    }
    return NULL;
}

int main(void)
{
    pthread_t threads[THREADS + 1];

    done(fodderpause_make(1024, 64, 1, &collector, seats, THREADS));
    done(fodderpause_new_array(&seats[0], TABLE, BUCKETS).code);
    set(&seats[0], BOARD, 0, TABLE);
    for (int k = 0; k < THREADS; k++) {
        if (pthread_create(&threads[k], NULL, work, &seats[k]) != 0) {
            return 1;
        }
    }
    if (pthread_create(&threads[THREADS], NULL, turn_all, NULL) != 0) {
        return 1;
    }
    for (int k = 0; k <= THREADS; k++) {
        pthread_join(threads[k], NULL);
    }
    printf("%ld values were put, %ld were found, %ld were wrong\n", atomic_load(&puts_made), values_found, atomic_load(&wrong));
    for (int k = 0; k < THREADS; k++) {
        done(fodderpause_fold_in(&collector, &seats[k]));
    }
    done(fodderpause_close(&collector));
    puts("closed");
    return 0;
}
