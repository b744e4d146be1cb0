/* Four threads share a queue through the board: two put numbers into it and two take them out, beside a thread that makes the collector's turns. */
#define _POSIX_C_SOURCE 200809L
#include <sched.h>

/* A thread that waits for the collector lets others go on between two polls. */
#define FODDERPAUSE_REST() sched_yield()
#include "registers.h"

#include <pthread.h>
#include <stdatomic.h>

enum { EACH = 10000, THREADS = 4 };

/* The heap has 1,024 fragments, one for each number in the queue: where so many are in it, those that put wait for those that take. */
enum { MOST = 256 };

enum { HEAD = 1, TAIL, NEXT, NODE, VALUE };

/* The board's fields: the queue's first node, whose number was taken already, and its last. */
enum { FIRST, LAST };

/* A node's fields. */
enum { ITS_VALUE, ITS_NEXT };

static fodderpause_collector collector = FODDERPAUSE_NO_COLLECTOR;
static fodderpause_seat seats[THREADS] = {FODDERPAUSE_NO_SEAT, FODDERPAUSE_NO_SEAT, FODDERPAUSE_NO_SEAT, FODDERPAUSE_NO_SEAT};

/* How many numbers were put in and taken out, and how many threads are through. */
static atomic_int put_in;
static atomic_int taken;
static atomic_int through;

static _Atomic uint64_t sum;

/* A thread that has nothing to do answers the phase, so that it holds nobody up. */
static void rest(fodderpause_seat *seat)
{
    done(fodderpause_poll(seat).code);
    sched_yield();
}

/* Makes a record; where fragments are too few, it waits for the collector. */
static void new_record(fodderpause_seat *seat, uint32_t d, uint32_t fields)
{
    done(fodderpause_new_record_or_collect(seat, d, fields).code);
}

/* Whether field i of register r's object was as register a was read, and so has what register v holds. */
static bool swapped(fodderpause_seat *seat, uint32_t r, uint32_t i, uint32_t a, uint32_t v)
{
    fodderpause_swap swap = fodderpause_cas(seat, r, i, a, v);
    done(swap.code);
    return swap.swapped == 1;
}

/* What a register holds stays, and with it every node that was put behind it since. */
static void forget(fodderpause_seat *seat)
{
    nil(seat, HEAD);
    nil(seat, TAIL);
    nil(seat, NEXT);
    nil(seat, NODE);
}

/* Puts a number behind the queue's last one. */
static void put(fodderpause_seat *seat, uint32_t n)
{
    new_record(seat, NODE, 2);
    num(seat, VALUE, n);
    set(seat, NODE, ITS_VALUE, VALUE);
    for (;;) {
        get(seat, TAIL, BOARD, LAST);
        if (get(seat, NEXT, TAIL, ITS_NEXT).kind == FODDERPAUSE_NIL) {
            if (swapped(seat, TAIL, ITS_NEXT, NEXT, NODE)) {
                swapped(seat, BOARD, LAST, TAIL, NODE);
                forget(seat);
                return;
            }
        } else {
            /* Another thread has put its node there, and not told the board yet. */
            swapped(seat, BOARD, LAST, TAIL, NEXT);
        }
    }
}

/* Takes the queue's first number, where it has one. */
static bool take(fodderpause_seat *seat, uint32_t *n)
{
    for (;;) {
        get(seat, HEAD, BOARD, FIRST);
        get(seat, TAIL, BOARD, LAST);
        bool is_empty = get(seat, NEXT, HEAD, ITS_NEXT).kind == FODDERPAUSE_NIL;
        if (fodderpause_same(seat, HEAD, TAIL).number == 1) {
            if (is_empty) {
                forget(seat);
                return false;
            }
            swapped(seat, BOARD, LAST, TAIL, NEXT);
        } else if (!is_empty) {
            *n = get(seat, VALUE, NEXT, ITS_VALUE).number;
            if (swapped(seat, BOARD, FIRST, HEAD, NEXT)) {
                forget(seat);
                return true;
            }
        }
    }
}

static void leave(fodderpause_seat *seat)
{
    done(fodderpause_leave(seat).code);
    atomic_fetch_add(&through, 1);
}

static void *put_all(void *seat)
{
    for (uint32_t n = 1; n <= EACH; n++) {
        while (atomic_load(&put_in) - atomic_load(&taken) >= MOST) {
            rest(seat);
        }
        atomic_fetch_add(&put_in, 1);
        put(seat, n);
        done(fodderpause_poll(seat).code);
    }
    leave(seat);
    return NULL;
}

static void *take_all(void *seat)
{
    while (atomic_load(&taken) < 2 * EACH) {
        uint32_t n;
        if (take(seat, &n)) {
            atomic_fetch_add(&sum, n);
            atomic_fetch_add(&taken, 1);
            done(fodderpause_poll(seat).code);
        } else {
            rest(seat);
        }
    }
    leave(seat);
    return NULL;
}

static void *turn_all(void *unused)
{
    (void) unused;
    while (atomic_load(&through) < THREADS) {
        fodderpause_turned turned = fodderpause_turn(&collector);
        done(turned.code);
        if (turned.kind == FODDERPAUSE_WAITS) {
            sched_yield();
        }
    }
    return NULL;
}

/* The queue has one node at first, whose number counts for nothing. */
static void open_queue(fodderpause_seat *seat)
{
    new_record(seat, NODE, 2);
    set(seat, BOARD, FIRST, NODE);
    set(seat, BOARD, LAST, NODE);
    forget(seat);
}

int main(void)
{
    pthread_t threads[THREADS + 1];

    done(fodderpause_make(64, 0, 2, &collector, seats, THREADS));
    open_queue(&seats[0]);
    for (int k = 0; k < THREADS; k++) {
        if (pthread_create(&threads[k], NULL, k < 2 ? put_all : take_all, &seats[k]) != 0) {
            return 1;
        }
    }
    if (pthread_create(&threads[THREADS], NULL, turn_all, NULL) != 0) {
        return 1;
    }
    for (int k = 0; k <= THREADS; k++) {
        pthread_join(threads[k], NULL);
    }

    printf("%d numbers, whose sum is %llu\n", atomic_load(&taken), (unsigned long long) atomic_load(&sum));
    for (int k = 0; k < THREADS; k++) {
        done(fodderpause_fold_in(&collector, &seats[k]));
    }
    done(fodderpause_close(&collector));
    puts("closed");
    return 0;
}
