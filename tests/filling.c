/* Four threads fill a heap with what stays in use, beside a thread that makes the collector's turns: each is told that it is full, and then it is. Says a line for each answer that is otherwise. */
#define _POSIX_C_SOURCE 200809L
#include <sched.h>

#define FODDERPAUSE_REST() sched_yield()
#include "fodderpause.h"

#include <pthread.h>
#include <stdatomic.h>
#include <stdio.h>

enum { THREADS = 4, GROUPS = 64, RESERVE = 15 };

/* The registers of a list whose records take a fragment each. */
enum { LIST = 1, NODE };

static fodderpause_collector collector = FODDERPAUSE_NO_COLLECTOR;
static fodderpause_seat seats[THREADS];
static atomic_int through;
static atomic_uint made;
static atomic_int failed;

static void is(const char *what, uint32_t code, uint32_t wanted)
{
    if (code != wanted) {
        printf("%s: %s, and not %s\n", what, fodderpause_code_text(code), fodderpause_code_text(wanted));
        atomic_store(&failed, 1);
    }
}

static void *fill(void *handle)
{
    fodderpause_seat *seat = handle;
    uint32_t code = fodderpause_nil(seat, LIST).code;
    while (code == FODDERPAUSE_DONE) {
        code = fodderpause_new_record_or_collect(seat, NODE, 2).code;
        if (code == FODDERPAUSE_DONE) {
            atomic_fetch_add(&made, 1);
            is("a link", fodderpause_set(seat, NODE, 0, LIST).code, FODDERPAUSE_DONE);
            is("the list", fodderpause_copy(seat, LIST, NODE).code, FODDERPAUSE_DONE);
        }
    }
    is("the end", code, FODDERPAUSE_FULL);
    atomic_fetch_add(&through, 1);
    while (atomic_load(&through) < THREADS) {
        is("a poll", fodderpause_poll(seat).code, FODDERPAUSE_DONE);
        sched_yield();
    }
    is("leave", fodderpause_leave(seat).code, FODDERPAUSE_DONE);
    atomic_fetch_add(&through, 1);
    return NULL;
}

static void *turn(void *unused)
{
    (void) unused;
    while (atomic_load(&through) < 2 * THREADS) {
        fodderpause_turned turned = fodderpause_turn(&collector);
        is("a turn", turned.code, FODDERPAUSE_DONE);
        if (turned.kind == FODDERPAUSE_WAITS) {
            sched_yield();
        }
    }
    return NULL;
}

int main(void)
{
    pthread_t threads[THREADS + 1];
    is("make", fodderpause_make(GROUPS, 0, 1, &collector, seats, THREADS), FODDERPAUSE_DONE);
    for (int k = 0; k <= THREADS; k++) {
        if (pthread_create(&threads[k], NULL, k < THREADS ? fill : turn, k < THREADS ? &seats[k] : NULL) != 0) {
            puts("no thread");
            return 1;
        }
    }
    for (int k = 0; k <= THREADS; k++) {
        pthread_join(threads[k], NULL);
    }
    if (atomic_load(&made) + 1 + THREADS * RESERVE < 16 * GROUPS) {
        printf("full with %u records\n", atomic_load(&made));
        return 1;
    }
    for (int k = 0; k < THREADS; k++) {
        is("fold in", fodderpause_fold_in(&collector, &seats[k]), FODDERPAUSE_DONE);
    }
    is("close", fodderpause_close(&collector), FODDERPAUSE_DONE);
    return atomic_load(&failed);
}
