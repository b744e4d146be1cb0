/* The work of seat.c and seat_threads.c as bare atomic operations, each sequentially consistent: those of the words of a heap that the calls and the turns make, of the same number and kind, with nothing
   decided between them. Of an end of a heap that is used up, the next record is of its first group again. Prints for each kind what is timed, how many of it there are, and the least time of ten, of
   threads of three, in nanoseconds. */
#include "timing.h"
#include "work.h"

#include <pthread.h>
#include <stdatomic.h>
#include <stdlib.h>

#define GROUPS 4096u
#define CONTROL 19u
#define FRAGMENTS (CONTROL + GROUPS)
#define SPINE (FRAGMENTS + 64u * GROUPS)
#define CELLS_A_SPINE_WORD 4u

static _Atomic uint64_t *words;
static atomic_int through;

/* Who makes records in groups of its own, one fragment after another, and turns from group to group. */
struct party { unsigned first, end, next, group, part; };

static struct party one = {2048, GROUPS, 2048 * 16, 0, 0};

static _Atomic uint64_t *control(unsigned group) { return &words[CONTROL + group]; }

static _Atomic uint64_t *word(unsigned fragment, unsigned part) { return &words[FRAGMENTS + 4u * fragment + part]; }

/* A record of one fragment: a claim a group, four stores and a birth. */
static unsigned record(struct party *party)
{
    unsigned fragment = party->next++;
    if (party->next == 16 * party->end) {
        party->next = 16 * party->first;
    }
    if (fragment % 16 == 0) {
        atomic_fetch_or(control(fragment / 16), 0xffff);
    }
    for (unsigned part = 0; part < 4; part++) {
        atomic_store(word(fragment, part), fragment);
    }
    atomic_fetch_or(control(fragment / 16), (uint64_t) 0x10000 << fragment % 16);
    return fragment;
}

/* Turns of cycles that free all: of each group its word is loaded thrice, and each fragment's meta once, and its bits are cleared in two steps. */
static void turns(struct party *party, unsigned count)
{
    for (; count > 0; count--) {
        unsigned part = party->part++;
        if (part < 3) {
            atomic_load(control(party->group));
        } else if (part < 19) {
            atomic_load(word(16 * party->group + part - 3, 0));
        } else if (part == 19) {
            atomic_fetch_and(control(party->group), ~(uint64_t) 0xffffffff);
        } else {
            atomic_fetch_and(control(party->group), 0xffffffff);
            party->part = 0;
            party->group = (party->group + 1) % GROUPS;
        }
    }
}

/* A set loads the meta and exchanges the field; a get loads both. */
static void set(unsigned fragment, unsigned field, unsigned value)
{
    atomic_load(word(fragment, 0));
    atomic_exchange(word(fragment, 2 + field), value);
}

static void get(unsigned fragment, unsigned field)
{
    atomic_load(word(fragment, 0));
    atomic_load(word(fragment, 2 + field));
}

static void records(void)
{
    for (unsigned i = 0; i < RECORDS; i++) {
        record(&one);
        turns(&one, 2);
    }
}

static unsigned tree(unsigned height)
{
    unsigned node = record(&one);
    turns(&one, 6);
    for (unsigned side = 0; height > 0 && side < 2; side++) {
        set(node, side, tree(height - 1));
    }
    return node;
}

static void trees(void)
{
    for (unsigned i = 0; i < TREES; i++) {
        tree(DEPTH);
    }
}

/* A cell of an array: its meta, the address of its spine and a spine word are loaded, and the cell is exchanged. */
static void replace_some(void)
{
    uint32_t state = 1;
    for (unsigned i = 0; i < REPLACED; i++) {
        uint32_t number = drawn(&state) % (SHELVES * SHELF);
        unsigned made = record(&one);
        turns(&one, 20);
        atomic_load(word(number / SHELF, 0));
        atomic_load(word(number / SHELF, 2));
        atomic_load(&words[SPINE + number / CELLS_A_SPINE_WORD]);
        atomic_exchange(word(SHELVES + number / CELLS_A_SPINE_WORD, number % CELLS_A_SPINE_WORD), made);
    }
}

static void *work(void *given)
{
    struct party *party = given;
    unsigned own = record(party);
    for (unsigned i = 0; i < RECORDS; i++) {
        set(own, 0, record(party));
        get(own, 0);
        atomic_load(&words[0]);
    }
    atomic_fetch_add(&through, 1);
    return NULL;
}

static uint64_t timed(unsigned threads)
{
    pthread_t started[MOST_THREADS];
    struct party parties[MOST_THREADS];
    atomic_store(&through, 0);
    uint64_t start = now();
    for (unsigned k = 0; k < threads; k++) {
        parties[k] = (struct party) {k * 1024, (k + 1) * 1024, k * 1024 * 16, 0, 0};
        if (pthread_create(&started[k], NULL, work, &parties[k]) != 0) {
            exit(1);
        }
    }
    while (atomic_load(&through) < (int) threads) {
        turns(&one, 64);
    }
    for (unsigned k = 0; k < threads; k++) {
        pthread_join(started[k], NULL);
    }
    return now() - start;
}

int main(void)
{
    words = aligned_alloc(64, ((SPINE + SHELVES * SHELF / CELLS_A_SPINE_WORD) * 8u + 63u) / 64u * 64u);
    if (!words) {
        return 1;
    }
    for (unsigned i = 0; i < SPINE + SHELVES * SHELF / CELLS_A_SPINE_WORD; i++) {
        atomic_store_explicit(&words[i], 0, memory_order_relaxed);
    }
    told("record", RECORDS, 10, records);
    told("tree", TREES * 8191, 10, trees);
    told("live", REPLACED, 10, replace_some);
    for (unsigned threads = 1; threads <= MOST_THREADS; threads *= 2) {
        uint64_t least = UINT64_MAX;
        for (int i = 0; i < 3; i++) {
            uint64_t time = timed(threads);
            least = time < least ? time : least;
        }
        printf("threads-%u %u %llu\n", threads, (unsigned) RECORDS, (unsigned long long) least);
    }
    return 0;
}
