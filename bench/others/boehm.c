/* The work of seat.c on the collector of Boehm, Demers and Weiser. With the word `incremental` the collector works in that mode of its own. Fields are read and written by sequentially consistent atomic
   operations, as other threads may use them. Prints for each kind what is timed, how many of it there are, and the least time of ten in nanoseconds; how long single records
   took; how large the heap was in the end; and what 1, 2 and 4 threads take, each of which makes records with a set and a get after each. */
#include "boehm.h"
#include "timing.h"
#include "work.h"

#include <stdlib.h>
#include <string.h>

struct record { struct record *field[2]; };

static struct record *volatile held;
static struct record *volatile other;
static struct record *volatile root;
static struct record **volatile array;
static struct record **shelves[SHELVES];
static volatile uintptr_t sink;

static struct record *new_record(void) { return GC_malloc(sizeof(struct record)); }

static void set(struct record **cell, struct record *value) { sink = (uintptr_t) __atomic_exchange_n(cell, value, __ATOMIC_SEQ_CST); }

static void get(struct record **cell) { sink = (uintptr_t) __atomic_load_n(cell, __ATOMIC_SEQ_CST); }

static void records(void)
{
    for (unsigned i = 0; i < RECORDS; i++) {
        held = new_record();
    }
}

static void gets(void)
{
    for (unsigned i = 0; i < FIELDS; i++) {
        get(&other->field[0]);
    }
}

static void sets(void)
{
    for (unsigned i = 0; i < FIELDS; i++) {
        set(&other->field[0], held);
    }
}

static void arrays(void)
{
    for (unsigned i = 0; i < ARRAYS; i++) {
        array = GC_malloc(CELLS * sizeof(struct record *));
        for (unsigned cell = 0; cell < CELLS; cell++) {
            set(&array[cell], held);
        }
        for (unsigned cell = 0; cell < CELLS; cell++) {
            get(&array[cell]);
        }
    }
}

static struct record *tree(int height)
{
    struct record *node = new_record();
    if (height > 0) {
        set(&node->field[0], tree(height - 1));
        set(&node->field[1], tree(height - 1));
    }
    return node;
}

static void trees(void)
{
    for (unsigned i = 0; i < TREES; i++) {
        root = tree(DEPTH);
    }
}

static void fill_shelves(void)
{
    for (unsigned shelf = 0; shelf < SHELVES; shelf++) {
        shelves[shelf] = GC_malloc(SHELF * sizeof(struct record *));
        for (unsigned cell = 0; cell < SHELF; cell++) {
            set(&shelves[shelf][cell], new_record());
        }
    }
}

static void replace_some(void)
{
    uint32_t state = 1;
    for (unsigned i = 0; i < REPLACED; i++) {
        uint32_t number = drawn(&state) % (SHELVES * SHELF);
        set(&shelves[number / SHELF][number % SHELF], new_record());
    }
}

static void single(void)
{
    static struct spread calls;
    for (unsigned i = 0; i < SINGLE; i++) {
        uint64_t start = now();
        held = new_record();
        add_time(&calls, now() - start);
    }
    told_spread("record", &calls);
}

static void *work(void *unused)
{
    struct record *one = new_record();
    (void) unused;
    for (unsigned i = 0; i < RECORDS; i++) {
        set(&one->field[0], new_record());
        get(&one->field[0]);
    }
    return NULL;
}

static void told_threads(int threads)
{
    uint64_t least = UINT64_MAX;
    for (int i = 0; i < 3; i++) {
        pthread_t started[MOST_THREADS];
        uint64_t start = now();
        for (int k = 0; k < threads; k++) {
            if (GC_pthread_create(&started[k], NULL, work, NULL) != 0) {
                exit(1);
            }
        }
        for (int k = 0; k < threads; k++) {
            GC_pthread_join(started[k], NULL);
        }
        uint64_t time = now() - start;
        if (time < least) {
            least = time;
        }
    }
    printf("threads-%d %u %llu\n", threads, (unsigned) RECORDS, (unsigned long long) least);
}

int main(int count, char **words)
{
    GC_init();
    if (count > 1 && !strcmp(words[1], "incremental")) {
        GC_enable_incremental();
    }
    other = new_record();
    told("record", RECORDS, 10, records);
    told("get", FIELDS, 10, gets);
    told("set", FIELDS, 10, sets);
    told("array", ARRAYS, 10, arrays);
    single();
    told("tree", TREES * 8191, 10, trees);
    fill_shelves();
    told("live", REPLACED, 10, replace_some);
    printf("heap %zu 0\n", GC_get_heap_size());
    for (int threads = 1; threads <= MOST_THREADS; threads *= 2) {
        told_threads(threads);
    }
    return 0;
}
