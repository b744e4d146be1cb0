/* Times bare atomic operations, each sequentially consistent: those of the words of a heap that calls of a seat and turns of the collector make, of the same
   number and kind and at the same places, with nothing decided between them. Prints for each what is timed, how many of it there are, and the least time of
   sixty in nanoseconds. */
#include <stdatomic.h>
#include <stdint.h>
#include <stdio.h>
#include <stdlib.h>
#include <string.h>
#include <time.h>

#define GROUPS 1024u
#define CALLS 8192u
#define ARRAYS 8192u
#define SPINE 16u
#define CONTROL 19u
#define FRAGMENTS (CONTROL + GROUPS)
#define LENGTH (CONTROL + 65u * GROUPS)

static _Atomic uint64_t *words;
static volatile uint64_t sink;

static uint64_t now(void) {
    struct timespec t;
    clock_gettime(CLOCK_MONOTONIC, &t);
    return (uint64_t)t.tv_sec * 1000000000u + (uint64_t)t.tv_nsec;
}

static void clear(void) {
    for (unsigned i = 0; i < LENGTH + SPINE; i++)
        atomic_store_explicit(&words[i], 0, memory_order_relaxed);
}

static _Atomic uint64_t *word(unsigned fragment, unsigned part) { return &words[FRAGMENTS + 4u * fragment + part]; }

/* Records of one fragment: a claim a group, and of each record four stores and a birth. */
static void records(void) {
    for (unsigned fragment = 16; fragment < 16 + CALLS; fragment++) {
        if (fragment % 16 == 0)
            sink = atomic_fetch_or(&words[CONTROL + fragment / 16], 0xffff);
        for (unsigned part = 0; part < 4; part++)
            atomic_store(word(fragment, part), fragment);
        sink = atomic_fetch_or(&words[CONTROL + fragment / 16], (uint64_t)0x10000 << fragment % 16);
    }
}

/* A get loads the meta and the field. */
static void gets(void) {
    for (unsigned i = 0; i < CALLS; i++) {
        sink = atomic_load(word(11, 0));
        sink = atomic_load(word(11, 2));
    }
}

/* A set loads the meta and exchanges the field. */
static void sets(void) {
    for (unsigned i = 0; i < CALLS; i++) {
        sink = atomic_load(word(11, 0));
        sink = atomic_exchange(word(11, 2), i);
    }
}

/* A compare and swap loads the meta and compares the field. Each but the first finds another word. */
static void swaps(void) {
    for (unsigned i = 0; i < CALLS; i++) {
        uint64_t old = 0;
        sink = atomic_load(word(11, 0));
        sink = atomic_compare_exchange_strong(word(11, 2), &old, i + 1);
    }
}

/* A get, and then one that finds the word that was got. */
static void pairs(void) {
    for (unsigned i = 0; i < CALLS; i++) {
        sink = atomic_load(word(11, 0));
        uint64_t old = atomic_load(word(11, 2));
        sink = atomic_load(word(11, 0));
        sink = atomic_compare_exchange_strong(word(11, 2), &old, i + 1);
    }
}

/* A call that changes registers alone loads the phase. */
static void locals(void) {
    for (unsigned i = 0; i < CALLS; i++)
        sink = atomic_load(&words[0]);
}

/* An array of 64 cells: its spine words are asked for, two groups claimed, its spine placed and stored, its words stored and born; then each cell is set and got, by the meta, the
   spine's address and the spine word. */
static void arrays(void) {
    for (unsigned i = 0; i < ARRAYS; i++) {
        unsigned first = 16 + i % (GROUPS / 2) * 16;
        sink = atomic_fetch_add(&words[17], 16);
        sink = atomic_fetch_or(&words[CONTROL + first / 16], 0xffff);
        sink = atomic_fetch_or(&words[CONTROL + first / 16 + 1], 0xffff);
        sink = atomic_fetch_add(&words[18], 16);
        for (unsigned word = 0; word < 16; word++)
            atomic_store(&words[LENGTH + word], first + 1 + word);
        for (unsigned fragment = first; fragment < first + 17; fragment++)
            for (unsigned part = 0; part < 4; part++)
                atomic_store(word(fragment, part), fragment);
        sink = atomic_fetch_or(&words[CONTROL + first / 16 + 1], 0x10000);
        sink = atomic_fetch_or(&words[CONTROL + first / 16], 0xffff0000);
        for (unsigned cell = 0; cell < 128; cell++) {
            sink = atomic_load(word(first, 0));
            sink = atomic_load(word(first, 2));
            sink = atomic_load(&words[LENGTH + cell % 64 / 4]);
            if (cell < 64)
                sink = atomic_exchange(word(first + 1 + cell / 4, cell % 4), cell);
            else
                sink = atomic_load(word(first + 1 + cell % 64 / 4, cell % 4));
        }
    }
}

/* The turns of a cycle that frees all of a full heap whose one seat has left. */
static unsigned turns(void) {
    unsigned made = 0;
    for (unsigned phase = 1; phase <= 6; phase++, made += 2) {
        sink = atomic_load(&words[1]);
        atomic_store(&words[0], phase);
    }
    for (unsigned group = 0; group < GROUPS; group++, made++)
        sink = atomic_load(&words[CONTROL + group]);
    atomic_store(&words[18], 0);
    made++;
    for (unsigned group = 0; group < GROUPS; group++, made++)
        sink = atomic_load(&words[CONTROL + group]);
    for (unsigned group = 0; group < GROUPS; group++, made += 18) {
        sink = atomic_load(&words[CONTROL + group]);
        for (unsigned j = 0; j < 16; j++)
            sink = atomic_load(word(16 * group + j, 0));
        sink = atomic_fetch_and(&words[CONTROL + group], ~(uint64_t)0xffffffff);
    }
    for (unsigned group = 0; group < GROUPS; group++, made++)
        sink = atomic_fetch_and(&words[CONTROL + group], 0xffffffff);
    atomic_store(&words[0], 7);
    return made + 2;
}

static void told(const char *name, void (*calls)(void)) {
    uint64_t least = UINT64_MAX;
    for (int i = 0; i < 60; i++) {
        clear();
        uint64_t start = now();
        calls();
        uint64_t time = now() - start;
        if (time < least)
            least = time;
    }
    printf("%s %u %llu\n", name, CALLS, (unsigned long long)least);
}

int main(void) {
    words = aligned_alloc(64, ((LENGTH + SPINE) * 8u + 63u) / 64u * 64u);
    if (!words)
        return 1;
    told("new", records);
    told("get", gets);
    told("set", sets);
    told("cas", swaps);
    told("pair", pairs);
    told("num", locals);
    told("array", arrays);
    uint64_t least = UINT64_MAX;
    unsigned made = 0;
    for (int i = 0; i < 60; i++) {
        clear();
        uint64_t start = now();
        made = turns();
        uint64_t time = now() - start;
        if (time < least)
            least = time;
    }
    printf("turns %u %llu\n", made, (unsigned long long)least);
    return 0;
}
