/* examples/c/map.c on the collector of Boehm, Demers and Weiser: a map that four threads share, changed by compare and swap. */
#include "boehm.h"

#include <stdatomic.h>
#include <stdbool.h>
#include <stdint.h>
#include <stdio.h>

enum { THREADS = 4, BUCKETS = 256, KEYS = 1000, EACH = 50000 };

struct value { uint32_t what, which, by_whom, checksum; };

struct entry {
    uint32_t key;
    struct entry *next;
    _Atomic(struct value *) value;
};

static _Atomic(struct entry *) table[BUCKETS];
static atomic_long puts_made;
static atomic_long wrong;

static uint32_t sum(uint32_t what, uint32_t which, uint32_t whom)
{
    return (what * 2654435761u ^ which * 40503u ^ whom) & 0x3fffffff;
}

static struct value *make_value(uint32_t what, uint32_t which, uint32_t whom)
{
    struct value *made = GC_malloc(sizeof(struct value));
    *made = (struct value) {what, which, whom, sum(what, which, whom)};
    return made;
}

/* Which how many-th value of its key it is; a value whose checksum is another's is counted. */
static uint32_t check_value(const struct value *value)
{
    if (value->checksum != sum(value->what, value->which, value->by_whom)) {
        atomic_fetch_add(&wrong, 1);
    }
    return value->which;
}

/* The entry of this key in the list that begins there. */
static struct entry *found(struct entry *entry, uint32_t key)
{
    while (entry != NULL && entry->key != key) {
        entry = entry->next;
    }
    return entry;
}

/* Gives the key a value that is one more than its last. */
static void put(uint32_t key, uint32_t what, uint32_t whom)
{
    for (;;) {
        struct entry *head = atomic_load(&table[key % BUCKETS]);
        struct entry *entry = found(head, key);
        if (entry != NULL) {
            struct value *value = atomic_load(&entry->value);
            if (atomic_compare_exchange_strong(&entry->value, &value, make_value(what, check_value(value) + 1, whom))) {
                break;
            }
        } else {
            struct entry *made = GC_malloc(sizeof(struct entry));
            made->key = key;
            made->next = head;
            atomic_store(&made->value, make_value(what, 1, whom));
            if (atomic_compare_exchange_strong(&table[key % BUCKETS], &head, made)) {
                break;
            }
        }
    }
    atomic_fetch_add(&puts_made, 1);
}

/* A thread's calls: as many gets as puts, of keys that a small generator draws. */
static void *work(void *own)
{
    uint32_t whom = (uint32_t) (uintptr_t) own;
    uint32_t drawn = whom + 1;
    for (uint32_t k = 0; k < EACH; k++) {
        drawn = drawn * 1664525u + 1013904223u;
        uint32_t key = (drawn >> 8) % KEYS;
        if (k % 2 == 0) {
            put(key, drawn >> 4 & 0xfffff, whom);
        } else {
            struct entry *entry = found(atomic_load(&table[key % BUCKETS]), key);
            if (entry != NULL) {
                check_value(atomic_load(&entry->value));
            }
        }
    }
    return NULL;
}

int main(void)
{
    pthread_t threads[THREADS];
    long all = 0;
    GC_init();
    for (uintptr_t k = 0; k < THREADS; k++) {
        if (GC_pthread_create(&threads[k], NULL, work, (void *) k) != 0) {
            return 1;
        }
    }
    for (int k = 0; k < THREADS; k++) {
        GC_pthread_join(threads[k], NULL);
    }
    for (uint32_t key = 0; key < KEYS; key++) {
        struct entry *entry = found(atomic_load(&table[key % BUCKETS]), key);
        all += entry == NULL ? 0 : check_value(atomic_load(&entry->value));
    }
    printf("%ld values were put, %ld were found, %ld were wrong\n", atomic_load(&puts_made), all, atomic_load(&wrong));
    puts("closed");
    return 0;
}
