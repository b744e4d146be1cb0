/* Trees of depth 12, which are 8,191 records each, made and dropped 500 times in one thread. */
#include "alone.h"

enum { DEPTH = 12, TREES = 500 };

enum { TREE = 1, NODE, STACK, PUSHED };

/* A node's fields, and those of a record of the stack of roots. */
enum { LEFT, RIGHT };
enum { ITS_ROOT, BELOW };

/* Puts what register r holds on the stack of roots, so that the collector knows of it while the register has something else. */
static void push(uint32_t r)
{
    new_record(PUSHED, 2);
    set(&seat, PUSHED, ITS_ROOT, r);
    set(&seat, PUSHED, BELOW, STACK);
    copy(&seat, STACK, PUSHED);
    nil(&seat, PUSHED);
}

/* Takes from the stack what was put there last. */
static void pop(uint32_t d)
{
    get(&seat, d, STACK, ITS_ROOT);
    get(&seat, STACK, STACK, BELOW);
}

/* Makes a tree of this depth. */
static void make_tree(int depth)
{
    if (depth == 0) {
        new_record(TREE, 2);
        return;
    }
    make_tree(depth - 1);
    push(TREE);
    make_tree(depth - 1);
    new_record(NODE, 2);
    set(&seat, NODE, RIGHT, TREE);
    pop(TREE);
    set(&seat, NODE, LEFT, TREE);
    copy(&seat, TREE, NODE);
}

/* How many records the tree has. */
static unsigned count(void)
{
    if (fodderpause_length(&seat, TREE).code != FODDERPAUSE_DONE) {
        return 0;
    }
    unsigned records = 1;
    push(TREE);
    get(&seat, TREE, TREE, LEFT);
    records += count();
    pop(TREE);
    get(&seat, TREE, TREE, RIGHT);
    return records + count();
}

int main(void)
{
    done(fodderpause_make(2048, 0, 1, &collector, &seat, 1));
    nil(&seat, STACK);
    for (int k = 0; k < TREES; k++) {
        make_tree(DEPTH);
    }
    unsigned made = UINT32_MAX - fodderpause_names_left(&seat).number;
    printf("%d trees, by %u records\n", TREES, made);
    printf("the last tree has %u\n", count());
    close_heap();
    puts("closed");
    return 0;
}
