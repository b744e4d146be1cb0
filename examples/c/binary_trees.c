/* The benchmarks game's binary trees: one long-lived tree beside many that are made, counted and dropped. The depth is the argument, or 13. */
#include "alone.h"
#include "fodderpause_tools.h"

enum { LONG_LIVED = 1, TREE, NODE, ROOTS };
enum { LEFT, RIGHT };
enum { LEAST = 4 };

static fodderpause_roots roots;

/* Makes a tree of this depth, in register TREE. */
static void make_tree(int depth)
{
    if (depth == 0) {
        new_record(TREE, 2);
        return;
    }
    make_tree(depth - 1);
    done(fodderpause_push(&roots, TREE));
    make_tree(depth - 1);
    new_record(NODE, 2);
    set(&seat, NODE, RIGHT, TREE);
    done(fodderpause_pop(&roots, TREE));
    set(&seat, NODE, LEFT, TREE);
    copy(&seat, TREE, NODE);
}

/* How many records the tree in register TREE has. */
static long count(void)
{
    done(fodderpause_push(&roots, TREE));
    long records = 1;
    if (get(&seat, TREE, TREE, LEFT).kind == FODDERPAUSE_OBJECT) {
        records += count();
        done(fodderpause_peek(&roots, TREE, 0));
        get(&seat, TREE, TREE, RIGHT);
        records += count();
    }
    done(fodderpause_pop(&roots, TREE));
    return records;
}

int main(int arguments, char **argument)
{
    int most = arguments > 1 ? atoi(argument[1]) : 13;
    if (most < LEAST + 2 || most > 14) {
        fputs("a depth of 6 to 14\n", stderr);
        return 2;
    }
    done(fodderpause_make(4096, 32, 1, &collector, &seat, 1));
    done(fodderpause_roots_make(&roots, &seat, ROOTS, 64));

    make_tree(most + 1);
    printf("stretch tree of depth %d\t check: %ld\n", most + 1, count());
    nil(&seat, NODE);
    make_tree(most);
    copy(&seat, LONG_LIVED, TREE);

    for (int depth = LEAST; depth <= most; depth += 2) {
        long trees = 1L << (most - depth + LEAST);
        long check = 0;
        for (long k = 0; k < trees; k++) {
            make_tree(depth);
            check += count();
        }
        printf("%ld\t trees of depth %d\t check: %ld\n", trees, depth, check);
    }
    copy(&seat, TREE, LONG_LIVED);
    printf("long lived tree of depth %d\t check: %ld\n", most, count());
    close_heap();
    return 0;
}
