/* examples/c/binary_trees.c on the collector of Boehm, Demers and Weiser: the benchmarks game's binary trees. The depth is the argument, or 13. */
#include "boehm.h"

#include <stdio.h>
#include <stdlib.h>

enum { LEAST = 4 };

struct node { struct node *left, *right; };

static struct node *make_tree(int depth)
{
    struct node *node = GC_malloc(sizeof(struct node));
    if (depth > 0) {
        node->left = make_tree(depth - 1);
        node->right = make_tree(depth - 1);
    }
    return node;
}

static long count(const struct node *node)
{
    return node == NULL ? 0 : 1 + count(node->left) + count(node->right);
}

int main(int arguments, char **argument)
{
    int most = arguments > 1 ? atoi(argument[1]) : 13;
    GC_init();
    printf("stretch tree of depth %d\t check: %ld\n", most + 1, count(make_tree(most + 1)));
    struct node *long_lived = make_tree(most);
    for (int depth = LEAST; depth <= most; depth += 2) {
        long trees = 1L << (most - depth + LEAST);
        long check = 0;
        for (long k = 0; k < trees; k++) {
            check += count(make_tree(depth));
        }
        printf("%ld\t trees of depth %d\t check: %ld\n", trees, depth, check);
    }
    printf("long lived tree of depth %d\t check: %ld\n", most, count(long_lived));
    return 0;
}
