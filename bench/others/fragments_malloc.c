/* The C library's malloc in an arena that is made once, of 2 MiB, and can't grow: its first call takes all that, and from then on the system gives no more. */
#include "fragments_chain.h"

#include <malloc.h>
#include <sys/resource.h>
#include <unistd.h>

static void open_space(void)
{
    struct rlimit none = {4096, 4096};
    mallopt(M_MMAP_MAX, 0);
    mallopt(M_ARENA_MAX, 1);
    mallopt(M_TRIM_THRESHOLD, 4 * SPACE);
    mallopt(M_TOP_PAD, SPACE - 4096);
    void *volatile begun = malloc(1);
    free(begun);
    if (setrlimit(RLIMIT_DATA, &none) != 0 || mallinfo2().arena != SPACE) {
        fprintf(stderr, "the arena has %zu bytes\n", mallinfo2().arena);
        exit(1);
    }
}

static void *allocated(size_t size) { return malloc(size); }

static void released(void *object) { free(object); }

/* What is freed is joined to its free neighbours, also where it waits to be given again. */
static void collect(void) { malloc_trim(SPACE); }
