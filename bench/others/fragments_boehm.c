/* The collector of Boehm, Demers and Weiser with 2 MiB as its most. Pointers into the midst of objects needn't keep them, as there are none: so none is a byte larger than was asked for. */
#include "boehm.h"
#include "fragments_chain.h"

static void open_space(void)
{
    GC_set_all_interior_pointers(0);
    GC_set_max_heap_size(SPACE);
    GC_set_warn_proc(GC_ignore_warn_proc);
    GC_init();
}

static void *allocated(size_t size) { return GC_malloc(size); }

/* It frees what is found to be dropped. */
static void released(void *object) { memset(object, 0, sizeof(struct object)); }

static void collect(void)
{
    GC_gcollect();
    GC_gcollect();
}
