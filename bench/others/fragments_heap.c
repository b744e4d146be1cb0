/* The heap by the library for C, with one seat: 4,096 groups are 2 MiB of fragments, of which the board takes one. */
#include "fodderpause.h"
#include "fragments.h"

/* Registers: the chain's first and last object, the one that is looked at, the one behind it, and none. */
enum { FIRST = 1, LAST, LOOKED, BEHIND, NONE };

static fodderpause_collector collector = FODDERPAUSE_NO_COLLECTOR;
static fodderpause_seat seat = FODDERPAUSE_NO_SEAT;

static void done(uint32_t code)
{
    if (code != FODDERPAUSE_DONE) {
        fprintf(stderr, "code %u\n", (unsigned) code);
        exit(1);
    }
}

static void open_space(void)
{
    done(fodderpause_make(4096, 0, 1, &collector, &seat, 1));
}

static bool is_nil(uint32_t object)
{
    return fodderpause_same(&seat, object, NONE).number == 1;
}

static bool append(unsigned cells)
{
    uint32_t code = fodderpause_new_record(&seat, LOOKED, cells).code;
    if (code == FODDERPAUSE_FULL) {
        return false;
    }
    done(code);
    if (is_nil(FIRST)) {
        done(fodderpause_copy(&seat, FIRST, LOOKED).code);
    } else {
        done(fodderpause_set(&seat, LAST, 0, LOOKED).code);
    }
    done(fodderpause_copy(&seat, LAST, LOOKED).code);
    return true;
}

static unsigned thin(bool (*does_go)(void))
{
    unsigned dropped = 0;
    does_go();
    done(fodderpause_copy(&seat, LAST, FIRST).code);
    done(fodderpause_get(&seat, LOOKED, LAST, 0).code);
    while (!is_nil(LOOKED)) {
        done(fodderpause_get(&seat, BEHIND, LOOKED, 0).code);
        if (does_go()) {
            done(fodderpause_set(&seat, LAST, 0, BEHIND).code);
            dropped++;
        } else {
            done(fodderpause_copy(&seat, LAST, LOOKED).code);
        }
        done(fodderpause_copy(&seat, LOOKED, BEHIND).code);
    }
    return dropped;
}

/* Two whole cycles: what was dropped before them is free then. */
static void collect(void)
{
    for (int ends = 0; ends < 2;) {
        fodderpause_turned turned = fodderpause_turn(&collector);
        done(turned.code);
        if (turned.kind == FODDERPAUSE_WAITS) {
            done(fodderpause_poll(&seat).code);
        }
        ends += turned.kind == FODDERPAUSE_ENDED;
    }
}
