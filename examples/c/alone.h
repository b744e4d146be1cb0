/* One seat and its collector in one thread: the thread makes the collector's turns itself. */
#ifndef ALONE_H
#define ALONE_H

#include "registers.h"

static fodderpause_collector collector = FODDERPAUSE_NO_COLLECTOR;
static fodderpause_seat seat = FODDERPAUSE_NO_SEAT;

/* Where there is too little space, two cycles are ended first; where that is too little still, the program ends. */
static inline void new_record(uint32_t d, uint32_t fields)
{
    done(fodderpause_new_record_with_turns(&collector, &seat, 1, 0, d, fields).code);
}

static inline void new_array(uint32_t d, uint32_t cells)
{
    done(fodderpause_new_array_with_turns(&collector, &seat, 1, 0, d, cells).code);
}

/* The seat leaves and is folded in, and the heap is closed. */
static inline void close_heap(void)
{
    done(fodderpause_leave(&seat).code);
    done(fodderpause_fold_in(&collector, &seat));
    done(fodderpause_close(&collector));
}

#endif
